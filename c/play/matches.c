/* Matches of sends that wait for them, in a run that is played. A message meets its receive as it is taken, or as the receive is posted, or in a matched
   probe's receive: the match is part of that event, whenever the receiver looks at its request. So nobody has to look for the sake of senders. */
#include "engine/body.h"
#include "engine/engine.h"
#include "progress/progress.h"
#include "search/search.h"

__typeof__(ulfm_iprobe) __real_ulfm_iprobe;

/* The message of a parcel met its receive. */
void um_match(struct parcel *parcel) {
    parcel->is_met = true;
    if (!parcel->is_waited_for) return;
    parcel->matched_at = um_step;
    if (um_footprints) um_note_match(parcel);
    atomic_store(&parcel->matched, 1);
    um_marked();
}

/* A rank took the message of a parcel: it met a receive unless it is kept, or gone with its communicator. One like it that was kept before shows that no
   receive wants it. */
void um_note_come(struct parcel *parcel) {
    ulfm_group group;
    ulfm_status told;
    ulfm_slot *slot = &um_ranks[parcel->to].home;
    uint32_t position = 0;
    if (ulfm_group_of(slot, parcel->context, &group) != ULFM_OK) return;
    while (position < group.size && group.members[position] != parcel->from) position++;
    if (__real_ulfm_iprobe(slot, parcel->context, position, (uint32_t)parcel->tag, &told) == ULFM_NOT_YET) um_match(parcel);
}

/* The parcel of the message that a receive gets at once if it is posted; null: it gets none, or a short one. */
struct parcel *um_parcel_for(uint64_t comm, uint32_t source, uint32_t tag) {
    ulfm_status told;
    if (__real_ulfm_iprobe(um_me->slot, comm, source, tag, &told) != ULFM_OK || !um_is_long(told.length)) return 0;
    return um_first_parcel(um_member_at(um_me->number, um_number_of(comm), told.source), comm, (int)told.tag);
}
