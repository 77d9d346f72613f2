/* A message in a body. One that is short and whose sender waits for nothing stands in the body itself; any other one stands in a parcel, and the body
   says where. A probe is told how long a body is, and can't look into it. So no message makes a body as long as one that refers to a parcel: a
   message that would goes by a parcel too. */
#include "engine/body.h"
#include "progress/progress.h"
#include "search/search.h"
#include <string.h>

enum { REFERRING = sizeof(struct reference) };

/* Copies a message: mostly one of few bytes, by two moves that may overlap. */
static inline void copy_few(void *to, const void *from, size_t length) {
    uint64_t first, last;
    if (length < sizeof first || length > 2 * sizeof first) {
        if (length) memcpy(to, from, length);
        return;
    }
    memcpy(&first, from, sizeof first);
    memcpy(&last, (const char *)from + length - sizeof last, sizeof last);
    memcpy(to, &first, sizeof first);
    memcpy((char *)to + length - sizeof last, &last, sizeof last);
}

static bool is_reference(const struct received *received) { return received->body.content == REFERENCE; }

int um_send_short(uint64_t context, int dest, int world, int tag, struct bytes message) {
    union body body;
    body.whole.content = MESSAGE;
    copy_few(body.whole.message, message.at, message.length);
    uint32_t code = ulfm_isend(um_me->slot, context, (uint32_t)dest, (uint32_t)tag, &body.content, 1 + message.length);
    if (code != ULFM_OK) return um_class_of(code);
    um_me->bed.sent_to |= 1u << world;
    um_move_once();
    return MPI_SUCCESS;
}

static int send_reference(struct parcel *parcel, int dest) {
    struct reference reference = {.content = REFERENCE, .parcel = parcel};
    return um_class_of(ulfm_isend(um_me->slot, parcel->context, (uint32_t)dest, (uint32_t)parcel->tag, &reference.content, sizeof reference));
}

static __attribute__((noinline)) int send_parcel(const struct parcel *like, int dest, struct parcel **waits) {
    struct parcel *parcel = um_new_parcel(like);
    if (!parcel) return MPI_ERR_NO_MEM;
    bool is_known = waits && !um_is_played; /* else see play/matches.c */
    if (is_known) atomic_fetch_add(&um_ranks[parcel->to].shared.waited_for, 1);
    int code = send_reference(parcel, dest);
    if (code != MPI_SUCCESS) {
        if (is_known) atomic_fetch_sub(&um_ranks[parcel->to].shared.waited_for, 1);
        parcel->users = 1;
        um_let_go(parcel);
        return code;
    }
    if (waits && um_footprints) um_footprints[um_step].flags |= WAITED_FOR;
    if (waits) *waits = parcel;
    um_me->bed.sent_to |= 1u << parcel->to;
    um_move_once();
    um_fill_parcel(parcel);
    return MPI_SUCCESS;
}

int um_send_body(uint64_t context, int dest, int world, int tag, struct bytes message, struct parcel **waits) {
    if (waits || !um_is_short(message.length))
        return send_parcel(&(struct parcel){.users = waits ? 3 : 2,
                                            .is_waited_for = waits != 0,
                                            .from = um_me->number,
                                            .to = world,
                                            .context = context,
                                            .tag = tag,
                                            .length = message.length,
                                            .source = message.at},
                           dest, waits);
    return um_send_short(context, dest, world, tag, message);
}

bool um_is_long(size_t length) { return length == REFERRING; }

static size_t length_in(const struct received *received) {
    return is_reference(received) ? received->body.reference.parcel->length : received->told.length - 1;
}

/* Its receiver is done with a parcel. */
static void release(struct parcel *parcel) {
    bool is_known = parcel->is_waited_for && !um_is_played;
    if (is_known) atomic_fetch_sub(&um_me->shared.waited_for, 1);
    um_let_go(parcel);
    if (is_known) um_marked();
}

void um_take_body(const struct received *received, void *buffer, size_t room, MPI_Status *status, int *code) {
    struct parcel *parcel = is_reference(received) ? received->body.reference.parcel : 0;
    size_t whole = length_in(received), length = whole < room ? whole : room;
    if (parcel) um_empty_parcel(parcel, buffer, length);
    else copy_few(buffer, received->body.whole.message, length);
    *code = whole > room ? MPI_ERR_TRUNCATE : MPI_SUCCESS;
    *status = (MPI_Status){.MPI_SOURCE = (int)received->told.source, .MPI_TAG = (int)received->told.tag, .bytes = length};
    if (!parcel) return;
    if (um_is_played && !parcel->is_met) um_match(parcel);
    atomic_store(&parcel->matched, 1);
    release(parcel);
}

void um_drop_body(const struct received *received) {
    if (!is_reference(received)) return;
    struct parcel *parcel = received->body.reference.parcel;
    parcel->is_found = true;
    release(parcel);
}

size_t um_set_body_aside(const struct received *received) {
    if (is_reference(received)) received->body.reference.parcel->is_found = true;
    return length_in(received);
}

size_t um_length_of_probed(const ulfm_status *told, uint64_t context, int from) {
    return told->length == REFERRING ? um_length_of_first(context, from, (int)told->tag) : told->length - 1;
}
