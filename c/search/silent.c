/* Looks that are no events: those in vain of a wait, or in passing; and how a sender looks at a send that waits for its match. */
#include "progress/progress.h"
#include "search/search.h"
#include <string.h>

static struct silence silent[MAX_RANKS][SILENT];
static int silent_count[MAX_RANKS];
static uint8_t silent_sends[MAX_RANKS]; /* bits of those to whom the sends went */
static int ended_by[MAX_RANKS];         /* the item that ended the last wait, its number and 1; 0: none, or a look did */

static struct footprint *present(void) { return &um_footprints[um_step]; }

void um_forget_silent(int rank) { silent_count[rank] = silent_sends[rank] = 0; }

void um_note_silent(const struct event *call) {
    int rank = call->rank, comm = call->comm, source = -2;
    bool is_message = call->kind == TESTS || call->kind == PROBES;
    if (call->kind == LOOKS_AT_SEND) {
        silent_sends[rank] |= (uint8_t)(1u << um_member_at(rank, call->comm, call->peer));
        return;
    }
    int count = silent_count[rank]++;
    if (count >= SILENT) return;
    bool is_found = call->kind == TESTS && um_find_receive(rank, (uint64_t)call->tag, &comm, &source);
    if (!is_found && is_message) source = call->peer == NOBODY ? ANYBODY : um_member_at(rank, call->comm, call->peer);
    silent[rank][count] = (struct silence){(int8_t)comm, (int8_t)source, is_message};
}

/* For the present event, a look in a wait. */
void um_copy_silent(int rank) {
    struct footprint *own = present();
    own->silent_count = silent_count[rank] > SILENT ? TOO_MANY : (uint8_t)silent_count[rank];
    own->sends = silent_sends[rank];
    memcpy(own->silent, silent[rank], sizeof own->silent);
}

static bool has(const struct footprint *e, const struct silence *what) {
    for (int k = 0; k < e->silent_count && k < SILENT; k++)
        if (!memcmp(&e->silent[k], what, sizeof *what)) return true;
    return e->silent_count == TOO_MANY;
}

/* A rank goes on, though it looked at something in vain: that might have come before its last event, which so depends on it. */
void um_keep_silent(int rank) {
    struct footprint *own = present();
    if (own->rank != rank) return;
    if (own->kind == TAKES) ended_by[rank] = um_step + 1;
    own->sends |= silent_sends[rank];
    for (int k = 0; k < silent_count[rank] && own->silent_count != TOO_MANY; k++) {
        if (k >= SILENT || own->silent_count == SILENT) own->silent_count = TOO_MANY;
        else if (!has(own, &silent[rank][k])) own->silent[own->silent_count++] = silent[rank][k];
    }
}

/* The item that ended the last wait of a rank, where no look did; NO_STEP. */
int16_t um_end_of_wait(int rank) {
    int16_t at = (int16_t)(ended_by[rank] - 1);
    ended_by[rank] = 0;
    return at;
}

/* The last call of a rank. */
static int16_t last_call_of(int rank) {
    int at = um_step;
    while (at >= 0 && (um_footprints[at].rank != rank || um_footprints[at].kind == TAKES || um_footprints[at].kind == LOSES)) at--;
    return (int16_t)at;
}

/* The message of a send that waits met its receive; a matched probe's is made after the rank's last call. */
void um_note_match(struct parcel *parcel) {
    struct footprint *own = present();
    own->matches |= (uint8_t)(1u << parcel->from);
    parcel->met_with = own->met == NO_STEP ? last_call_of(parcel->to) : own->met;
}

/* The rank gave others a plane: which one, depends on what these were given before. */
void um_note_given(uint32_t members) {
    if (present()->rank == um_me->number) present()->gives |= (uint8_t)members;
}

/* The sender looked at such a send to a rank. */
void um_end_sent(int to, uint32_t code, const struct parcel *parcel) {
    struct footprint *own = present();
    own->source = (int8_t)to;
    own->other = (uint8_t)to;
    own->answer = code;
    own->flags |= own->waits ? 0 : ASKED;
    if (code == ULFM_NOT_YET) own->flags |= IN_VAIN;
    if (code == ULFM_NOT_YET || code == ULFM_PROC_FAILED) own->fails = (uint8_t)(1u << to);
    if (code != ULFM_OK) return;
    own->flags = (own->flags & ASKED) | FOUND;
    own->found = (int16_t)parcel->matched_at;
    own->met = (int16_t)parcel->met_with;
    own->is_over_anyway = own->waits && um_is_known_revoked(own->rank, own->comm);
}
