/* Which receives are open at each rank, and which messages it kept for receives to come: the engine doesn't tell by which event a request ended, or which
   message a receive got, so it is followed here. */
#include "progress/progress.h"
#include "search/search.h"
#include <string.h>

/* A message that no receive has. */
struct waiting {
    int comm, from, tag;
    int16_t came;
};
static struct receive *receives[MAX_RANKS];
static int failed_at[MAX_RANKS][MAX_RANKS]; /* the event by which a rank learnt of a failure, its number and 1; 0: none */
static struct waiting *waiting[MAX_RANKS];
static int receive_count[MAX_RANKS], waiting_count[MAX_RANKS];

static struct footprint *present(void) { return &um_footprints[um_step]; }

const struct receive *um_receive_of(int rank, uint64_t id) {
    for (int k = 0; k < receive_count[rank]; k++)
        if (receives[rank][k].id == id) return &receives[rank][k];
    return 0;
}

/* Of whom an open receive is, and on which communicator; false where there is none of this number. */
bool um_find_receive(int rank, uint64_t id, int *comm, int *source) {
    const struct receive *receive = um_receive_of(rank, id);
    if (receive) *comm = receive->comm, *source = receive->source;
    return receive != 0;
}

/* Whether an item may end a receive: a message, word of a failure, or of a revocation. */
static bool concerns(const struct footprint *item, const struct receive *receive) {
    bool is_from = receive->source == ANYBODY || receive->source == item->source;
    if (item->kind == TAKES && item->item == ULFM_STOP_NOTICE) return is_from;
    if (item->kind != TAKES || item->item != ULFM_MESSAGE) return receive->comm == item->comm;
    return is_from && receive->comm == item->comm && (receive->tag == -1 || receive->tag == item->tag);
}

/* The present event, word of a failure or of a revocation, ended a receive. */
static void note_ended(const struct receive *receive) {
    present()->ended_on |= 1ull << um_family(receive->comm);
    if (receive->source != ANYBODY) present()->ended_of |= (uint8_t)(1u << receive->source);
    present()->ended_from |= (uint8_t)(receive->source == ANYBODY ? UINT8_MAX : 1u << receive->source);
}

/* An item came that ends open receives. Whether it ended one. */
bool um_end_receives(int rank) {
    bool has_ended = false;
    for (int k = 0; k < receive_count[rank]; k++) {
        struct receive *receive = &receives[rank][k];
        uint32_t code = ULFM_NOT_YET;
        if (!receive->is_open || !concerns(present(), receive)) continue;
        if (ulfm_would(&um_ranks[rank].home, receive->id, &code) != ULFM_OK || code != ULFM_OK) continue;
        receive->is_open = false;
        receive->by = (int16_t)um_step;
        present()->met = receive->posted;
        present()->ended = (uint32_t)receive->id + 1;
        note_ended(receive);
        has_ended = true;
    }
    return has_ended;
}

/* The present event, a message, ended no receive. */
void um_keep_message(int rank) {
    const struct footprint *own = present();
    if (!um_grow(&waiting[rank], waiting_count[rank], sizeof *waiting[rank])) return;
    waiting[rank][waiting_count[rank]++] = (struct waiting){own->comm, own->source, own->tag, (int16_t)um_step};
}

/* Those of a communicator are gone. */
void um_drop_kept(int rank, int comm) {
    int left = 0;
    for (int k = 0; k < waiting_count[rank]; k++)
        if (waiting[rank][k].comm != comm) waiting[rank][left++] = waiting[rank][k];
        else um_footprints[waiting[rank][k].came].is_dropped = true;
    waiting_count[rank] = left;
}

/* The present event is word of a failure. */
void um_note_failure(int rank, int failed) { failed_at[rank][failed] = um_step + 1; }

/* The first message that waits and that a receive or a probe takes; -1: none. */
static int waiting_for(int rank, int comm, int source, int tag) {
    for (int k = 0; k < waiting_count[rank]; k++) {
        const struct waiting *message = &waiting[rank][k];
        if (message->comm == comm && (source == ANYBODY || source == message->from) && (tag == -1 || tag == message->tag)) return k;
    }
    return -1;
}

static void remove_waiting(int rank, int at) {
    waiting_count[rank]--;
    memmove(&waiting[rank][at], &waiting[rank][at + 1], (size_t)(waiting_count[rank] - at) * sizeof **waiting);
}

/* The message that a probe found, which is taken away where it receives that; NO_STEP: none. */
int16_t um_find_message(int rank, int comm, int source, int tag, bool takes, int *from) {
    int at = waiting_for(rank, comm, source, tag);
    if (at < 0) return NO_STEP;
    int16_t came = waiting[rank][at].came;
    *from = waiting[rank][at].from;
    if (takes) remove_waiting(rank, at);
    return came;
}

/* A receive is posted that is over already: by a message that was kept, or by a failure, which ended it beforehand. */
static int16_t end_of_posted(int rank, const struct receive *made) {
    int at = waiting_for(rank, made->comm, made->source, made->tag);
    if (at >= 0) {
        int16_t came = waiting[rank][at].came;
        um_footprints[came].ended = (uint32_t)made->id + 1;
        remove_waiting(rank, at);
        return came;
    }
    if (made->source == ANYBODY || !failed_at[rank][made->source]) return NO_STEP;
    int16_t failure = (int16_t)(failed_at[rank][made->source] - 1);
    um_footprints[failure].ended_on |= 1ull << um_family(made->comm);
    return failure;
}

void um_add_receive(int rank, struct receive made) {
    uint32_t would = ULFM_NOT_YET;
    made.is_open = ulfm_would(&um_ranks[rank].home, made.id, &would) != ULFM_OK || would != ULFM_OK;
    made.posted = (int16_t)um_step;
    made.by = made.is_open ? NO_STEP : end_of_posted(rank, &made);
    present()->met = made.by;
    if (um_grow(&receives[rank], receive_count[rank], sizeof made)) receives[rank][receive_count[rank]++] = made;
}

void um_remove_receive(int rank, const struct receive *receive) {
    int at = (int)(receive - receives[rank]);
    receive_count[rank]--;
    memmove(&receives[rank][at], &receives[rank][at + 1], (size_t)(receive_count[rank] - at) * sizeof **receives);
}
