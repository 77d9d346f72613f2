/* What each event of a schedule reads and changes. */
#include "progress/progress.h"
#include "search/search.h"
#include <stdlib.h>

/* So many shrinks of a communicator have topics of their own, and agreements on it: more than a schedule has events. */
enum { MOST_ROUNDS = 1 << 24 };

struct footprint *um_footprints;
int um_step;

/* The event by which a rank learnt of the revocation of a communicator, its number and 1; 0: it didn't. */
static int revoked_at[MAX_RANKS][CONTEXTS];
static int decided[CONTEXTS]; /* so many agreements on a communicator were decided */

static struct footprint *present(void) { return &um_footprints[um_step]; }
static uint32_t members_of(int rank, int comm) {
    ulfm_group group;
    uint32_t bits = 0;
    if (ulfm_group_of(&um_ranks[rank].home, um_context_of(comm), &group) != ULFM_OK) return 0;
    for (uint32_t k = 0; k < group.size; k++) bits |= 1u << group.members[k];
    return bits;
}

/* The world rank of a position; ANYBODY where it has none. */
int um_member_at(int rank, int comm, uint32_t position) {
    ulfm_group group;
    if (ulfm_group_of(&um_ranks[rank].home, um_context_of(comm), &group) != ULFM_OK || position >= group.size) return ANYBODY;
    return group.members[position];
}

/* A communicator is revoked: word of it goes out, and its messages are gone. */
static void revoke(int rank, int comm) {
    present()->flags |= REVOKED_FIRST;
    um_drop_kept(rank, comm);
    um_end_receives(rank);
    um_push_to_all(rank, UINT32_MAX);
}

/* The present event is word of a revocation, or the rank's own. */
static void note_revoked(int rank, int comm, bool was_revoked) {
    if (!was_revoked) revoked_at[rank][comm] = um_step + 1;
    if (!was_revoked) revoke(rank, comm);
    present()->first = (int16_t)(revoked_at[rank][comm] - 1);
}

/* Before an event. */
void um_begin_footprint(const struct event *event) {
    struct footprint *own = present();
    bool takes = event->kind == TAKES;
    *own = (struct footprint){.process = (uint8_t)process_of(event),
                              .rank = event->rank,
                              .kind = event->kind,
                              .item = event->item,
                              .other = NOBODY,
                              .comm = (int8_t)event->comm,
                              .source = ANYBODY,
                              .tag = event->tag,
                              .pushed = NO_STEP,
                              .by = NO_STEP,
                              .found = NO_STEP,
                              .after = NO_STEP,
                              .met = NO_STEP,
                              .first = NO_STEP};
    if (!takes && event->kind != LOSES) return;
    own->pushed = takes ? um_pull(event->peer, event->rank) : um_lose(event->peer, event->rank);
    own->source = (int8_t)event->peer;
    own->other = event->peer;
    if (!takes) return;
    if (event->item == ULFM_STOP_NOTICE) own->fails = (uint8_t)(1u << event->peer);
    if (event->item == ULFM_AGREE_ENTRY || event->item == ULFM_SHRINK_ENTRY) {
        bool agrees = event->item == ULFM_AGREE_ENTRY;
        own->topic = um_topic_of(event->comm, agrees, event->tag);
    }
    if (event->item == ULFM_MESSAGE && !um_is_known_revoked(event->rank, event->comm)) own->flags = SAW_NO_REVOCATION;
}

/* An item was taken; `was_revoked`: its communicator was known to be revoked before. */
void um_note_taken(const struct event *event, bool was_revoked) {
    if (event->item == ULFM_REVOCATION) note_revoked(event->rank, event->comm, was_revoked);
    if (event->item == ULFM_STOP_NOTICE) {
        um_note_failure(event->rank, event->peer);
        um_end_receives(event->rank);
    }
    if (event->item == ULFM_MESSAGE && !was_revoked && !um_end_receives(event->rank)) um_keep_message(event->rank);
}

/* ---- Calls ---- */

/* The rank makes its call now. */
void um_begin_call(const struct event *call) {
    struct footprint *own = present();
    const struct player *player = &um_players[call->rank];
    own->kind = call->kind;
    own->comm = (int8_t)call->comm;
    own->tag = call->tag;
    own->made_in = um_ranks[call->rank].plan.calls;
    own->waits = player->in_wait && !player->is_passing;
    own->flags = um_is_known_revoked(call->rank, call->comm) ? 0 : SAW_NO_REVOCATION;
    if (call->kind == STOPS) own->flags = 0;
    own->after = um_end_of_wait(call->rank);
    um_note_ends();
    if (player->in_wait) um_copy_silent(call->rank);
}

void um_end_send(uint32_t dest, uint32_t code) {
    struct footprint *own = present();
    int to = um_member_at(own->rank, own->comm, dest);
    own->answer = code;
    if (to == ANYBODY) return;
    own->fails = (uint8_t)(1u << to);
    if (code != ULFM_REVOKED) own->other = (uint8_t)to;
    if (code == ULFM_OK) um_note_push(own->rank, to);
}

void um_end_post(uint32_t source, uint64_t id, uint32_t code) {
    struct footprint *own = present();
    int rank = own->rank, from = source == ULFM_ANY ? ANYBODY : um_member_at(rank, own->comm, source);
    own->answer = code;
    if (code != ULFM_OK) return;
    own->source = (int8_t)from;
    own->other = (uint8_t)from;
    if (from == ANYBODY) own->flags |= OF_ANY;
    um_add_receive(rank, (struct receive){.id = id, .comm = own->comm, .source = from, .tag = own->tag});
}

/* Whether the communicator is known to be revoked whose collectives have this context: a wait for one asks for that too. */
static bool is_revoked_beside(int rank, int comm) { return um_beside(comm) != comm && um_is_known_revoked(rank, um_beside(comm)); }

/* A test or a cancel was answered. */
void um_end_look(uint64_t id, uint32_t code, const ulfm_status *status) {
    struct footprint *own = present();
    const struct receive *receive = um_receive_of(own->rank, id);
    own->flags = !own->waits || own->kind == CANCELS ? ASKED : 0;
    own->tag = -1; /* it was a number, which depends on what came before the receive was posted */
    own->answer = code;
    if (!receive) return;
    own->comm = (int8_t)receive->comm;
    own->source = (int8_t)receive->source;
    own->tag = receive->tag;
    own->is_over_anyway = own->waits && is_revoked_beside(own->rank, receive->comm);
    bool is_cancelled = code == ULFM_OK && status->cancelled;
    if (code != ULFM_OK || is_cancelled) {
        uint32_t any = own->kind == CANCELS ? 0 : members_of(own->rank, receive->comm);
        own->flags |= IN_VAIN | SAW_NO_REVOCATION;
        own->fails = (uint8_t)(receive->source == ANYBODY ? any : 1u << receive->source);
        own->answer = is_cancelled ? 99 : code;
    } else {
        own->by = receive->by;
        own->flags |= FOUND;
        own->answer = status->error ? 100 + status->error : 0;
        if (!status->error) own->other = (uint8_t)um_member_at(own->rank, receive->comm, status->source);
    }
    if (code == ULFM_OK) um_remove_receive(own->rank, receive);
}

void um_end_probe(uint32_t source, uint32_t code, bool takes) {
    struct footprint *own = present();
    int rank = own->rank, from = source == ULFM_ANY ? ANYBODY : um_member_at(rank, own->comm, source);
    own->source = (int8_t)from;
    own->flags |= ASKED | (from == ANYBODY ? OF_ANY : 0);
    own->fails = (uint8_t)(from == ANYBODY ? members_of(rank, own->comm) : 1u << from);
    own->answer = code;
    int sender = NOBODY;
    if (code == ULFM_OK) own->found = um_find_message(rank, own->comm, from, own->tag, takes, &sender);
    if (code != ULFM_OK && code != ULFM_REVOKED) own->flags |= IN_VAIN;
    own->other = (uint8_t)sender;
}

/* A revocation by the rank; `was_revoked`: known before, or refused. */
void um_end_revoke(bool was_revoked) {
    present()->flags = 0;
    note_revoked(present()->rank, present()->comm, was_revoked);
}

/* What the rank asked for its own state of. */
void um_end_question(uint32_t answer) {
    struct footprint *own = present();
    own->answer = answer;
    if (own->kind != ASKS_FAILED && own->kind != ACKNOWLEDGES) return;
    own->flags = 0;
    own->fails = (uint8_t)members_of(own->rank, own->comm);
}

/* .. for whose failures it knows, which have an order. */
void um_end_listed(const ulfm_group *failed) {
    uint32_t list = 0;
    for (uint32_t k = 0; k < failed->size; k++) list = list << 4 | (failed->members[k] + 1u);
    um_end_question(list);
}

uint32_t um_topic_of(int comm, bool agrees, int round) { return 1 + ((uint32_t)comm * 2 + agrees) * MOST_ROUNDS + (uint32_t)round; }
uint32_t um_round_of(uint32_t topic) { return (topic - 1) % MOST_ROUNDS; }

void um_end_entry(bool agrees, uint32_t flag, uint32_t code) {
    struct footprint *own = present();
    own->flags = 0;
    own->answer = flag;
    if (code != ULFM_OK) return;
    own->fails = (uint8_t)members_of(own->rank, own->comm);
    own->entered = agrees ? 0 : um_entered(own->rank, own->comm);
    own->topic = um_topic_of(own->comm, agrees, um_proposal_of(own->rank, own->comm, agrees).round);
    um_push_to_all(own->rank, own->fails);
}

/* A poll; `proposal` is what the rank would propose. */
void um_end_poll(bool agrees, const struct proposal *proposal, uint32_t answer) {
    struct footprint *own = present();
    own->flags = own->waits ? 0 : ASKED;
    own->topic = um_topic_of(own->comm, agrees, proposal->round);
    own->answer = answer;
    if (!proposal->is_possible) {
        own->flags |= IN_VAIN;
        own->fails = proposal->all;
        return;
    }
    own->flags |= FOUND;
    own->listed = proposal->listed;
    own->excluded = proposal->excluded;
    own->by_entries = proposal->by_entries;
    own->fails = agrees ? 0 : proposal->all & (uint8_t)~proposal->by_entries; /* what entries say it knows anyway */
    own->follows = agrees && decided[own->comm] > proposal->round;
    own->optional = own->follows ? proposal->optional : 0;
    if (agrees && !own->follows) decided[own->comm] = proposal->round + 1;
    own->proposal = agrees ? ((uint64_t)proposal->value << 8 | (proposal->listed & proposal->all)) : proposal->excluded;
}
