/* The controller of a played run: what may happen next, and that it happens. */
#define _GNU_SOURCE
#include "engine/body.h"
#include "mpi/calls.h"
#include "progress/progress.h"
#include "search/search.h"
#include <setjmp.h>

ulfm_next_item um_heads[MAX_RANKS][MAX_RANKS];
static int spins; /* looks in a row that were made again */
enum { MOST_SPINS = 10000 };

/* ---- What ranks do in place of threads: see progress.c ---- */

/* Looks in passing at all that is open. A look that finds nothing is no event. */
static void look_in_passing(void) {
    struct player *own = &um_players[um_me->number];
    bool was_in_wait = own->in_wait;
    own->in_wait = own->is_passing = true;
    if (!was_in_wait) um_forget_silent(um_me->number);
    do {
        own->is_first = true;
        own->looks_anew = false;
        own->taken_before = own->taken;
        um_look_at_open();
    } while (own->looks_anew);
    own->is_passing = false;
    own->in_wait = was_in_wait;
    if (!was_in_wait && um_footprints) um_keep_silent(um_me->number);
}

/* Looks at what is open, where something came since the last time. A duplicate that is made sends as soon as it can: that nothing came counts there. */
void um_look_as_played(void) {
    const struct player *own = &um_players[um_me->number];
    if (own->taken != own->taken_before || um_is_copying(0)) look_in_passing();
}

/* The rank waits until something comes, or a mark changes. */
static void wait_for_more(struct player *own) {
    own->state = WAITS;
    atomic_store(&um_me->shared.idle, 1);
    um_to_controller();
    atomic_store(&um_me->shared.idle, 0);
}

/* The rank ends the run, by MPI_Abort or a fatal error, once nobody else can do anything more: so the search sees what might have come before. */
void um_wait_to_end_all(void) {
    um_players[um_me->number].state = ENDS_ALL;
    um_to_controller();
}

void um_wait_as_played(bool (*is_done)(void *, bool is_settled), void *of) {
    struct player *own = &um_players[um_me->number];
    bool was_in_wait = own->in_wait;
    own->in_wait = true;
    for (;;) {
        own->taken_at_wait = own->taken;
        own->marks_at_wait = um_count_of_marks();
        um_forget_silent(um_me->number);
        um_look_as_played();
        own->is_first = true;
        own->looks_anew = false;
        bool is_over = is_done(of, true);
        if (own->looks_anew) continue;
        if (is_over) break;
        own->is_granted = false;
        if (own->taken == own->taken_at_wait && um_count_of_marks() == own->marks_at_wait) wait_for_more(own);
    }
    own->in_wait = was_in_wait;
    own->is_granted = own->looks_anew = false;
    if (um_footprints) um_keep_silent(um_me->number);
}

/* ---- What may happen next ---- */

/* What is first from a rank to each. */
void um_look_ahead(int from) {
    for (int k = 0; k < um_options.ranks; k++) ulfm_next(&um_ranks[k].home, (uint32_t)from, &um_heads[from][k]);
}

/* Each rank that waits and may find something now looks, as far as it gets without an event. */
void um_settle(void) {
    for (bool again = true; again;) {
        again = false;
        for (int k = 0; k < um_options.ranks; k++) {
            struct player *player = &um_players[k];
            if (player->state != WAITS || (player->taken == player->taken_at_wait && player->marks_at_wait == um_count_of_marks())) continue;
            um_resume(k);
            again = true;
        }
    }
}

static struct event event_of_item(int from, int to) {
    const ulfm_next_item *item = &um_heads[from][to];
    if (um_players[from].has_stopped && um_is_blocked(from, to))
        return (struct event){.kind = LOSES, .rank = (uint8_t)to, .peer = (uint8_t)from, .tag = -1};
    bool is_message = item->kind == ULFM_MESSAGE, is_entry = item->kind == ULFM_SHRINK_ENTRY || item->kind == ULFM_AGREE_ENTRY;
    return (struct event){.kind = TAKES,
                          .rank = (uint8_t)to,
                          .peer = (uint8_t)from,
                          .item = (uint8_t)item->kind,
                          .comm = (uint8_t)um_number_of(item->comm),
                          .tag = is_message ? (int32_t)item->tag
                                 : is_entry ? (int32_t)item->round
                                            : -1};
}

static bool can_take(int from, int to) { return !um_players[to].has_stopped && um_heads[from][to].kind != ULFM_NOTHING && !um_is_held(from, to); }

/* Word of a revocation that is known there changes nothing, whenever it comes: it goes first. */
static bool brings_nothing(int from, int to) {
    return can_take(from, to) && um_heads[from][to].kind == ULFM_REVOCATION && um_is_known_revoked(to, um_number_of(um_heads[from][to].comm));
}

/* What may happen next: the calls of ranks, and the items that may be taken. Looks that would find what they found are made where nothing else can happen. */
int um_list_choices(struct event *choices) {
    int count = 0, again = 0;
    for (int to = 0; to < um_options.ranks; to++)
        for (int from = 0; from < um_options.ranks; from++)
            if (brings_nothing(from, to)) {
                choices[0] = event_of_item(from, to);
                return 1;
            }
    for (int k = 0; k < um_options.ranks; k++) {
        if (um_players[k].state != AT_CALL) continue;
        if (um_looks_again(&um_players[k]) && !um_is_exchanging()) again++;
        else choices[count++] = um_players[k].call;
    }
    for (int to = 0; to < um_options.ranks; to++)
        for (int from = 0; from < um_options.ranks; from++)
            if (can_take(from, to)) choices[count++] = event_of_item(from, to);
    spins = count ? 0 : spins + 1;
    for (int k = 0; k < um_options.ranks && !count && again && spins < MOST_SPINS; k++)
        if (um_players[k].state == AT_CALL) choices[count++] = um_players[k].call, again = 0;
    return count;
}

static void take(const struct event *event) {
    struct rank *rank = &um_ranks[event->rank];
    uint32_t took = 0, moved;
    bool was_revoked = um_is_known_revoked(event->rank, event->comm);
    const ulfm_next_item *head = &um_heads[event->peer][event->rank];
    bool is_long = head->kind == ULFM_MESSAGE && um_is_long(head->length);
    struct parcel *parcel = is_long ? um_parcel_that_comes(event->rank, event->peer, head->comm, (int)head->tag) : 0;
    um_note_item(event->rank, event->peer, head);
    ulfm_take(&rank->home, event->peer, &took);
    if (um_footprints) um_note_taken(event, was_revoked);
    if (parcel) um_note_come(parcel);
    ulfm_push(&rank->home, &moved); /* word of a revocation is handed on */
    um_block_rings(event->rank);
    ulfm_push(&um_ranks[event->peer].home, &moved); /* what found no place before */
    um_players[event->rank].taken++;
    um_forget_looks(&um_players[event->rank]);
    um_look_ahead(event->peer);
}

void um_perform(const struct event *event) {
    if (event->kind == TAKES || event->kind == LOSES) um_unblock(event->peer, event->rank);
    if (um_footprints) um_begin_footprint(event);
    if (event->kind == TAKES) take(event);
    else if (event->kind == LOSES) um_look_ahead(event->peer);
    else um_resume(event->rank);
    um_look_ahead(event->rank);
    um_settle();
    um_step++;
}
