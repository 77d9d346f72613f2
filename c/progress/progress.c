/* Progress and waits. What a rank did that another one may see is counted: the moves of its engine at a place of its own, and at one place the marks of
   this layer that other ranks look at (matches, revocations of parts, ends). Each such change comes before its count. A rank that finds nothing
   looks again for some time (patience.c), then sleeps until something concerns it (sleep.c). Where each rank found nothing since the counts' last rise, nobody
   can move any more. */
#define _GNU_SOURCE
#include "progress/progress.h"
#include "mpi/calls.h"
#include "play/play.h"
#include "recovery/recovery.h"
#include "search/search.h"
#include <sched.h>

enum { TURNS = 64, LINE = 128 };

/* On cache lines of its own. */
struct count {
    _Alignas(LINE) _Atomic uint64_t count;
};
static struct count moves[MAX_RANKS], marks;

static uint64_t own_moves(void) { return atomic_load_explicit(&moves[um_me->number].count, memory_order_relaxed); }

static void count_move(void) { atomic_store(&moves[um_me->number].count, own_moves() + 1); /* before the look at who sleeps */ }

/* The rank's engine changed what other ranks may see. */
void um_moved(void) {
    count_move();
    if (um_somebody_sleeps()) um_wake(EVERYBODY);
}

/* A mark of this layer changed that other ranks look at. */
void um_marked(void) {
    atomic_fetch_add(&marks.count, 1);
    if (um_somebody_sleeps()) um_wake(EVERYBODY);
}

/* How often marks changed. */
uint64_t um_count_of_marks(void) { return atomic_load(&marks.count); }

/* How much all ranks did. Counts only rise, so where two sums are the same, no rank did anything from the first one's end to the other's begin. */
static uint64_t all_moves(void) {
    uint64_t sum = um_count_of_marks();
    for (int k = 0; k < um_options.ranks; k++) sum += atomic_load(&moves[k].count);
    return sum;
}

static inline __attribute__((always_inline)) bool turn(void) {
    uint32_t did = 0;
    if (ulfm_turn(um_me->slot, &did) != ULFM_OK || !did) return false;
    um_me->patience.vain = 0;
    count_move();
    if (um_somebody_sleeps()) um_wake_concerned();
    return true;
}

/* Whether anything is open that what came may concern, where the run isn't played; mostly nothing is. */
static inline bool has_open(const struct rank *me) { return atomic_load(&me->shared.waited_for) > 0 || me->mpi.recoveries > 0; }

/* Something came, perhaps: tells the senders that wait for a match, and looks at shrinks and agreements that are open. */
void um_look_at_open(void) {
    if (um_me->life.has_stopped) return;
    if (um_is_waited_for()) um_look_at_all();
    if (um_me->mpi.recoveries > 0) um_look_at_recoveries();
}

/* Moves what goes out, and takes one item that came. Whether anything moved. */
bool um_move_once(void) {
    if (um_is_played) um_look_as_played();
    if (um_is_played || !turn()) return false;
    if (has_open(um_me)) um_look_at_open();
    return true;
}

/* Moves what goes out and comes in. Whether anything moved. */
static bool move_much(void) {
    int turns = 0;
    while (turns < TURNS && turn()) turns++;
    if (turns && has_open(um_me)) um_look_at_open();
    return turns > 0;
}

/* Whether each rank found nothing since all moves were `seen`, and they still are. */
static bool can_nobody_move(uint64_t seen) {
    bool all_gone = true;
    for (int k = 0; k < um_options.ranks; k++) {
        if (!atomic_load(&um_ranks[k].shared.is_gone)) all_gone = false;
        if (!atomic_load(&um_ranks[k].shared.is_ended) && atomic_load(&um_ranks[k].shared.idle) != seen + 1) return false;
    }
    return !all_gone && all_moves() == seen;
}

/* The ranks whose last look was before all moves were `seen`, where each other rank sleeps too; else none. */
static uint32_t those_behind(uint64_t seen) {
    uint32_t behind = 0;
    for (int k = 0; k < um_options.ranks; k++) {
        uint64_t idle = atomic_load(&um_ranks[k].shared.idle);
        if (atomic_load(&um_ranks[k].shared.is_ended)) continue;
        if (idle == 0) return 0;
        if (idle != seen + 1) behind |= 1u << k;
    }
    return behind;
}

/* The look before found nothing. Who sleeps isn't woken by each move, so the last one that lies down wakes those who looked before moves that are
   counted: each looks once more, before nobody can move. */
static void sleep_until_moved(uint64_t seen) {
    atomic_store(&um_me->shared.idle, seen + 1);
    if (can_nobody_move(seen)) um_tell_stuck();
    uint32_t behind = those_behind(seen);
    um_wake(behind);
    if (!behind || all_moves() == seen) um_sleep();
    atomic_store(&um_me->shared.idle, 0);
}

/* Moves what goes out and comes in, for a call that looks once. A program may loop over such calls: where so many looks were in vain that a wait would
   yield, so does the loop. */
void um_progress(void) {
    if (um_is_played) um_look_as_played();
    if (um_is_played || move_much()) return;
    if (um_me->patience.vain < um_first_looks()) um_me->patience.vain++;
    else sched_yield();
}

/* Makes progress until `is_done` says so, which looks once each time: when something came, and `is_settled` where nothing did for some time. What it looks
   at changes by what comes, and by marks. A look that is dear is made when all that came was taken. */
void um_wait_until(bool (*is_done)(void *, bool is_settled), void *of, bool is_dear) {
    if (um_is_played) {
        um_wait_as_played(is_done, of);
        return;
    }
    uint64_t seen = 0, own = 0, asked_at = um_count_of_marks();
    bool has_moved = is_dear ? move_much() : um_move_once(), has_slept = false;
    if (is_done(of, !has_moved)) {
        um_learn_of_success();
        return;
    }
    bool is_last = false, is_over = false; /* is_last: of its looks, before it sleeps */
    for (int looks = has_moved ? 0 : 1, most = um_first_looks(); !is_over;) {
        if (is_last) {
            um_lie_down();
            seen = all_moves(); /* before the look: what comes after it is a further move */
            own = own_moves();
        }
        has_moved = is_dear ? move_much() : um_move_once();
        uint64_t marked_at = um_count_of_marks();
        bool is_settled = !has_moved && (looks == most || marked_at != asked_at);
        is_over = (has_moved || is_settled) && is_done(of, is_settled);
        asked_at = marked_at;
        looks = has_moved ? 0 : looks + 1;
        if (is_last && !is_over && !has_moved && own_moves() == own) {
            has_slept = true;
            sleep_until_moved(seen);
        } else is_last = !is_over && looks > most && !um_looks_on(looks - most);
        um_get_up();
    }
    um_end_wait(has_slept);
}

/* Whether each rank has finalized or stopped. */
bool um_all_are_gone(void *unused, bool is_settled) {
    (void)unused;
    (void)is_settled;
    for (int k = 0; k < um_options.ranks; k++)
        if (!atomic_load(&um_ranks[k].shared.is_gone)) return false;
    return true;
}

/* Leaves the others, and moves what goes out and comes in until all have left. */
void um_drain(void) {
    atomic_store(&um_me->shared.is_gone, 1);
    um_marked();
    um_wait_until(um_all_are_gone, 0, false);
    um_progress();
}
