/* What a rank is while it runs: its thread, its progress and waits, its output, its end, its stops by plan, and what is told where a run comes to no good
   end. All other folders stand on this one. */
#ifndef UM_PROGRESS_H
#define UM_PROGRESS_H

#include "progress/rank.h"
#include <sched.h>
#include <signal.h>

/* tell_table.c */
void um_tell_table(const char *format, ...) __attribute__((format(printf, 1, 2)));

/* room.c: room for one more in an array of `count`; false where there is no memory. */
bool um_grow(void *array, int count, size_t size);

/* crash.c: whether a rank crashed, so that the process ends: a program that can't be loaded then is no fault. */
extern volatile sig_atomic_t um_is_crashed;
void um_handle_signals(void);
bool um_is_own_handler(const struct sigaction *action);

/* output.c */
bool um_open_output(struct rank *rank);
void um_close_output(struct rank *rank);
void um_write_rests(bool all);

/* stop.c */
void um_end_run(int status) __attribute__((noreturn));
extern _Atomic int um_stopped_ranks;
void um_stop_here(int status) __attribute__((noreturn));
void um_be_launcher(void);
void um_leave_process(int status) __attribute__((noreturn));
bool um_is_launcher(void);
void um_say_farewells(void);
void um_clear_farewells(void);

/* progress.c */
void um_drain(void);
void um_progress(void);
bool um_move_once(void);
void um_moved(void);
void um_marked(void);
uint64_t um_count_of_marks(void);
void um_look_at_open(void);
/* Whether a sender may wait for a match here, or a request is open that was freed. */
static inline bool um_is_waited_for(void) { return atomic_load(&um_me->shared.waited_for) > 0; }
/* sleep.c */
enum { EVERYBODY = (1 << MAX_RANKS) - 1 };
extern _Atomic int um_sleepers;
static inline bool um_somebody_sleeps(void) { return atomic_load(&um_sleepers) > 0; }
void um_go_beyond_messages(void);
void um_wake(uint32_t ranks);
void um_wake_concerned(void);
void um_lie_down(void);
void um_sleep(void);
void um_get_up(void);

/* patience.c */
int um_first_looks(void);
bool um_looks_on(int past);
void um_end_wait(bool has_slept);
/* A look served. */
static inline void um_learn_of_success(void) { um_me->patience.impatience -= um_me->patience.impatience / 4; }
void um_wait_until(bool (*is_done)(void *, bool is_settled), void *of, bool is_dear);
bool um_all_are_gone(void *unused, bool is_settled);

/* call.c */
struct sight {
    struct call call;
    int size;                   /* of its communicator; 0: it has none */
    uint64_t context, first;    /* of its messages, and of the first one of its chain */
    uint32_t agreed[MAX_RANKS]; /* how many agreements each rank entered there */
    uint8_t members[MAX_RANKS];
    char name[MPI_MAX_OBJECT_NAME];
};
void um_set_call(struct call call);
void um_change_awaited(uint32_t ranks);
/* Bits of the world ranks for which the call waits; mostly they are the same as at its last look. */
static inline void um_set_awaited(uint32_t ranks) {
    if (um_me->call.waits_for != ranks) um_change_awaited(ranks);
}
static inline bool um_try_to_hold_call(struct rank *rank) { return !atomic_exchange_explicit(&rank->call_is_held, true, memory_order_acquire); }
static inline void um_hold_call(struct rank *rank) {
    while (!um_try_to_hold_call(rank)) sched_yield();
}
static inline void um_let_call_go(struct rank *rank) { atomic_store_explicit(&rank->call_is_held, false, memory_order_release); }
void um_forget_comm(void);
void um_name_comm(struct comm *comm, const char *name);
struct sight um_look_at_call(struct rank *rank);
bool um_is_changing_call(struct rank *rank);

/* line.c, hang.c */
char *um_line_before(const void *at, char *text, size_t room);
char *um_line_of(const struct call *call, char *text, size_t room);
/* When places are told: nobody can move; the time is over; or it is, and a rank of a run that is played doesn't come to its next call. */
enum moment { NOBODY_MOVES, TIME_IS_OVER, RANK_RUNS };
bool um_can_report(void);
void um_begin_report(void);
void um_note_failures(void);
void um_tell_places(enum moment moment);
void um_tell_stuck(void);

/* plan.c */
void um_follow_plan(void);
/* A call that counts is reached. The rank's thread alone counts. Mostly nothing is done at places. */
static inline void um_count_call(void) {
    struct plan *plan = &um_me->plan;
    atomic_store_explicit(&plan->calls, atomic_load_explicit(&plan->calls, memory_order_relaxed) + 1, memory_order_relaxed);
    plan->insides = 0;
    if (um_options.calls || um_options.yields || um_options.stops || um_options.branches >= 0) um_follow_plan();
}
void um_count_inside(void);

#endif
