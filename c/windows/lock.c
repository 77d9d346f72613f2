/* Locks of windows (MPI 4.0, 12.5.3), and what is done under them. All ranks share memory, so who asks does it, and the target does nothing for it. A lock of a rank
   that stopped is free. A search of all schedules doesn't follow what is done so. */
#include "engine/engine.h"
#include "mpi/calls.h"
#include "play/play.h"
#include "progress/progress.h"
#include "windows/windows.h"
#include <stdlib.h>

/* Why a member's window isn't acted on, as far as this rank knows, or MPI_SUCCESS. */
int um_why_no_access(const struct window *window, int target) {
    if (um_is_revoked(window->comm)) return MPIX_ERR_REVOKED;
    return atomic_load(&um_stopped_ranks) && um_is_failed(window->comm, target) ? MPIX_ERR_PROC_FAILED : MPI_SUCCESS;
}

uint32_t um_running_ranks(void) {
    uint32_t bits = 0;
    for (int k = 0; k < um_options.ranks; k++)
        if (!atomic_load(&um_ranks[k].life.has_stopped)) bits |= 1u << k;
    return bits;
}

/* Does at once what was written down for a member. */
int um_do_now(struct window *window, int target) {
    struct exposure *there = window->exposures[target];
    struct pile answers[MAX_RANKS] = {{0}};
    int code = um_why_no_access(window, target);
    pthread_mutex_lock(&there->guard);
    if (code == MPI_SUCCESS && there->is_closed) code = MPI_ERR_RMA_SYNC;
    if (code == MPI_SUCCESS) code = um_do_all(window->bases[target], &window->asked[target], &answers[target]);
    pthread_mutex_unlock(&there->guard);
    if (code == MPI_SUCCESS) um_hand_out(window, answers);
    free(answers[target].bytes);
    um_forget_epoch(window);
    return code;
}

/* Whether an epoch of another kind is open: one of locks, one that was started, or what waits for a fence. */
static bool is_busy(const struct window *window) {
    for (int k = 0; k < window->comm->size; k++)
        if (window->asked[k].length) return true;
    return window->locked || window->started;
}

/* A lock that is wanted. */
struct wanted {
    struct window *window;
    int target, code;
    bool is_alone;
};

static bool take_lock(void *of, bool is_settled) {
    struct wanted *wanted = of;
    struct exposure *there = wanted->window->exposures[wanted->target];
    uint32_t own = 1u << um_me->number, running = um_running_ranks();
    (void)is_settled;
    pthread_mutex_lock(&there->guard);
    there->owner &= running;
    there->sharers &= running;
    uint32_t against = (there->owner | (wanted->is_alone ? there->sharers : 0)) & ~own;
    if (!against) *(wanted->is_alone ? &there->owner : &there->sharers) |= own;
    pthread_mutex_unlock(&there->guard);
    um_set_awaited(against);
    if (against) wanted->code = um_why_no_access(wanted->window, wanted->target);
    return !against || wanted->code != MPI_SUCCESS;
}

/* Waits for the lock of a member's window. */
static int lock(struct window *window, int target, bool is_alone) {
    struct wanted wanted = {window, target, um_why_no_access(window, target), is_alone};
    if (wanted.code == MPI_SUCCESS) um_wait_until(take_lock, &wanted, false);
    if (wanted.code == MPI_SUCCESS) window->locked |= 1u << target;
    return wanted.code;
}

static void unlock(struct window *window, int target) {
    struct exposure *there = window->exposures[target];
    uint32_t own = 1u << um_me->number;
    pthread_mutex_lock(&there->guard);
    there->owner &= ~own;
    there->sharers &= ~own;
    pthread_mutex_unlock(&there->guard);
    window->locked &= ~(1u << target);
    um_marked();
}

/* Whose window a call is of. */
static void name_target(int target) {
    struct call call = um_me->call;
    call.peer = target;
    um_set_call(call);
}

int MPI_Win_lock(int kind, int target, int assertion, MPI_Win win) {
    WINDOW(win, true);
    um_tell_left_out("locks a window", __builtin_return_address(0));
    name_target(target);
    if (kind != MPI_LOCK_SHARED && kind != MPI_LOCK_EXCLUSIVE) return um_fail_window(of, win, MPI_ERR_LOCKTYPE);
    if (assertion & ~MPI_MODE_NOCHECK) return um_fail_window(of, win, MPI_ERR_ASSERT);
    if (target == MPI_PROC_NULL) return um_succeed();
    if (target < 0 || target >= of->comm->size) return um_fail_window(of, win, MPI_ERR_RANK);
    if (of->started || of->locked >> target & 1 || (!of->locked && is_busy(of))) return um_fail_window(of, win, MPI_ERR_RMA_SYNC);
    return um_answer_window(of, win, lock(of, target, kind == MPI_LOCK_EXCLUSIVE));
}

int MPI_Win_lock_all(int assertion, MPI_Win win) {
    WINDOW(win, true);
    um_tell_left_out("locks a window", __builtin_return_address(0));
    if (assertion & ~MPI_MODE_NOCHECK) return um_fail_window(of, win, MPI_ERR_ASSERT);
    if (is_busy(of)) return um_fail_window(of, win, MPI_ERR_RMA_SYNC);
    int code = MPI_SUCCESS;
    for (int k = 0; k < of->comm->size && code == MPI_SUCCESS; k++) code = lock(of, k, false);
    for (int k = 0; k < of->comm->size && code != MPI_SUCCESS; k++) unlock(of, k);
    return um_answer_window(of, win, code);
}

/* What is told of members whose locks are held: what was done is there already. Those of `targets` that aren't locked are wrong. */
static int look_at(struct window *window, uint32_t targets) {
    int code = targets & ~window->locked ? MPI_ERR_RMA_SYNC : MPI_SUCCESS;
    um_progress();
    for (int k = 0; k < window->comm->size && code == MPI_SUCCESS; k++)
        if (targets >> k & 1) code = um_why_no_access(window, k);
    return code;
}

int MPI_Win_unlock(int target, MPI_Win win) {
    WINDOW(win, true);
    name_target(target);
    if (target == MPI_PROC_NULL) return um_succeed();
    if (target < 0 || target >= of->comm->size) return um_fail_window(of, win, MPI_ERR_RANK);
    int code = look_at(of, 1u << target);
    if (of->locked >> target & 1) unlock(of, target);
    return um_answer_window(of, win, code);
}

static uint32_t all_of(const struct window *window) { return (1u << window->comm->size) - 1; }

int MPI_Win_unlock_all(MPI_Win win) {
    WINDOW(win, true);
    int code = look_at(of, all_of(of));
    for (int k = 0; k < of->comm->size; k++)
        if (of->locked >> k & 1) unlock(of, k);
    return um_answer_window(of, win, code);
}

static int flush(struct window *window, MPI_Win win, int target) {
    name_target(target);
    if (target == MPI_PROC_NULL) return um_succeed();
    if (target < 0 || target >= window->comm->size) return um_fail_window(window, win, MPI_ERR_RANK);
    return um_answer_window(window, win, look_at(window, 1u << target));
}

int MPI_Win_flush(int target, MPI_Win win) {
    WINDOW(win, true);
    return flush(of, win, target);
}

int MPI_Win_flush_local(int target, MPI_Win win) {
    WINDOW(win, true);
    return flush(of, win, target);
}

/* All whose locks are held here. */
static int flush_all(struct window *window, MPI_Win win) {
    return um_answer_window(window, win, window->locked ? look_at(window, window->locked) : MPI_ERR_RMA_SYNC);
}

int MPI_Win_flush_all(MPI_Win win) {
    WINDOW(win, true);
    return flush_all(of, win);
}

int MPI_Win_flush_local_all(MPI_Win win) {
    WINDOW(win, true);
    return flush_all(of, win);
}

/* Memory is the same for all; a program may loop over it until another rank wrote there. */
int MPI_Win_sync(MPI_Win win) {
    WINDOW(win, false);
    atomic_thread_fence(memory_order_seq_cst);
    um_progress();
    return um_succeed();
}
