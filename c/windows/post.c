/* Epochs of single members (MPI 4.0, 12.5.2): one posts its window to a group, who start, act on it at once and complete; it waits for all of them. */
#include "engine/engine.h"
#include "mpi/calls.h"
#include "play/play.h"
#include "progress/progress.h"
#include "windows/windows.h"

/* The members of a group, as bits of their positions. False where one isn't a member of the window. */
static bool positions_of(const struct window *window, const struct group *group, uint32_t *bits) {
    *bits = 0;
    for (int k = 0; k < group->size; k++) {
        int at = 0;
        while (at < window->comm->size && window->comm->members[at] != group->members[k]) at++;
        if (at == window->comm->size) return false;
        *bits |= 1u << at;
    }
    return true;
}

/* Whom a rank waits for, and why it waits no more. */
struct awaited {
    struct window *window;
    uint32_t missing; /* as bits of positions */
    int code;
};

/* Where some are missing: whether one of them failed. */
static bool is_over(struct awaited *awaited) {
    const struct window *window = awaited->window;
    uint32_t ranks = 0;
    for (int k = 0; k < window->comm->size; k++) {
        if (!(awaited->missing >> k & 1)) continue;
        ranks |= um_bit_of_member(window, k);
        if (awaited->code == MPI_SUCCESS) awaited->code = um_why_no_access(window, k);
    }
    um_set_awaited(ranks);
    return !awaited->missing || awaited->code != MPI_SUCCESS;
}

/* Starts with those who posted. */
static bool have_posted(void *of, bool is_settled) {
    struct awaited *awaited = of;
    uint32_t own = 1u << um_me->number;
    (void)is_settled;
    for (int k = 0; k < awaited->window->comm->size; k++) {
        struct exposure *there = awaited->window->exposures[k];
        if (!(awaited->missing >> k & 1)) continue;
        pthread_mutex_lock(&there->guard);
        if (there->posted & own) awaited->missing &= ~(1u << k);
        there->posted &= ~own;
        pthread_mutex_unlock(&there->guard);
    }
    return is_over(awaited);
}

/* Whether those completed for whom the window's own epoch waits. */
static bool have_completed(void *of, bool is_settled) {
    struct awaited *awaited = of;
    struct window *window = awaited->window;
    struct exposure *own = window->exposures[window->comm->position];
    (void)is_settled;
    pthread_mutex_lock(&own->guard);
    for (int k = 0; k < window->comm->size; k++)
        if (own->completed & um_bit_of_member(window, k)) awaited->missing &= ~(1u << k);
    pthread_mutex_unlock(&own->guard);
    return is_over(awaited);
}

/* Posts the window to members. */
static void post(struct window *window, uint32_t to) {
    struct exposure *own = window->exposures[window->comm->position];
    pthread_mutex_lock(&own->guard);
    for (int k = 0; k < window->comm->size; k++)
        if (to >> k & 1) own->posted |= um_bit_of_member(window, k), own->completed &= ~um_bit_of_member(window, k);
    pthread_mutex_unlock(&own->guard);
    window->posted = to;
    window->is_posted = true;
    um_marked();
}

int MPI_Win_post(MPI_Group group, int assertion, MPI_Win win) {
    const struct group *to = um_group_at(group);
    uint32_t bits = 0;
    WINDOW(win, true);
    um_tell_left_out("posts a window", __builtin_return_address(0));
    if (!to || !positions_of(of, to, &bits)) return um_fail_window(of, win, MPI_ERR_GROUP);
    if (assertion & ~(MPI_MODE_NOCHECK | MPI_MODE_NOSTORE | MPI_MODE_NOPUT)) return um_fail_window(of, win, MPI_ERR_ASSERT);
    if (of->is_posted) return um_fail_window(of, win, MPI_ERR_RMA_SYNC);
    post(of, bits);
    um_progress();
    return um_succeed();
}

/* Waits until all of a group posted. */
int MPI_Win_start(MPI_Group group, int assertion, MPI_Win win) {
    const struct group *to = um_group_at(group);
    uint32_t bits = 0;
    WINDOW(win, true);
    um_tell_left_out("starts an epoch of a window", __builtin_return_address(0));
    if (!to || !positions_of(of, to, &bits)) return um_fail_window(of, win, MPI_ERR_GROUP);
    if (assertion & ~MPI_MODE_NOCHECK) return um_fail_window(of, win, MPI_ERR_ASSERT);
    if (of->locked || of->has_started) return um_fail_window(of, win, MPI_ERR_RMA_SYNC);
    struct awaited awaited = {of, bits, MPI_SUCCESS};
    um_wait_until(have_posted, &awaited, false);
    of->started = bits;
    of->has_started = true;
    return um_answer_window(of, win, awaited.code);
}

/* Those who posted learn that this rank is done, also where one of them failed. */
int MPI_Win_complete(MPI_Win win) {
    WINDOW(win, true);
    if (!of->has_started) return um_fail_window(of, win, MPI_ERR_RMA_SYNC);
    int code = MPI_SUCCESS;
    for (int k = 0; k < of->comm->size; k++) {
        if (!(of->started >> k & 1)) continue;
        struct exposure *there = of->exposures[k];
        pthread_mutex_lock(&there->guard);
        there->completed |= 1u << um_me->number;
        pthread_mutex_unlock(&there->guard);
        if (code == MPI_SUCCESS) code = um_why_no_access(of, k);
    }
    of->started = 0;
    of->has_started = false;
    um_marked();
    um_progress();
    return um_answer_window(of, win, code);
}

/* The epoch is over, by a failure too: then others may start still, so that they don't wait for ever. */
static int end_epoch(struct window *window, MPI_Win win, int code) {
    window->is_posted = false;
    return um_answer_window(window, win, code);
}

int MPI_Win_wait(MPI_Win win) {
    WINDOW(win, true);
    if (!of->is_posted) return um_fail_window(of, win, MPI_ERR_RMA_SYNC);
    struct awaited awaited = {of, of->posted, MPI_SUCCESS};
    um_wait_until(have_completed, &awaited, false);
    return end_epoch(of, win, awaited.code);
}

int MPI_Win_test(MPI_Win win, int *flag) {
    WINDOW(win, false);
    if (!flag) return um_fail_window(of, win, MPI_ERR_ARG);
    if (!of->is_posted) return um_fail_window(of, win, MPI_ERR_RMA_SYNC);
    struct awaited awaited = {of, of->posted, MPI_SUCCESS};
    um_progress();
    *flag = have_completed(&awaited, true);
    um_set_awaited(0);
    return *flag ? end_epoch(of, win, awaited.code) : um_succeed();
}
