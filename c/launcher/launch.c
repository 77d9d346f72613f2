/* The launcher's main, and the threads of the ranks. */
#define _GNU_SOURCE
#include "engine/engine.h"
#include "launcher/launcher.h"
#include "mpi/calls.h"
#include "play/play.h"
#include "progress/progress.h"
#include "windows/windows.h"
#include <errno.h>
#include <limits.h>
#include <malloc.h>
#include <signal.h>
#include <stdarg.h>
#include <stdlib.h>
#include <string.h>
#include <sys/resource.h>
#include <time.h>
#include <unistd.h>

struct rank um_ranks[MAX_RANKS];
__thread struct rank *um_me;
static pthread_mutex_t end_lock = PTHREAD_MUTEX_INITIALIZER;
static pthread_cond_t end_came = PTHREAD_COND_INITIALIZER;
static int ended_count;

static void clear_rank(void) {
    um_forget_comm();
    um_clear_windows();
    um_clear_requests();
    um_clear_messages();
    um_clear_comms();
    um_clear_groups();
    um_clear_handlers();
    um_clear_types();
    um_clear_ops();
    um_clear_keyvals();
    um_clear_infos();
    um_clear_farewells();
    um_me->mpi.attached = 0;
}

static void find_stack(struct rank *rank) {
    pthread_attr_t attributes;
    void *at;
    size_t size;
    if (pthread_getattr_np(pthread_self(), &attributes)) return;
    if (pthread_attr_getstack(&attributes, &at, &size) == 0) rank->thread.stack = at;
    pthread_attr_destroy(&attributes);
}

/* All that the rank does which runs. */
void um_live(void) {
    if (setjmp(um_me->thread.bottom) == 0) {
        int status = um_run_program(um_me);
        um_say_farewells();
        if (!um_me->life.has_finalized) um_stop_here(status);
        um_me->life.status = status;
    }
    if (um_me->life.has_finalized) um_tell_table("end %d %d\n", um_me->number, um_me->life.status);
    um_close_output(um_me);
    clear_rank();
    atomic_store(&um_me->shared.is_ended, 1);
}

/* A stack for signals, since that of a rank may be used up. */
static void have_stack_for_signals(void) {
    static char rooms[MAX_RANKS + 1][65536]; /* where a crash is told; the last one is of the thread that plays all ranks */
    stack_t stack = {.ss_sp = rooms[um_me ? um_me->number : MAX_RANKS], .ss_size = sizeof *rooms}, old;
    if (sigaltstack(0, &old) == 0 && old.ss_flags & SS_DISABLE) sigaltstack(&stack, 0); /* AddressSanitizer has one of its own */
}

static void *run_rank(void *of) {
    um_me = of;
    have_stack_for_signals();
    find_stack(um_me);
    um_live();
    um_me = 0;
    um_marked();
    pthread_mutex_lock(&end_lock);
    ended_count++;
    pthread_cond_signal(&end_came);
    pthread_mutex_unlock(&end_lock);
    return 0;
}

void um_prepare_rank(struct rank *rank, int number) {
    rank->number = number;
    rank->slot = &rank->home;
    pthread_mutex_init(&rank->sent.lock, 0);
    rank->plan.random = um_options.yields * 0x9E3779B97F4A7C15u + (uint64_t)number * 0xBF58476D1CE4E5B9u + 1;
}

static bool start_rank(struct rank *rank, int number) {
    pthread_attr_t attributes;
    um_prepare_rank(rank, number);
    if (!um_open_output(rank)) return false;
    pthread_attr_init(&attributes);
    pthread_attr_setstacksize(&attributes, STACK);
    return pthread_create(&rank->thread.id, &attributes, run_rank, rank) == 0;
}

/* Memory that was freed is kept for what comes next, else each long message pays for its pages again. */
static void keep_memory(void) {
    mallopt(M_MMAP_THRESHOLD, 32 << 20);
    mallopt(M_TRIM_THRESHOLD, 256 << 20);
    mallopt(M_TOP_PAD, 1 << 20);
    if (um_is_played) mallopt(M_MMAP_MAX, 0); /* so that all can be put back */
    if (um_is_played) mallopt(M_TRIM_THRESHOLD, INT_MAX);
}

/* Makes the world, each rank in a slot that stands apart from the others': its calls write to it. The code of a refusal, or ULFM_OK. */
uint32_t um_make_ranks(void) {
    ulfm_slot made[MAX_RANKS] = {{0}};
    uint32_t code = ulfm_world(made, (size_t)um_options.ranks, (uint8_t)um_options.capacity);
    for (int k = 0; k < um_options.ranks; k++) um_ranks[k].home = made[k];
    return code;
}

/* The time is over: says so, and ends the run. */
void um_tell_late(enum moment moment) {
    um_begin_report();
    fprintf(stderr, "ulfm-mpirun: the time is over after %g seconds:\n", um_options.timeout);
    um_tell_places(moment);
    um_write_rests(true);
    um_tell_table("late\n");
    um_end_run(STATUS_LATE);
}

/* Waits until all threads have ended, or the time is over. */
static void wait_for_ends(void) {
    struct timespec until;
    clock_gettime(CLOCK_REALTIME, &until);
    double at = (double)until.tv_sec + 1e-9 * (double)until.tv_nsec + (um_options.timeout > 0 ? um_options.timeout : 1e9);
    until.tv_sec = (time_t)at;
    until.tv_nsec = (long)((at - (double)until.tv_sec) * 1e9);
    pthread_mutex_lock(&end_lock);
    while (ended_count < um_options.ranks)
        if (pthread_cond_timedwait(&end_came, &end_lock, &until) == ETIMEDOUT) um_tell_late(TIME_IS_OVER);
    pthread_mutex_unlock(&end_lock);
    for (int k = 0; k < um_options.ranks; k++) pthread_join(um_ranks[k].thread.id, 0);
}

/* The status of a run that ended: that of the first rank that ended with another one than 0 and wasn't stopped by plan. */
static int status_of_run(void) {
    int status = 0;
    bool uses_mpi = false;
    for (int k = 0; k < um_options.ranks; k++) uses_mpi = uses_mpi || um_ranks[k].life.has_begun;
    for (int k = um_options.ranks - 1; k >= 0; k--) {
        if (uses_mpi && um_ranks[k].life.has_stopped && !um_ranks[k].life.is_planned)
            fprintf(stderr, "ulfm-mpirun: rank %d ended with status %d without MPI_Finalize: it failed\n", k, um_ranks[k].life.status);
        if (!um_ranks[k].life.is_planned && um_ranks[k].life.status) status = um_ranks[k].life.status;
    }
    return status & 255;
}

static void tell_unmet_stops(void) {
    for (int k = 0; k < um_options.stops; k++)
        if (!um_ranks[um_options.stop[k].rank].life.is_planned)
            fprintf(stderr, "ulfm-mpirun: rank %d ended before a stop of the plan: it made %d calls\n", um_options.stop[k].rank,
                    um_ranks[um_options.stop[k].rank].plan.calls);
}

/* All ranks have ended: their slots and what they share end too. The status of the run. */
int um_close_run(void) {
    for (int k = 0; k < um_options.ranks; k++) ulfm_end(&um_ranks[k].home);
    um_free_parcels();
    um_free_commons();
    tell_unmet_stops();
    for (int k = 0; k < um_options.ranks; k++) free(um_ranks[k].program.words);
    return status_of_run();
}

static int run_threads(void) {
    for (int k = 0; k < um_options.ranks; k++)
        if (!start_rank(&um_ranks[k], k)) {
            fprintf(stderr, "ulfm-mpirun: no thread for rank %d\n", k);
            um_end_run(STATUS_USAGE);
        }
    wait_for_ends();
    return um_close_run();
}

int ulfm_mpirun(int count, char **words) {
    int refused = um_read_words(count, words);
    if (refused) return refused < 0 ? 0 : refused;
    if (um_options.every_schedule) return um_every_schedule(words[0]);
    if (um_options.every_stop) return um_every_stop(words[0]);
    if (um_is_played) um_fix_addresses(words);
    um_be_launcher();
    um_handle_signals(); /* before there are copies, which each end takes away */
    if (!um_copy_programs()) return STATUS_USAGE;
    keep_memory();
    uint32_t code = um_make_ranks();
    if (code != ULFM_OK) {
        fprintf(stderr, "ulfm-mpirun: no world of %d ranks: code %u\n", um_options.ranks, code);
        return STATUS_USAGE;
    }
    have_stack_for_signals();
    return um_is_played ? um_play() : run_threads();
}
