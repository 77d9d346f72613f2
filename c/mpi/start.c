/* Start and end of a rank's use of MPI (MPI 4.0, 11.2), and what it asks of its environment (9). */
#define _GNU_SOURCE
#include "launcher/launcher.h"
#include "mpi/calls.h"
#include "play/play.h"
#include "progress/progress.h"
#include <stdlib.h>
#include <string.h>
#include <time.h>
#include <unistd.h>

/* Says why a call can't be, where there is no communicator that could, and ends the run. */
static void refuse(const char *call, const char *why) {
    um_begin_report();
    fprintf(stderr, "ulfm-mpirun: ");
    if (um_me || um_owner) fprintf(stderr, "rank %d: ", (um_me ? um_me : um_owner)->number);
    fprintf(stderr, "%s %s\n", call, why);
    um_end_run(STATUS_FATAL);
}

/* The call is held, and stands there. */
static inline void begin(struct rank *me, bool counts) {
    um_let_call_go(me);
    me->played.looks = 0;
    if (counts) um_count_call();
}

/* Most calls have nothing of this. */
static __attribute__((noinline)) void enter_slowly(const struct call *like, bool counts) {
    struct call call = *like;
    if (!um_me) refuse(call.name, "was called outside of a rank's first thread");
    if (!um_me->life.has_begun) refuse(call.name, "was called before MPI_Init");
    if (um_me->life.has_finalized) refuse(call.name, "was called after MPI_Finalize");
    if (um_me->mpi.is_starting) return;
    if (um_me->recovery.known_count < atomic_load_explicit(&um_stopped_ranks, memory_order_relaxed)) um_note_failures();
    if (um_me->program.called_from) call.from = um_me->program.called_from;
    um_hold_call(um_me);
    um_me->call = call;
    begin(um_me, counts);
}

void um_enter_call(const char *name, const void *from, struct comm *comm, int peer, int tag, bool counts) {
    struct rank *me = um_me;
    bool is_plain = me && me->life.has_begun && !me->life.has_finalized && !me->mpi.is_starting && !me->program.called_from &&
                    me->recovery.known_count >= atomic_load_explicit(&um_stopped_ranks, memory_order_relaxed);
    if (!is_plain || !um_try_to_hold_call(me)) {
        enter_slowly(&(const struct call){.name = name, .from = from, .comm = comm, .peer = peer, .tag = tag}, counts);
        return;
    }
    me->call = (struct call){.name = name, .from = from, .comm = comm, .peer = peer, .tag = tag};
    begin(me, counts);
}

/* By a wrapper of Fortran (fortran/fortran.h), before and after a call. */
void ulfm_mpi_called_from(const void *from) {
    if (um_me) um_me->program.called_from = from;
}

int MPI_Init_thread(int *argc, char ***argv, int required, int *provided) {
    (void)argc;
    (void)argv;
    if (!um_me) refuse("MPI_Init", "was called outside of a rank's first thread");
    if (um_me->life.has_begun) refuse("MPI_Init", "was called twice");
    if ((um_options.is_alone && !um_begin_alone()) || !um_make_world()) refuse("MPI_Init", "found no memory");
    um_me->life.has_begun = true;
    um_set_call((struct call){.name = "MPI_Init", .from = __builtin_return_address(0), .peer = MPI_UNDEFINED, .tag = MPI_UNDEFINED});
    um_me->life.provided = required < MPI_THREAD_FUNNELED ? MPI_THREAD_SINGLE : MPI_THREAD_FUNNELED;
    if (provided) *provided = um_me->life.provided;
    return MPI_SUCCESS;
}

int MPI_Init(int *argc, char ***argv) { return MPI_Init_thread(argc, argv, MPI_THREAD_SINGLE, 0); }

/* What the start of the rank provided; a further thread of its program can be one of a rank that was given FUNNELED alone. */
int MPI_Query_thread(int *provided) {
    if (!provided) return MPI_ERR_ARG;
    *provided = um_me ? um_me->life.provided : MPI_THREAD_FUNNELED;
    return MPI_SUCCESS;
}

int MPI_Is_thread_main(int *flag) {
    if (!flag) return MPI_ERR_ARG;
    *flag = um_me != 0;
    return MPI_SUCCESS;
}

/* Where no rank asks, but a further thread of a program, or the launcher's own after the run: whether some rank has begun. */
int MPI_Initialized(int *flag) {
    bool has_begun = um_me && um_me->life.has_begun;
    if (!flag) return MPI_ERR_ARG;
    for (int k = 0; k < um_options.ranks && !um_me; k++) has_begun = has_begun || um_ranks[k].life.has_begun;
    *flag = has_begun;
    return MPI_SUCCESS;
}

/* So too: whether all of them have finalized, or stopped. */
int MPI_Finalized(int *flag) {
    bool has_finalized = !um_me || um_me->life.has_finalized;
    if (!flag) return MPI_ERR_ARG;
    for (int k = 0; k < um_options.ranks && !um_me; k++)
        has_finalized = has_finalized && (um_ranks[k].life.has_finalized || um_ranks[k].life.has_stopped);
    *flag = has_finalized;
    return MPI_SUCCESS;
}

/* Waits for each rank that hasn't failed: what others sent may need this rank to be handed on (11.2.2). */
int MPI_Finalize(void) {
    ENTER(0, MPI_UNDEFINED, MPI_UNDEFINED);
    um_delete_attributes(um_comm_at(MPI_COMM_SELF)); /* before all else (11.2.4) */
    um_delete_attributes(um_comm_at(MPI_COMM_WORLD));
    um_drain();
    um_me->life.has_finalized = true;
    return MPI_SUCCESS;
}

int MPI_Abort(MPI_Comm comm, int errorcode) {
    (void)comm;
    if (um_me && um_is_played) um_wait_to_end_all();
    if (um_me) {
        char line[256];
        struct call call = um_me->call;
        call.from = __builtin_return_address(0);
        um_set_call(call);
        um_begin_report();
        fprintf(stderr, "ulfm-mpirun: rank %d called MPI_Abort with %d%s: the run ends\n", um_me->number, errorcode,
                um_line_of(&um_me->call, line, sizeof line));
        um_write_rests(true);
        um_tell_table("abort %d %d\n", um_me->number, errorcode);
    }
    um_end_run((errorcode & 255) ? errorcode & 255 : 1);
}

int MPI_Get_version(int *version, int *subversion) {
    if (!version || !subversion) return MPI_ERR_ARG;
    *version = MPI_VERSION;
    *subversion = MPI_SUBVERSION;
    return MPI_SUCCESS;
}

int MPI_Get_library_version(char *version, int *length) {
    if (!version || !length) return MPI_ERR_ARG;
    *length = snprintf(version, MPI_MAX_LIBRARY_VERSION_STRING, "Cufandrize: MPI 4.0 calls over threads, with ULFM");
    return MPI_SUCCESS;
}

int MPI_Get_processor_name(char *name, int *length) {
    char host[MPI_MAX_PROCESSOR_NAME] = "localhost";
    if (!name || !length) return MPI_ERR_ARG;
    if (gethostname(host, sizeof host - 1)) strcpy(host, "localhost");
    strcpy(name, host);
    *length = (int)strlen(name);
    return MPI_SUCCESS;
}

/* In a run that is played the clock isn't asked: each call is a millisecond after the last one. */
double MPI_Wtime(void) {
    struct timespec now;
    if (um_is_played && um_me) return 1e-3 * (double)++um_me->played.times_asked;
    clock_gettime(CLOCK_MONOTONIC, &now);
    return (double)now.tv_sec + 1e-9 * (double)now.tv_nsec;
}

double MPI_Wtick(void) { return 1e-9; }

int MPI_Alloc_mem(MPI_Aint size, MPI_Info info, void *base) {
    (void)info;
    if (size < 0 || !base) return um_fail(0, MPI_ERR_ARG);
    void *made = malloc(size > 0 ? (size_t)size : 1);
    if (!made) return um_fail(0, MPI_ERR_NO_MEM);
    *(void **)base = made;
    return MPI_SUCCESS;
}

int MPI_Free_mem(void *base) {
    free(base);
    return MPI_SUCCESS;
}

int MPI_Get_address(const void *location, MPI_Aint *address) {
    if (!address) return MPI_ERR_ARG;
    *address = (MPI_Aint)location;
    return MPI_SUCCESS;
}

ALSO(MPI_Address, MPI_Get_address);

MPI_Aint MPI_Aint_add(MPI_Aint base, MPI_Aint displacement) { return (MPI_Aint)((size_t)base + (size_t)displacement); }

MPI_Aint MPI_Aint_diff(MPI_Aint address, MPI_Aint other) { return (MPI_Aint)((size_t)address - (size_t)other); }
