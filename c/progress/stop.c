/* The ends of a rank. A rank is a thread, so what ends a process elsewhere ends the rank here: `exit`, `_exit`, `abort`, `raise`,
   `kill(getpid(), ..)`, a failed assertion, and a return from main without MPI_Finalize. Before MPI_Finalize that is its failure, as others see it. */
#define _GNU_SOURCE
#include "launcher/launcher.h"
#include "play/play.h"
#include "progress/progress.h"
#include <dlfcn.h>
#include <err.h>
#include <errno.h>
#include <error.h>
#include <signal.h>
#include <stdarg.h>
#include <stdlib.h>
#include <string.h>
#include <unistd.h>

static pid_t launcher;
_Atomic int um_stopped_ranks; /* how many there are */

void um_be_launcher(void) {
    if (!launcher) atexit(um_remove_copies);
    launcher = getpid();
}

/* Whether this process has the ranks, and isn't one that a rank forked: that ends as any process does. */
bool um_is_launcher(void) { return getpid() == launcher; }

/* Whether what ends a process ends a rank alone. */
static bool is_rank(void) { return um_me && !um_options.is_alone && um_is_launcher(); }

/* The rank stops here; its thread goes on at its bottom. */
void um_stop_here(int status) {
    struct rank *rank = um_me;
    rank->life.status = status;
    if (!rank->life.has_finalized && !rank->life.has_stopped) {
        rank->life.has_stopped = true;
        atomic_fetch_add(&um_stopped_ranks, 1);
        if (!rank->life.is_planned) um_tell_table("failed %d %d\n", rank->number, status);
        ulfm_stop(rank->slot);
        um_drain();
    }
    longjmp(rank->thread.bottom, 1);
}

typedef void ending(int);

/* What the C library has by a name. */
static void *real(const char *name) { return dlsym(RTLD_NEXT, name); }

/* A function that a program left for its end by `atexit`, or the destructor of a C++ object. */
struct farewell {
    struct farewell *next;
    void (*function)(void *);
    void *of;
};

/* What a rank's program leaves is done by the rank, since it may make calls of MPI; the C library would do it when the run is over. */
int __cxa_atexit(void (*function)(void *), void *of, void *object) {
    Dl_info info;
    if (um_me && um_me->program.path && object && dladdr(object, &info) && !strcmp(info.dli_fname, um_me->program.path)) {
        struct farewell *made = malloc(sizeof *made);
        if (!made) return -1;
        *made = (struct farewell){um_me->program.farewells, function, of};
        um_me->program.farewells = made;
        return 0;
    }
    int (*keep)(void (*)(void *), void *, void *) = (int (*)(void (*)(void *), void *, void *))real("__cxa_atexit");
    return keep(function, of, object);
}

void um_say_farewells(void) {
    while (um_me->program.farewells) {
        struct farewell *last = um_me->program.farewells, said = *last;
        um_me->program.farewells = said.next;
        free(last);
        said.function(said.of);
    }
}

/* A rank that was stopped says none. */
void um_clear_farewells(void) {
    while (um_me->program.farewells) {
        struct farewell *next = um_me->program.farewells->next;
        free(um_me->program.farewells);
        um_me->program.farewells = next;
    }
}

/* A further thread of a rank ends the process: it can't end its rank, which runs beside it. */
static void end_by_thread(const char *call, int status) {
    if (um_me || !um_owner || um_options.is_alone || !um_is_launcher()) return;
    um_begin_report();
    fprintf(stderr, "ulfm-mpirun: rank %d called %s with %d in a further thread: the run ends\n", um_owner->number, call, status);
    um_write_rests(true);
    um_tell_table("abort %d %d\n", um_owner->number, status);
    um_end_run(status & 255);
}

void exit(int status) {
    end_by_thread("exit", status);
    if (is_rank()) {
        um_say_farewells();
        um_stop_here(status);
    }
    if (um_me && um_me->out.file) um_close_output(um_me);
    ending *end = (ending *)real("exit");
    end(status);
    __builtin_unreachable();
}

void _exit(int status) {
    end_by_thread("_exit", status);
    if (is_rank()) um_stop_here(status);
    ending *end = (ending *)real("_exit");
    end(status);
    __builtin_unreachable();
}

void _Exit(int status) { _exit(status); }
void quick_exit(int status) { _exit(status); }

/* The first thread of a rank leaves: as a return from main, for nobody would know when the rank's other threads have ended. */
void pthread_exit(void *value) {
    if (is_rank()) exit(0);
    void (*end)(void *) = (void (*)(void *))real("pthread_exit");
    end(value);
    __builtin_unreachable();
}

void abort(void) {
    if (is_rank()) um_stop_here(128 + SIGABRT);
    ending *end = (ending *)real("abort");
    end(0);
    __builtin_unreachable();
}

void __assert_fail(const char *what, const char *file, unsigned line, const char *function) {
    fprintf(stderr, "%s:%u: %s: Assertion `%s' failed.\n", file, line, function, what);
    abort();
}

/* These would end the process from inside the C library. */
void verrx(int status, const char *format, va_list words) {
    vwarnx(format, words);
    exit(status);
}

void verr(int status, const char *format, va_list words) {
    vwarn(format, words);
    exit(status);
}

void errx(int status, const char *format, ...) {
    va_list words;
    va_start(words, format);
    verrx(status, format, words);
}

void err(int status, const char *format, ...) {
    va_list words;
    va_start(words, format);
    verr(status, format, words);
}

void error(int status, int number, const char *format, ...) {
    va_list words;
    va_start(words, format);
    fflush(stdout);
    flockfile(stderr);
    fprintf(stderr, "%s: ", program_invocation_name);
    vfprintf(stderr, format, words);
    fprintf(stderr, number ? ": %s\n" : "\n", strerror(number));
    error_message_count++;
    funlockfile(stderr);
    va_end(words);
    if (status) exit(status);
}

/* What a signal to the own process does to a rank: it ends it, unless the program has a handler, or the signal does nothing. */
static bool ends_by(int number) {
    struct sigaction action;
    if (number == SIGKILL) return true;
    if (number == 0 || number == SIGCHLD || number == SIGCONT || number == SIGURG || number == SIGWINCH) return false;
    if (sigaction(number, 0, &action)) return false;
    if (um_is_own_handler(&action)) return true;
    if (action.sa_flags & SA_SIGINFO) return number == SIGSEGV || number == SIGBUS || number == SIGFPE || number == SIGILL; /* a sanitizer's */
    return action.sa_handler == SIG_DFL;
}

int raise(int number) {
    if (is_rank() && ends_by(number)) um_stop_here(128 + number);
    int (*send)(int) = (int (*)(int))real("raise");
    return send(number);
}

int kill(pid_t to, int number) {
    if (is_rank() && to == launcher && ends_by(number)) um_stop_here(128 + number);
    int (*send)(pid_t, int) = (int (*)(pid_t, int))real("kill");
    return send(to, number);
}

/* Ends the whole run, from any thread. */
void um_end_run(int status) {
    if (um_is_played && um_is_launcher()) um_end_schedule(status); /* where a controller plays, it goes on */
    um_remove_copies();
    um_leave_process(status);
}

/* Ends the process, whoever asks. */
void um_leave_process(int status) {
    ending *end = (ending *)real("_exit");
    end(status);
    __builtin_unreachable();
}
