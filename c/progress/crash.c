/* Signals that end the run: a crash of a rank, told with its line, and what comes from outside. */
#define _GNU_SOURCE
#include "launcher/launcher.h"
#include "play/play.h"
#include "progress/progress.h"
#include <dlfcn.h>
#include <execinfo.h>
#include <string.h>
#include <sys/resource.h>
#include <ucontext.h>
#include <unistd.h>

enum { FRAMES = 64, GUARD = 1 << 20, PAGE = 4096 };

volatile sig_atomic_t um_is_crashed;
static pthread_t crashed_thread;

/* Where a crash is in the program, and the library that the program called there, if it isn't one of the system. */
struct spot_of_crash {
    char line[128];
    const char *library;
};

/* Ends a process that a rank forked as if it had no handler. */
static void end_child(int number) {
    signal(number, SIG_DFL);
    raise(number);
}

static void *address_of(const ucontext_t *context) {
#if defined __x86_64__
    return (void *)context->uc_mcontext.gregs[REG_RIP];
#elif defined __aarch64__
    return (void *)context->uc_mcontext.pc;
#else
    return 0;
#endif
}

/* A library whose variables all ranks share: none of the system or of the layer. */
static bool is_shared_library(const char *name) {
    static const char *const own[] = {"libulfm_mpi.so", "libc.so",  "libm.so",     "libstdc++.so", "libgcc_s.so",
                                      "libpthread.so",  "ld-linux", "ulfm-mpirun", "vdso"};
    for (size_t k = 0; k < sizeof own / sizeof *own; k++)
        if (strstr(name, own[k])) return false;
    return strstr(name, ".so") != 0;
}

/* Looks through the calls that were open, from the last one, for the program's own. */
static void find_spot(const struct rank *rank, void *at, struct spot_of_crash *spot) {
    void *frames[FRAMES];
    Dl_info info;
    int count = backtrace(frames, FRAMES), first = 0;
    while (first < count && frames[first] != at) first++; /* before it stand the handler's */
    for (int k = first < count ? first : 0; k < count; k++) {
        if (!dladdr(frames[k], &info) || !info.dli_fname) continue;
        if (rank->program.path && !strcmp(info.dli_fname, rank->program.path)) {
            um_line_before((char *)frames[k] + (frames[k] == at), spot->line, sizeof spot->line);
            return;
        }
        if (!spot->library && is_shared_library(info.dli_fname)) spot->library = info.dli_fname;
    }
}

static const char *words_of_signal(int number, const struct rank *rank, const char *at) {
    bool is_overflow = rank && rank->thread.stack && at >= rank->thread.stack - GUARD && at < rank->thread.stack + PAGE;
    if (number == SIGSEGV) return is_overflow ? "the stack overflowed" : "segmentation fault";
    return number == SIGABRT ? "aborted by the C library" : "see signal(7)";
}

/* A rank crashed: the process can't go on. The first one is told; while it looks for its line it may crash again, and others may. */
static void crashed(int number, siginfo_t *told, void *context) {
    char line[512];
    struct spot_of_crash spot = {"", 0};
    const struct rank *rank = um_me ? um_me : um_owner;
    int length = 0;
    if (!um_is_launcher()) end_child(number);
    bool is_first = !um_is_crashed;
    if (!is_first && !pthread_equal(crashed_thread, pthread_self()))
        for (;;) pause();
    crashed_thread = pthread_self();
    um_is_crashed = 1;
    if (is_first && rank && !um_options.seeds && !um_options.limit) find_spot(rank, address_of(context), &spot);
    const char *words = words_of_signal(number, um_me, told->si_addr);
    if (!rank) length = snprintf(line, sizeof line, "ulfm-mpirun: crashed by signal %d (%s)\n", number, words);
    else if (!um_me)
        length = snprintf(line, sizeof line, "ulfm-mpirun: a further thread of rank %d crashed by signal %d (%s)%s\n", rank->number, number, words,
                          spot.line);
    else
        length = snprintf(line, sizeof line, "ulfm-mpirun: rank %d crashed by signal %d (%s)%s, in or after %s (call %d)\n", rank->number, number,
                          words, spot.line, rank->call.name ? rank->call.name : "its start", rank->plan.calls);
    if (spot.library && um_options.ranks > 1)
        length +=
            snprintf(line + length, sizeof line - (size_t)length,
                     "ulfm-mpirun: it was in %.200s, whose variables all ranks share: linked statically, each rank has its own\n", spot.library);
    if (write(2, line, (size_t)length) < 0) length = 0;
    um_tell_table("crash %d %d\n", rank ? rank->number : -1, number);
    if (is_first) um_write_rests(false);
    if (!um_is_played) um_remove_copies();
    if (!um_is_played) signal(number, SIG_DFL);
    um_end_run(128 + number);
}

/* The run is ended from outside. */
static void ended(int number) {
    if (!um_is_launcher()) end_child(number);
    if (um_stop_soon()) return;
    um_is_crashed = 1; /* the copies go, which a rank may be about to load */
    um_end_run(128 + number);
}

static void handle(int number, struct sigaction action) {
    struct sigaction old;
    action.sa_flags |= SA_ONSTACK | SA_NODEFER;
    if (sigaction(number, 0, &old) == 0 && !(old.sa_flags & SA_SIGINFO) && old.sa_handler == SIG_DFL) sigaction(number, &action, 0);
}

void um_handle_signals(void) {
    static const int crashes[] = {SIGSEGV, SIGBUS, SIGFPE, SIGILL, SIGABRT};
    static const int ends[] = {SIGINT, SIGTERM, SIGHUP, SIGQUIT, SIGPIPE, SIGALRM, SIGUSR1, SIGUSR2, SIGVTALRM, SIGPROF, SIGXCPU, SIGXFSZ};
    void *frame;
    backtrace(&frame, 1); /* the first time it loads what it needs: not in a handler */
    for (size_t k = 0; k < sizeof crashes / sizeof *crashes; k++)
        handle(crashes[k], (struct sigaction){.sa_sigaction = crashed, .sa_flags = SA_SIGINFO});
    for (size_t k = 0; k < sizeof ends / sizeof *ends; k++) handle(ends[k], (struct sigaction){.sa_handler = ended});
}

/* Whether a signal's handler is the launcher's, and not the program's. */
bool um_is_own_handler(const struct sigaction *action) {
    return action->sa_flags & SA_SIGINFO ? action->sa_sigaction == crashed : action->sa_handler == ended;
}
