/* A program that is started by itself, without ulfm-mpirun. It is the only rank of a run, in the thread that it begins with, and in all else a process as
   any: its streams, signals and ends are its own. */
#include "launcher/launcher.h"
#include "progress/progress.h"
#include <stdlib.h>

/* The main of a program that was started by itself (entry.c). The launcher has none: it loads its programs later, where this name isn't seen. */
extern int (*const ulfm_program_entry)() __attribute__((weak));

/* Before the program's own constructors, which may ask whether MPI has begun. */
static void __attribute__((constructor)) be_only_rank(void) {
    if (!&ulfm_program_entry) return;
    um_options.is_alone = true;
    um_be_launcher();
    um_prepare_rank(&um_ranks[0], 0);
    um_me = &um_ranks[0];
}

static void tell_end(int status, void *unused) {
    (void)unused;
    if (um_is_launcher() && !um_ranks[0].life.has_finalized)
        fprintf(stderr, "ulfm-mpirun: rank 0 ended with status %d without MPI_Finalize: it failed\n", status);
}

/* The world of one, made where the program begins to use it: many that build systems start never do. */
bool um_begin_alone(void) { return um_make_ranks() == ULFM_OK && on_exit(tell_end, 0) == 0; }
