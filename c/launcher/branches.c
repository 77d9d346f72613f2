/* --every-stop by a seed: the program is played once, and where it comes to a place, a process goes on in which the rank stops there. So what is before the place is
   played once for all. The process that plays on takes what came of each, and hands it to the table. */
#define _GNU_SOURCE
#include "launcher/every.h"
#include "launcher/launcher.h"
#include "play/play.h"
#include "progress/progress.h"
#include <signal.h>
#include <stdlib.h>
#include <string.h>
#include <sys/mman.h>
#include <sys/prctl.h>
#include <sys/wait.h>
#include <unistd.h>

struct branch {
    pid_t pid;
    struct place place;
    int report, output; /* files */
};
static struct branch *branches;
static int branch_count;
static struct place *wanted;
static size_t wanted_count;
/* What the run told before, but for its places. */
static char past[4096];
static size_t past_length;

/* ---- In the process that plays ---- */

/* Keeps a line of the run itself for those that go on from it. Whether it is that run. */
bool um_note_past(const char *line, size_t length) {
    if (um_options.branches < 0) return false;
    if (past_length + length <= sizeof past) {
        memcpy(past + past_length, line, length);
        past_length += length;
    }
    return true;
}

bool um_begin_branches(void) {
    wanted = (struct place *)um_read_all(um_options.branches);
    wanted_count = wanted ? (size_t)lseek(um_options.branches, 0, SEEK_END) / sizeof *wanted : 0;
    branches = calloc((size_t)um_options.jobs, sizeof *branches);
    return wanted && branches;
}

/* Appends a file to another one. */
static void append(int from, int to) {
    char bytes[65536];
    ssize_t count;
    for (off_t at = 0; (count = pread(from, bytes, sizeof bytes, at)) > 0; at += count)
        if (write(to, bytes, (size_t)count) != count) return;
}

/* Hands on what came of one: its report, and its output where that is compared. */
static void hand_on(const struct branch *of) {
    off_t length = um_options.same_output ? lseek(of->output, 0, SEEK_END) : 0;
    dprintf(um_options.report, "branch %d %d %d\n", of->place.rank, of->place.call, of->place.inside);
    append(of->report, um_options.report);
    dprintf(um_options.report, "done %ld\n", (long)length);
    if (length) append(of->output, um_options.report);
    close(of->report);
    close(of->output);
}

/* Waits for one of them. */
static void end_one(void) {
    siginfo_t ended;
    for (;;) {
        for (int k = 0; k < branch_count; k++)
            if (waitpid(branches[k].pid, 0, WNOHANG) != 0) {
                hand_on(&branches[k]);
                branches[k] = branches[--branch_count];
                return;
            }
        waitid(P_ALL, 0, &ended, WEXITED | WNOWAIT);
    }
}

void um_end_branches(void) {
    while (branch_count) end_one();
}

/* In the new process: its own files, with what the run wrote before. */
static void become(const struct branch *of) {
    prctl(PR_SET_PDEATHSIG, SIGKILL);
    um_leave_copies();
    um_be_launcher();
    append(1, of->output);
    dup2(of->output, 1);
    if (write(of->report, past, past_length) < 0) um_leave_process(STATUS_USAGE);
    um_options.report = of->report;
    um_options.branches = -1;
    branch_count = 0;
    um_set_alarm();
}

/* The run is at a place: whether this is the process in which the rank stops here. */
bool um_is_branch(void) {
    struct branch made = {.place = {.rank = um_me->number, .call = um_me->plan.calls, .inside = um_me->plan.insides}};
    if (!bsearch(&made.place, wanted, wanted_count, sizeof *wanted, um_compare_places)) return false;
    while (branch_count == um_options.jobs) end_one();
    made.report = memfd_create("ulfm-branch", MFD_CLOEXEC);
    made.output = memfd_create("ulfm-branch", MFD_CLOEXEC);
    made.pid = made.report < 0 || made.output < 0 ? -1 : _Fork(); /* the program's fork is another one */
    if (made.pid == 0) become(&made);
    else if (made.pid > 0) branches[branch_count++] = made;
    return made.pid == 0;
}

/* ---- In the process of the table ---- */

/* A file with the places, or 0. */
int um_write_wanted(const struct place *places, int count) {
    int file = memfd_create("ulfm-places", MFD_CLOEXEC);
    size_t length = (size_t)count * sizeof *places;
    return file > 0 && write(file, places, length) == (ssize_t)length ? file : 0;
}

/* Reads what came of one place, which ends before `end`: behind it, or null where that isn't whole. */
static char *read_branch(char *at, const char *end, const struct place *places, int count, struct result *results) {
    struct place place = {0};
    char *done = strstr(at, "\ndone "), *output = done ? strchr(done + 1, '\n') : 0;
    if (!output || sscanf(at, "branch %d %d %d", &place.rank, &place.call, &place.inside) != 3) return 0;
    const struct place *known = bsearch(&place, places, (size_t)count, sizeof *places, um_compare_places);
    long length = atol(done + 6);
    if (!known || length > end - output - 1) return 0;
    char *next = ++output + length, kept = *next;
    *done = 0;
    *next = 0;
    char *lines = strchr(at, '\n');
    um_read_report(lines ? lines + 1 : 0, &results[known - places]);
    um_read_output(output, &results[known - places]);
    *next = kept;
    return next;
}

/* Reads what came of all places. */
bool um_read_branches(const struct trial *trial, const struct place *places, int count, struct result *results) {
    char *text = um_read_all(trial->files[2]);
    const char *end = text ? text + lseek(trial->files[2], 0, SEEK_END) : 0;
    for (char *at = text; at && at < end;) at = read_branch(at, end, places, count, results);
    free(text);
    return text != 0;
}
