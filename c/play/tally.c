/* Many schedules of a program in one process: its memory is put back after each. Under AddressSanitizer and memcheck each is a process of its own. */
#define _GNU_SOURCE
#include "play/tally.h"
#include "progress/progress.h"
#include "search/search.h"
#include <fcntl.h>
#include <string.h>
#include <sys/wait.h>
#include <unistd.h>

struct tally *um_tally;
static int streams[2];

bool um_begin_tally(void) { return (um_tally = um_shared_memory(sizeof *um_tally)) != 0; }

/* A line of a report: kept where many schedules are played. */
bool um_note_report(const char *line, size_t length) {
    if (!um_tally) return false;
    if (um_tally->used + length < REPORT) {
        memcpy(um_tally->report + um_tally->used, line, length);
        um_tally->used += length;
        um_tally->report[um_tally->used] = 0;
    }
    return true;
}

/* A signal from outside: what is known is told after the present schedule. False: it came before. Who searches for a table gets it from that one too. */
bool um_stop_soon(void) {
    if (!um_tally || (um_tally->is_over && um_options.report < 0)) return false;
    return um_tally->is_over = true;
}

/* What ranks write isn't shown. */
static void mute(void) {
    int none = open("/dev/null", O_WRONLY | O_CLOEXEC);
    for (int k = 0; k < 2; k++) {
        streams[k] = fcntl(k + 1, F_DUPFD_CLOEXEC, 100);
        dup2(none, k + 1);
    }
    close(none);
}

void um_unmute(void) {
    fflush(stdout);
    for (int k = 0; k < 2; k++)
        if (streams[k]) dup2(streams[k], k + 1);
}

/* All ranks stand before their first event, and their memory is kept. */
bool um_begin_many(bool is_apart) {
    mute();
    if (!um_begin_ranks()) return false;
    um_tally->begun = um_tally->used;
    if (is_apart) return true;
    if (!um_begin_outside() || !um_take_snapshot()) return false;
    um_note_outside();
    return true;
}

/* In a process of its own, where memory can't be put back under what looks at it. */
static void play_apart(void) {
    pid_t pid = fork();
    int status = 0;
    if (pid == 0) {
        um_be_launcher();
        um_tally->status = um_play_once();
        um_tally->steps = um_step;
        um_leave_process(0);
    }
    if (pid > 0) waitpid(pid, &status, 0);
    if (pid < 0) um_tally->is_over = true;
    if (WIFSIGNALED(status) || (WIFEXITED(status) && WEXITSTATUS(status))) um_note_report("crash -1 0\n", 11);
}

/* Plays one schedule. False: the time is over. */
bool um_play_next(bool is_apart) {
    um_tally->used = um_tally->begun;
    um_tally->report[um_tally->used] = 0;
    if (um_options.keep) um_begin_record();
    if (is_apart) play_apart();
    else um_tally->status = um_play_once(), um_tally->steps = um_step;
    if (um_tally->status == STATUS_LATE) um_tally->is_over = true;
    return um_tally->status != STATUS_LATE;
}

void um_put_all_back(bool is_apart) {
    if (is_apart) return;
    um_put_back();
    um_put_back_outside();
}

/* How the present schedule came out. */
static enum outcome outcome_of(char *why, size_t room) {
    struct result base = {0}, result = {0};
    char report[REPORT];
    for (int k = 0; k < um_options.ranks; k++) base.fate[k] = ENDED;
    for (int k = 0; k < um_options.stops; k++) base.fate[um_options.stop[k].rank] = STOPPED;
    strcpy(report, um_tally->report);
    um_read_report(report, &result);
    return um_judge(&base, &result, 0, why, room);
}

/* Counts the present schedule among those that came out so. Whether it is the first one of these; which ending it has. */
bool um_count_ending(uint64_t seed, int *which) {
    char why[WHY];
    enum outcome outcome = outcome_of(why, sizeof why);
    int k = 0;
    while (k < um_tally->count && (um_tally->endings[k].outcome != outcome || strcmp(um_tally->endings[k].why, why))) k++;
    if (k == MOST_ENDS) k--; /* the last one stands for all others */
    bool is_first = k == um_tally->count;
    if (is_first) {
        um_tally->endings[um_tally->count] = (struct ending){.outcome = outcome, .seed = seed};
        strcpy(um_tally->endings[um_tally->count++].why, why);
    }
    um_tally->endings[k].count++;
    um_tally->played++;
    *which = k;
    return is_first;
}
