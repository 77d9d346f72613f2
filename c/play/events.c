/* The events of a schedule in words, one a line: `rank 0 takes of 3: word of revocation on 0`. A file of them is played again line by line. */
#define _GNU_SOURCE
#include "launcher/every.h"
#include "progress/progress.h"
#include "search/search.h"
#include <stdlib.h>
#include <string.h>

enum { LINE = 160 };
static const char *const words_of_calls[] = {"sends to",
                                             "posts a receive from",
                                             "looks at receive",
                                             "cancels receive",
                                             "probes",
                                             "revokes",
                                             "asks for a revocation",
                                             "asks for failures",
                                             "acknowledges failures",
                                             "duplicates",
                                             "enters the shrink",
                                             "polls the shrink",
                                             "enters an agreement",
                                             "polls the agreement",
                                             "looks at its send to",
                                             "stops"};
static const char *const words_of_items[] = {
    "nothing", "a message", "word of failure", "word of revocation", "an entry into the shrink", "an entry into agreement"};

/* The line of an event. */
void um_text_of_event(const struct event *event, char *text, size_t room) {
    char peer[24] = "", tag[24] = "", comm[24] = "";
    if (event->kind == LOSES) {
        snprintf(text, room, "rank %d loses what %d sent", event->rank, event->peer);
        return;
    }
    bool takes = event->kind == TAKES, is_look = event->kind == TESTS || event->kind == CANCELS;
    bool is_message = event->kind == SENDS || event->kind == POSTS || event->kind == PROBES || event->kind == LOOKS_AT_SEND;
    bool is_entry = takes && (event->item == ULFM_SHRINK_ENTRY || event->item == ULFM_AGREE_ENTRY);
    bool has_number = is_look || (is_entry && (event->item == ULFM_AGREE_ENTRY || event->tag > 0));
    if (is_message && event->peer == NOBODY) strcpy(peer, " any");
    else if (is_message) snprintf(peer, sizeof peer, " %d", event->peer);
    if (has_number) snprintf(tag, sizeof tag, " %d", event->tag);
    else if (event->tag >= 0 && !is_entry) snprintf(tag, sizeof tag, " tag %d", event->tag);
    if (!is_look && event->kind != STOPS && !(takes && event->item == ULFM_STOP_NOTICE))
        snprintf(comm, sizeof comm, " on %llu", (unsigned long long)um_context_of(event->comm));
    if (takes) snprintf(text, room, "rank %d takes of %d: %s%s%s", event->rank, event->peer, words_of_items[event->item], tag, comm);
    else snprintf(text, room, "rank %d %s%s%s%s", event->rank, words_of_calls[event->kind], peer, tag, comm);
}

/* ---- A schedule that is played again ---- */

static FILE *schedule;
static int line_number;

/* Plans the losses of a file: of how many items each keeps. Whether there are some. */
static bool plan_losses_of_file(void) {
    char line[LINE];
    int to, from, taken[MAX_RANKS][MAX_RANKS] = {{0}};
    bool is_any = false;
    while (fgets(line, LINE, schedule)) {
        if (sscanf(line, "rank %1d takes of %1d", &to, &from) == 2 && to < MAX_RANKS && from < MAX_RANKS) taken[from][to]++;
        if (sscanf(line, "rank %1d loses what %1d", &to, &from) != 2 || to >= MAX_RANKS || from >= MAX_RANKS) continue;
        um_plan_loss(from, to, taken[from][to]);
        is_any = true;
    }
    rewind(schedule);
    return is_any;
}

bool um_open_schedule(void) {
    schedule = fopen(um_options.schedule, "r");
    if (!schedule) fprintf(stderr, "ulfm-mpirun: %s can't be read\n", um_options.schedule);
    return schedule && (!plan_losses_of_file() || um_begin_search()); /* what was sent is counted by footprints */
}

/* The next event of the file; false at its end. */
static bool read_event(char *line) {
    while (fgets(line, LINE, schedule)) {
        line_number++;
        line[strcspn(line, "\n")] = 0;
        if (*line && *line != '#') return true;
    }
    return false;
}

/* The program does something else than it did: says what, and where. */
static void tell_other(const char *line) {
    char text[LINE], place[256];
    int number;
    fprintf(stderr, "ulfm-mpirun: not the same again: line %d of %s is '%s', but ", line_number, um_options.schedule, line);
    if (sscanf(line, "rank %d", &number) != 1 || number < 0 || number >= um_options.ranks) {
        fprintf(stderr, "there is no such event\n");
        um_end_run(STATUS_OTHER);
    }
    const struct rank *rank = &um_ranks[number];
    um_text_of_event(&um_players[number].call, text, sizeof text);
    const char *state = um_players[number].state == WAITS ? "waits" : um_players[number].state == OVER ? "has ended" : strchr(text + 5, ' ') + 1;
    const char *call = rank->call.name ? rank->call.name : "its start";
    fprintf(stderr, "now rank %d %s, in %s%s (call %d)\n", number, state, call, um_line_of(&rank->call, place, sizeof place), rank->plan.calls);
    um_end_run(STATUS_OTHER);
}

/* Which of the choices is the next line of the file; -1 at its end. */
int um_choose_by_schedule(const struct event *choices, int count) {
    char line[LINE], text[LINE];
    if (!read_event(line)) return -1;
    for (int k = 0; k < count; k++) {
        um_text_of_event(&choices[k], text, sizeof text);
        if (!strcmp(line, text)) return k;
    }
    tell_other(line);
    return -1;
}

/* ---- A schedule that is kept ---- */

enum { MOST_EVENTS = 1 << 24 };
static struct {
    int count;
    struct event events[];
} * kept;

/* Adds an event to those that are kept: they stand in memory that isn't put back. */
void um_record(const struct event *event) {
    if (kept && kept->count < MOST_EVENTS) kept->events[kept->count++] = *event;
}

bool um_begin_record(void) {
    if (!kept) kept = um_shared_memory(sizeof *kept + MOST_EVENTS * sizeof *kept->events);
    if (kept) kept->count = 0;
    return kept != 0;
}

/* Writes the file of a schedule, with the command that it is of. False where it can't be written. */
bool um_keep_schedule(const char *path) {
    char text[LINE];
    FILE *file = fopen(path, "w");
    if (!file) return false;
    fputs("#", file);
    um_tell_command(file, 0, um_options.sends_wait);
    for (int k = 0; k < kept->count; k++) {
        um_text_of_event(&kept->events[k], text, sizeof text);
        fprintf(file, "%s\n", text);
    }
    if (kept->count == MOST_EVENTS) fprintf(file, "# more events weren't kept\n");
    return fclose(file) == 0;
}
