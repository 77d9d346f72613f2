/* --every-stop: runs the program without a further stop, to count the calls, and then once for each call of each rank and each place inside, with sends that
   are buffered and with sends that wait; and prints what came out. */
#define _GNU_SOURCE
#include "launcher/every.h"
#include "launcher/launcher.h"
#include <signal.h>
#include <stdlib.h>
#include <string.h>
#include <sys/wait.h>
#include <time.h>
#include <unistd.h>

enum { MANY = 1000 }; /* so many places may take long */

/* How the run with a stop at a place came out, until its line is told. */
struct judged {
    bool is_there;
    enum outcome outcome;
    char why[600];
};

/* One kind of sends: the run without a stop, and its places. */
struct kind_of_sends {
    bool sends_wait;
    struct result base;
    struct place *places;
    int count;
    double seconds;      /* that the run took */
    struct found *found; /* of --every-schedule: what the search at each place found; else null */
    struct judged *judged;
    int told; /* the places before have their lines */
};

static volatile sig_atomic_t is_interrupted;
static struct trial *trials;
static int trial_count, counts[2][OUTCOMES];

static bool make_trials(void) {
    trial_count = um_options.jobs ? um_options.jobs : um_processors();
    trials = calloc((size_t)trial_count, sizeof *trials);
    return trials != 0;
}

/* Waits until a trial ends. Its place in the table, or -1 where there is none. */
static int wait_for_trial(void) {
    int status;
    pid_t pid = waitpid(-1, &status, 0);
    for (int k = 0; k < trial_count; k++)
        if (pid > 0 && trials[k].pid == pid) return k;
    return -1;
}

static double seconds(void) {
    struct timespec now;
    clock_gettime(CLOCK_MONOTONIC, &now);
    return (double)now.tv_sec + 1e-9 * (double)now.tv_nsec;
}

/* Runs the program once, alone, without a stop. False where it doesn't end well. */
static bool run_base(struct kind_of_sends *kind, const char *launcher) {
    struct trial *trial = &trials[0];
    *trial = (struct trial){.place = -1, .sends_wait = kind->sends_wait};
    double begun = seconds();
    if (!um_start_trial(trial, launcher, 0)) return false;
    while (wait_for_trial() != 0) continue;
    um_read_result(trial, &kind->base);
    kind->places = um_read_places(trial, &kind->count);
    kind->seconds = seconds() - begun;
    bool is_well = kind->base.end == RIGHT && kind->count > 0;
    for (int k = 0; k < um_options.ranks; k++) is_well = is_well && (kind->base.fate[k] == ENDED || kind->base.fate[k] == STOPPED);
    if (!is_well) {
        char *errors = um_read_all(trial->files[1]);
        printf("without a further stop, %s: the run doesn't end well, so no places are tried:\n",
               kind->sends_wait ? "sends that wait" : "buffered sends");
        fputs(errors ? errors : "", stdout);
        um_tell_command(stdout, 0, kind->sends_wait);
        free(errors);
    }
    um_close_trial(trial);
    trial->pid = 0;
    return is_well;
}

/* Judges the run of a place. Lines are told in the order of places, each as soon as none is missing before it. */
static void tell_result(struct kind_of_sends *kind, int place, struct result *result) {
    struct judged *judged = &kind->judged[place];
    judged->outcome = um_judge(&kind->base, result, &kind->places[place], judged->why, sizeof judged->why);
    judged->is_there = true;
    counts[kind->sends_wait][judged->outcome]++;
    free(result->output);
    for (; kind->told < kind->count && kind->judged[kind->told].is_there; kind->told++)
        um_tell_outcome(&kind->places[kind->told], kind->sends_wait, kind->judged[kind->told].outcome, kind->judged[kind->told].why);
}

/* What a search found. One that was interrupted before it began wasn't tried. */
static void keep_found(const struct trial *trial, const struct kind_of_sends *kind) {
    struct found *found = &kind->found[trial->place];
    um_read_found(trial, found);
    if (is_interrupted && !found->is_there) *found->other = 0;
    else if (um_options.json) um_tell_json(&kind->places[trial->place], found);
}

static void end_trial(struct trial *trial, struct kind_of_sends *kind) {
    struct result result;
    if (kind->found) {
        keep_found(trial, kind);
        um_close_trial(trial);
        trial->pid = 0;
        return;
    }
    um_read_result(trial, &result);
    tell_result(kind, trial->place, &result);
    um_close_trial(trial);
    trial->pid = 0;
}

/* ---- --every-schedule ---- */

static time_t begun;

/* What is known is told when the searches that run have ended, which they do soon. */
static void interrupt(int number) { is_interrupted = number; }

/* They are told each second: one that had just begun may not have heard it. */
static void interrupt_trials(void) {
    for (int k = 0; k < trial_count; k++)
        if (trials[k].pid > 0) kill(trials[k].pid, SIGINT);
    alarm(1);
}

/* How far it is, on a terminal. */
static void tell_progress(int done, int count) {
    long spent = (long)(time(0) - begun);
    if (!isatty(2)) return;
    if (done < count) fprintf(stderr, "\r%d of %d places, %ld s, about %ld s more ", done, count, spent, done ? spent * (count - done) / done : 0);
    else fprintf(stderr, "\r%60s\r", "");
}

/* The program as it stands, before its places, where no places are chosen: a place of no rank. */
static bool add_no_stop(struct kind_of_sends *kind) {
    int first = !um_are_places_chosen();
    struct place *places = calloc((size_t)kind->count + 1, sizeof *places);
    if (!places) return false;
    places[0] = (struct place){.rank = -1, .name = "without a stop"};
    if (kind->count) memcpy(&places[first], kind->places, (size_t)kind->count * sizeof *places);
    free(kind->places);
    kind->places = places;
    kind->count += first;
    kind->found = calloc((size_t)kind->count + 1, sizeof *kind->found);
    return kind->found != 0;
}

/* --places: each as --stop has it. */
static int list_places(const struct kind_of_sends *kind) {
    char text[32];
    for (int k = 0; k < kind->count; k++) printf("%s\n", um_text_of_place(&kind->places[k], text, sizeof text));
    fflush(stdout);
    return kind->count ? 0 : 1;
}

/* Runs the program for each place, `trial_count` at the same time. */
static bool run_places(struct kind_of_sends *kind, const char *launcher) {
    int next = 0, running = 0;
    while ((next < kind->count && !is_interrupted) || running > 0) {
        int free_trial = 0;
        while (free_trial < trial_count && trials[free_trial].pid) free_trial++;
        tell_progress(next - running, kind->count);
        if (next < kind->count && free_trial < trial_count && !is_interrupted) {
            trials[free_trial] = (struct trial){.place = next, .sends_wait = kind->sends_wait};
            if (!um_start_trial(&trials[free_trial], launcher, &kind->places[next])) return false;
            next++;
            running++;
            continue;
        }
        int done = wait_for_trial();
        if (is_interrupted) interrupt_trials();
        if (done < 0) continue;
        end_trial(&trials[done], kind);
        running--;
    }
    return true;
}

static void tell_beginning(int count) {
    if (!um_options.json)
        printf(count == 1 ? "%d place, at most %ld schedules\n" : "%d places, at most %ld schedules at each\n", count, um_options.limit);
    fflush(stdout);
}

/* Searches all schedules of the program, and at each place of a stop. */
int um_every_schedule(const char *launcher) {
    struct kind_of_sends kind = {.sends_wait = um_options.sends_wait};
    struct sigaction action = {.sa_handler = interrupt}; /* it ends a wait */
    if (!um_options.limit) um_options.limit = LIMIT;
    if (!make_trials()) return STATUS_USAGE;
    if (!um_options.search_stops || !run_base(&kind, launcher)) kind.count = 0;
    kind.count = um_choose_places(kind.places, kind.count);
    if (um_options.places) return list_places(&kind);
    if (!add_no_stop(&kind)) return STATUS_USAGE;
    sigaction(SIGINT, &action, 0);
    sigaction(SIGTERM, &action, 0);
    sigaction(SIGALRM, &action, 0);
    begun = time(0);
    tell_beginning(kind.count);
    if (!run_places(&kind, launcher)) return STATUS_USAGE;
    tell_progress(kind.count, kind.count);
    int status = um_tell_all_found(kind.places, kind.found, kind.count);
    for (int k = 0; k < kind.count; k++) free(kind.found[k].endings);
    free(kind.found);
    free(kind.places);
    free(kind.base.output);
    free(trials);
    fflush(stdout);
    return status;
}

/* Of many places, how many there are and about how long they take, before they are tried. */
static void tell_estimate(const struct kind_of_sends *kind) {
    double whole = kind->seconds * kind->count / trial_count, left = um_options.seed ? whole / 2 : whole;
    if (kind->count < MANY) return;
    fprintf(stderr, "ulfm-mpirun: %d places with %s, about %.0f s; --sample N tries N of them%s\n", kind->count,
            kind->sends_wait ? "sends that wait" : "buffered sends", left,
            um_options.seed ? "" : ", and by --seed 1 each is gone on from where the run comes to it");
}

/* Plays the program once by its seed, and goes on from each place in a process of its own. */
static bool run_branches(struct kind_of_sends *kind, const char *launcher) {
    struct trial *trial = &trials[0];
    *trial = (struct trial){.place = -1, .sends_wait = kind->sends_wait, .branches = um_write_wanted(kind->places, kind->count)};
    struct result *results = calloc((size_t)kind->count, sizeof *results);
    bool is_well = results && trial->branches > 0 && um_start_trial(trial, launcher, 0);
    while (is_well && wait_for_trial() != 0) continue;
    if (is_well) is_well = um_read_branches(trial, kind->places, kind->count, results);
    for (int k = 0; k < kind->count && is_well; k++) tell_result(kind, k, &results[k]);
    if (!is_well) fprintf(stderr, "ulfm-mpirun: the places can't be gone on from\n");
    close(trial->branches);
    um_close_trial(trial);
    trial->pid = 0;
    free(results);
    return is_well;
}

static bool try_places(struct kind_of_sends *kind, const char *launcher) {
    kind->count = um_choose_places(kind->places, kind->count);
    kind->judged = calloc((size_t)kind->count + 1, sizeof *kind->judged);
    if (!kind->judged) return false;
    tell_estimate(kind);
    begun = time(0);
    bool is_well = um_options.seed ? run_branches(kind, launcher) : run_places(kind, launcher);
    tell_progress(kind->count, kind->count);
    free(kind->judged);
    return is_well;
}

/* 0: each stop that was reached came out right. 1: not so. 2: it couldn't be tried. */
int um_every_stop(const char *launcher) {
    bool is_well = true;
    if (!make_trials()) return STATUS_USAGE;
    printf("%-10s %-22s %-7s %s\n", "stop", "call", "sends", "what came out");
    for (int k = 0; k < 2; k++) {
        struct kind_of_sends kind = {.sends_wait = k};
        if (!run_base(&kind, launcher)) is_well = false;
        else if (!try_places(&kind, launcher)) return STATUS_USAGE;
        free(kind.places);
        free(kind.base.output);
    }
    um_tell_counts(counts);
    for (int k = 0; k < 2; k++)
        for (int outcome = OTHER_STATUS; outcome < OUTCOMES; outcome++) is_well = is_well && counts[k][outcome] == 0;
    free(trials);
    fflush(stdout);
    return is_well ? 0 : 1;
}
