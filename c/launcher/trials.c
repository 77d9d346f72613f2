/* The runs of --every-stop: processes of the launcher, which write to files without names. */
#define _GNU_SOURCE
#include "launcher/every.h"
#include <fcntl.h>
#include <sched.h>
#include <stdlib.h>
#include <string.h>
#include <sys/mman.h>
#include <sys/prctl.h>
#include <unistd.h>

enum { MOST_WORDS = 32 + 2 * MAX_STOPS, TEXTS = 8 + MAX_STOPS, SECONDS = 60 };

int um_processors(void) {
    cpu_set_t set;
    return sched_getaffinity(0, sizeof set, &set) == 0 ? CPU_COUNT(&set) : 1;
}

/* The words of a search at a place, or of a first run without one: how many there are. */
static int words_of_search(char *words[], char texts[][64], const struct place *place) {
    static char path[512];
    int count = 0;
    if (!place) {
        words[count++] = "--seed";
        words[count++] = "1";
        return count;
    }
    um_path_of_schedule(place, 1, path, sizeof path);
    snprintf(texts[0], 64, "%ld", um_options.limit);
    snprintf(texts[1], 64, "%ld", um_options.checks);
    words[count++] = "--search";
    words[count++] = texts[0];
    words[count++] = "--keep";
    words[count++] = path;
    if (um_options.no_loss) words[count++] = "--no-loss";
    if (um_options.checks) {
        words[count++] = "--checks";
        words[count++] = texts[1];
    }
    return count;
}

/* The words of a run that goes on from each place: how many there are. */
static int words_of_branches(char *words[], char texts[][64], const struct trial *trial) {
    int count = 0;
    snprintf(texts[0], 64, "%d", trial->branches);
    snprintf(texts[1], 64, "%d", um_options.jobs ? um_options.jobs : um_processors());
    words[count++] = "--branches";
    words[count++] = texts[0];
    words[count++] = "--jobs";
    words[count++] = texts[1];
    if (um_options.same_output) words[count++] = "--same-output";
    return count;
}

/* Fills in the words of a run, before those of the program: how many there are. */
static int words_of(char *words[], const char *launcher, char texts[][64], const struct trial *trial, const struct place *place) {
    int count = 0;
    words[count++] = (char *)(uintptr_t)launcher;
    words[count++] = "-n";
    words[count++] = texts[0];
    words[count++] = "--report";
    words[count++] = texts[1];
    words[count++] = "--timeout";
    words[count++] = texts[2];
    snprintf(texts[0], 64, "%d", um_options.ranks);
    snprintf(texts[1], 64, "%d", trial->files[2]);
    snprintf(texts[2], 64, "%g", um_options.timeout > 0 ? um_options.timeout : (double)SECONDS);
    if (is_place(place)) {
        words[count++] = "--stop";
        words[count++] = texts[4];
        snprintf(texts[4], 64, place->inside ? "%d@%d.%d" : "%d@%d", place->rank, place->call, place->inside);
    }
    for (int k = 0; k < um_options.stops; k++) {
        words[count++] = "--stop";
        words[count++] = texts[8 + k];
        um_text_of_stop(&um_options.stop[k], texts[8 + k], 64);
    }
    if (um_options.every_schedule) count += words_of_search(&words[count], &texts[6], place);
    if (!place && !trial->branches) words[count++] = "--calls";
    if (trial->branches) count += words_of_branches(&words[count], &texts[6], trial);
    if (um_options.seed) {
        words[count++] = "--seed";
        words[count++] = texts[5];
        snprintf(texts[5], 64, "%llu", (unsigned long long)um_options.seed);
    }
    words[count++] = "--sends";
    words[count++] = trial->sends_wait ? "wait" : "buffer";
    words[count++] = (char *)(uintptr_t)um_options.program;
    return count;
}

/* In the process of a run: becomes the launcher. */
static void become(pid_t parent, const struct trial *trial, const char *launcher, const struct place *place) {
    char texts[TEXTS][64];
    char **words = calloc((size_t)(MOST_WORDS + um_options.count + 1), sizeof *words);
    int none = open("/dev/null", O_RDONLY);
    prctl(PR_SET_PDEATHSIG, SIGTERM); /* who ends the table ends its runs */
    if (!words || none < 0 || getppid() != parent) _exit(STATUS_USAGE);
    int count = words_of(words, launcher, texts, trial, place);
    for (int k = 0; k < um_options.count; k++) words[count++] = um_options.words[k];
    dup2(none, 0);
    dup2(trial->files[0], 1);
    dup2(trial->files[1], 2);
    fcntl(trial->files[2], F_SETFD, 0);
    if (trial->branches) fcntl(trial->branches, F_SETFD, 0);
    execv("/proc/self/exe", words);
    _exit(STATUS_USAGE);
}

/* Starts a run with a stop, or with none. False where no process can be had. */
bool um_start_trial(struct trial *trial, const char *launcher, const struct place *place) {
    for (int k = 0; k < 3; k++) {
        trial->files[k] = memfd_create("ulfm-run", MFD_CLOEXEC);
        if (trial->files[k] < 0) {
            fprintf(stderr, "ulfm-mpirun: no file for a run\n");
            return false;
        }
    }
    fflush(stdout);
    pid_t own = getpid();
    trial->pid = fork();
    if (trial->pid == 0) become(own, trial, launcher, place);
    if (trial->pid < 0) fprintf(stderr, "ulfm-mpirun: no process for a run\n");
    return trial->pid > 0;
}

void um_close_trial(struct trial *trial) {
    for (int k = 0; k < 3; k++) close(trial->files[k]);
}

/* All of a file, or null where there is no memory. */
char *um_read_all(int file) {
    off_t length = lseek(file, 0, SEEK_END);
    char *text = malloc((size_t)length + 1);
    if (!text) return 0;
    ssize_t count = pread(file, text, (size_t)length, 0);
    text[count > 0 ? count : 0] = 0;
    return text;
}

static int compare_lines(const void *a, const void *b) { return strcmp(*(char *const *)a, *(char *const *)b); }

/* The lines of a text in order of their letters, each once, and with its end. */
static char *sorted(char *text) {
    size_t length = text ? strlen(text) : 0, count = 0, used = 0;
    char **lines = calloc(length + 1, sizeof *lines), *result = malloc(length + 2), *rest;
    if (!lines || !result || !text) return result;
    for (char *line = strtok_r(text, "\n", &rest); line; line = strtok_r(0, "\n", &rest)) lines[count++] = line;
    qsort(lines, count, sizeof *lines, compare_lines);
    for (size_t k = 0; k < count; k++)
        if (k == 0 || strcmp(lines[k - 1], lines[k])) used += (size_t)sprintf(result + used, "%s\n", lines[k]);
    result[used] = 0;
    free(lines);
    return result;
}

/* Reads one line of a report. */
static void read_line(const char *line, struct result *result) {
    int rank, number;
    char name[48], failures[96] = "";
    size_t used = strlen(result->detail), room = sizeof result->detail - used;
    if (sscanf(line, "stopped %d", &rank) == 1) result->fate[rank] = STOPPED;
    else if (sscanf(line, "failed %d %d", &rank, &number) == 2) result->fate[rank] = FAILED_ITSELF;
    else if (sscanf(line, "end %d %d", &rank, &number) == 2) result->fate[rank] = ENDED, result->status[rank] = number;
    else if (sscanf(line, "at %d %47s%95[^\n]", &rank, name, failures) >= 2)
        snprintf(result->detail + used, room, "%s %d in %s%s", used ? "," : "", rank, name, failures);
    else if (!strncmp(line, "stuck", 5)) result->end = STUCK;
    else if (!strncmp(line, "loops", 5)) result->end = LOOPS;
    else if (!strncmp(line, "late", 4)) result->end = LATE;
    else if (!strncmp(line, "long", 4)) result->end = LONG;
    else if (result->end != RIGHT) return;
    else if (sscanf(line, "fatal %d %47s %d", &rank, name, &number) == 3) {
        result->end = FATAL;
        snprintf(result->detail, sizeof result->detail, " %d in %s, class %d", rank, name, number);
    } else if (sscanf(line, "abort %d %d", &rank, &number) == 2) {
        result->end = ABORTED;
        snprintf(result->detail, sizeof result->detail, " %d by MPI_Abort with %d", rank, number);
    } else if (sscanf(line, "crash %d %d", &rank, &number) == 2) {
        result->end = CRASHED;
        snprintf(result->detail, sizeof result->detail, " %d by signal %d", rank, number);
    }
}

/* Reads a report, which is cut into its lines. */
void um_read_report(char *text, struct result *result) {
    char *rest;
    *result = (struct result){.end = RIGHT};
    for (char *line = text ? strtok_r(text, "\n", &rest) : 0; line; line = strtok_r(0, "\n", &rest)) read_line(line, result);
}

/* Reads what a run wrote, which is cut into its lines. */
void um_read_output(char *text, struct result *result) { result->output = sorted(text); }

void um_read_result(const struct trial *trial, struct result *result) {
    char *text = um_read_all(trial->files[2]);
    um_read_report(text, result);
    free(text);
    text = um_read_all(trial->files[0]);
    um_read_output(text, result);
    free(text);
}
