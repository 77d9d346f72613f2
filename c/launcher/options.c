/* The words of ulfm-mpirun's command line. */
#define _GNU_SOURCE
#include "launcher/launcher.h"
#include <stdlib.h>
#include <string.h>
#include <unistd.h>

struct options um_options = {.ranks = 1, .search_stops = true, .branches = -1, .report = -1, .capacity = 64};

static const char usage[] =
    "ulfm-mpirun -n N [options] PROGRAM [ARGUMENT..]\n"
    "\n"
    "Runs N ranks, 1 to 8, of a program that ulfm-mpicc linked. Each rank is a thread with globals of its own.\n"
    "\n"
    "  -n N               so many ranks\n"
    "  --stop R@K         rank R stops at its K-th call that begins something or waits\n"
    "  --stop R@K.J       it stops inside that call, at the J-th place: behind a message of a collective, or in a shrink or an agreement\n"
    "  --stop R@NAME:K    it stops at its K-th call of NAME, for example 2@MPI_Allreduce:3; NAME:K.J too\n"
    "  --yields S         threads let others go first at calls, by the number S, so that schedules differ\n"
    "  --seed S           plays one schedule by chance, by the number S, the same each time\n"
    "  --seeds N          plays N schedules by chance, by the numbers from 1 or from that of --seed on, and counts what comes out\n"
    "  --keep FILE        with --seed: writes the schedule there, an event a line; with --seeds the first one that isn't right\n"
    "  --schedule FILE    plays that schedule again\n"
    "  --draw FILE        with --seed or --schedule: draws what happened, as a picture in SVG\n"
    "  --sends wait       MPI_Send and MPI_Isend end as MPI_Ssend and MPI_Issend do\n"
    "  --timeout S        ends the run after S seconds\n"
    "  --tag              each line of output begins with its rank\n"
    "  --every-stop       runs the program once for each call of each rank, and stops that rank there; with --stop these stops too\n"
    "  --same-output      with --every-stop: what the run writes has to be the same lines too, in any order, each at least once\n"
    "  --jobs N           with --every-stop: N runs at the same time; if left out, as many as there are processors\n"
    "  --all              with --every-stop: a line for each place, not only for those where something is wrong\n"
    "  --sample N         with --every-stop or --every-schedule: N of the places, as far apart as can be\n"
    "  --from K, --to K   with --every-stop or --every-schedule: the places of the calls from the K-th on, or up to it\n"
    "  --every-schedule   plays every schedule of the program, and with a stop at each place in turn, up to the order of events that commute\n"
    "  --stops 0          with --every-schedule: without further stops\n"
    "  --no-loss          with --every-schedule: what a rank sent before it stops comes; else the last of it may be lost, for each receiver apart\n"
    "  --limit N          with --every-schedule: at most N schedules at each place (10000)\n"
    "  --places           with --every-schedule: lists the places, one a line, and plays nothing there\n"
    "  --json             with --every-schedule: a line of JSON for each place, in place of the table\n"
    "  --version          tells the version\n"
    "\n"
    "Its status is 0 where each rank that wasn't stopped by plan ended with 0, else that of the first that did not. MPI_Abort: its code, 1 for 0.\n"
    "96: an error was fatal. 97: not the same again. 98: nobody could move any more. 99: the time was over.\n"
    "128 + S: a rank crashed by signal S. 2: a wrong command line.\n";

/* A word as a shell takes it, in memory that the caller frees; null where there is none. */
char *um_quoted(const char *word) {
    size_t plain = strspn(word, "ABCDEFGHIJKLMNOPQRSTUVWXYZabcdefghijklmnopqrstuvwxyz0123456789_-+=./,:@%");
    char *text = malloc(4 * strlen(word) + 3), *at = text;
    if (!text || (*word && !word[plain])) return text ? strcpy(text, word) : text;
    *at++ = '\'';
    for (; *word; word++) {
        *at = *word;
        at = *word == '\'' ? stpcpy(at, "'\\''") : at + 1;
    }
    strcpy(at, "'");
    return text;
}

static int refuse(const char *what, const char *word) {
    fprintf(stderr, "ulfm-mpirun: %s '%s'; --help tells how it is used\n", what, word);
    return STATUS_USAGE;
}

static bool read_number(const char *word, long least, long most, long *number) {
    char *end;
    *number = word ? strtol(word, &end, 10) : 0;
    return word && *word && !*end && *number >= least && *number <= most;
}

/* Reads a number of digits alone, `least` or more, and goes behind it. */
static bool read_digits(const char **word, int least, int *number) {
    size_t length = strspn(*word, "0123456789");
    if (length == 0 || length > 9) return false;
    *number = atoi(*word);
    *word += length;
    return *number >= least;
}

static bool read_sign(const char **word, char sign) { return **word == sign && (*word)++; }

/* R@K, R@K.J, R@NAME:K, R@NAME:K.J */
static bool read_stop(const char *word) {
    struct stop stop = {0};
    if (um_options.stops == MAX_STOPS || !read_digits(&word, 0, &stop.rank) || !read_sign(&word, '@')) return false;
    size_t name = strspn(word, "ABCDEFGHIJKLMNOPQRSTUVWXYZabcdefghijklmnopqrstuvwxyz_");
    if (name >= sizeof stop.name) return false;
    memcpy(stop.name, word, name);
    word += name;
    if (name && !read_sign(&word, ':')) return false;
    if (!read_digits(&word, 1, name ? &stop.nth : &stop.call)) return false;
    if (*word && (!read_sign(&word, '.') || !read_digits(&word, 0, &stop.inside) || *word)) return false;
    um_options.stop[um_options.stops++] = stop;
    return true;
}

static bool read_seconds(const char *word) {
    char *end;
    um_options.timeout = strtod(word, &end);
    return !*end && um_options.timeout > 0 && um_options.timeout <= 1e9;
}

/* An option without a value; false where it isn't one. */
static bool read_flag(const char *word) {
    if (!strcmp(word, "--tag")) um_options.tag = true;
    else if (!strcmp(word, "--every-stop")) um_options.every_stop = true;
    else if (!strcmp(word, "--every-schedule")) um_options.every_schedule = true;
    else if (!strcmp(word, "--no-loss")) um_options.no_loss = true;
    else if (!strcmp(word, "--same-output")) um_options.same_output = true;
    else if (!strcmp(word, "--all")) um_options.all = true;
    else if (!strcmp(word, "--calls")) um_options.calls = true;
    else if (!strcmp(word, "--places")) um_options.places = true;
    else if (!strcmp(word, "--json")) um_options.json = true;
    else return false;
    return true;
}

/* An option with its value; false where it isn't understood. */
static bool read_value(const char *word, const char *value) {
    long number = 0;
    if (!value) return false;
    if (!strcmp(word, "-n") || !strcmp(word, "-np")) return read_number(value, 1, MAX_RANKS, &number) && (um_options.ranks = (int)number);
    if (!strcmp(word, "--stop")) return read_stop(value);
    if (!strcmp(word, "--sends")) return (um_options.sends_wait = !strcmp(value, "wait")) || !strcmp(value, "buffer");
    if (!strcmp(word, "--timeout")) return read_seconds(value);
    if (!strcmp(word, "--seed")) return read_number(value, 1, 2000000000, &number) && (um_options.seed = (uint64_t)number) && (um_is_played = true);
    if (!strcmp(word, "--seeds")) return read_number(value, 1, 1000000000, &um_options.seeds) && (um_is_played = true);
    if (!strcmp(word, "--search")) return read_number(value, 1, 1000000000, &um_options.limit) && (um_is_played = true);
    if (!strcmp(word, "--limit")) return read_number(value, 1, 1000000000, &um_options.limit);
    if (!strcmp(word, "--stops")) return read_number(value, 0, 1, &number) && ((um_options.search_stops = number), true);
    if (!strcmp(word, "--checks")) return read_number(value, 1, 1000000000, &um_options.checks);
    if (!strcmp(word, "--yields")) return read_number(value, 1, 2000000000, &number) && (um_options.yields = (uint64_t)number);
    if (!strcmp(word, "--schedule")) return (um_options.schedule = value) && (um_is_played = true);
    if (!strcmp(word, "--keep")) return (um_options.keep = value) != 0;
    if (!strcmp(word, "--from")) return read_number(value, 1, 1000000000, &number) && (um_options.first_call = (int)number);
    if (!strcmp(word, "--to")) return read_number(value, 1, 1000000000, &number) && (um_options.last_call = (int)number);
    if (!strcmp(word, "--sample")) return read_number(value, 1, 1000000000, &number) && (um_options.sample = (int)number);
    if (!strcmp(word, "--branches")) return read_number(value, 0, 65535, &number) && (um_options.branches = (int)number) >= 0;
    if (!strcmp(word, "--draw")) return (um_options.draw = value) != 0;
    if (!strcmp(word, "--jobs")) return read_number(value, 1, 1024, &number) && (um_options.jobs = (int)number);
    if (!strcmp(word, "--report")) return read_number(value, 0, 65535, &number) && (um_options.report = (int)number) >= 0;
    return false;
}

static int refuse_option(const char *word, const char *value) {
    long wanted;
    bool is_count = !strcmp(word, "-n") || !strcmp(word, "-np");
    if (is_count && read_number(value, MAX_RANKS + 1, 1000000000, &wanted)) return refuse("8 ranks are the most, and not", value);
    fprintf(stderr, "ulfm-mpirun: '%s%s%s' isn't understood; --help tells how it is used\n", word, *value ? " " : "", value);
    return STATUS_USAGE;
}

/* Refuses options that don't go together; 0 where they do. */
static int refuse_clash(void) {
    const char *once = "--schedule plays one schedule again, which doesn't go with";
    bool by_chance = um_options.seed || um_options.seeds;
    if (um_options.schedule && by_chance) return refuse(once, um_options.seeds ? "--seeds" : "--seed");
    if (um_options.schedule && um_options.every_stop) return refuse(once, "--every-stop");
    if (um_options.schedule && um_options.every_schedule) return refuse(once, "--every-schedule");
    if (um_options.every_schedule && by_chance) return refuse("--every-schedule doesn't go with", "--seed or --seeds");
    if (um_options.every_schedule && um_options.every_stop) return refuse("--every-schedule doesn't go with", "--every-stop");
    if (um_options.every_stop && um_options.seeds) return refuse("--every-stop plays each place once, which doesn't go with", "--seeds");
    bool has_places = um_options.every_stop || (um_options.every_schedule && um_options.search_stops);
    if (!has_places && (um_options.first_call || um_options.last_call || um_options.sample || um_options.places))
        return refuse("--sample, --from, --to and --places go with a table of places, and not with", "one run");
    if (!um_options.every_schedule && (um_options.places || um_options.json)) return refuse("--places and --json go with", "--every-schedule");
    if (um_options.draw && (!um_is_played || um_options.seeds || um_options.every_stop || um_options.every_schedule))
        return refuse("one schedule is drawn, by --seed or --schedule, and not by", "--draw");
    if (um_options.keep && (!um_is_played || um_options.every_stop))
        return refuse("one schedule by chance is kept, by --seed alone, and not by", "--keep");
    return 0;
}

/* Reads the command line into `um_options`. 0, or the status with which the launcher ends; -1: it ends with 0. */
int um_read_words(int count, char **words) {
    int k = 1;
    for (; k < count && words[k][0] == '-'; k++) {
        if (!strcmp(words[k], "--help") || !strcmp(words[k], "-h")) {
            fputs(usage, stdout);
            return -1;
        }
        if (!strcmp(words[k], "--version") || !strcmp(words[k], "-V")) {
            puts("ulfm-mpirun (Cufandrize " ULFM_VERSION "): MPI 4.0 and ULFM");
            return -1;
        }
        if (read_flag(words[k])) continue;
        if (!read_value(words[k], k + 1 < count ? words[k + 1] : 0)) return refuse_option(words[k], k + 1 < count ? words[k + 1] : "");
        k++;
    }
    if (k == count) return refuse("a program is missing after", words[count - 1]);
    for (int stop = 0; stop < um_options.stops; stop++)
        if (um_options.stop[stop].rank >= um_options.ranks) return refuse("there are too few ranks for the stops, by", "-n");
    if (refuse_clash()) return STATUS_USAGE;
    um_options.program = words[k];
    um_options.words = words + k + 1;
    um_options.count = count - k - 1;
    if (access(um_options.program, R_OK)) return refuse("there is no program", um_options.program);
    return 0;
}
