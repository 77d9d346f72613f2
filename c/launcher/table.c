/* The table of --every-stop: what came out of each run, and the command that repeats it. */
#include "launcher/every.h"
#include "launcher/launcher.h"
#include <stdlib.h>
#include <string.h>

/* clang-format off */
static const char *const outcomes[OUTCOMES] = {
    "right", "not reached", "another status", "another output", "a rank failed that wasn't stopped", "nobody can move", "looks that nobody ends", "the time was over",
    "not played to its end: it has 12,000 events and more",
    "an error was fatal", "the run was aborted", "a crash"};
/* clang-format on */

const char *um_words_of_outcome(enum outcome outcome) { return outcomes[outcome]; }

/* A stop of the plan, as the command line has it. */
void um_text_of_stop(const struct stop *stop, char *text, size_t room) {
    int used =
        stop->call ? snprintf(text, room, "%d@%d", stop->rank, stop->call) : snprintf(text, room, "%d@%s:%d", stop->rank, stop->name, stop->nth);
    if (stop->inside) snprintf(text + used, room - (size_t)used, ".%d", stop->inside);
}

static void tell_word(FILE *to, const char *word) {
    char *text = um_quoted(word);
    fprintf(to, " %s", text ? text : word);
    free(text);
}

/* Writes the command that repeats a run. */
void um_tell_command(FILE *to, const struct place *place, bool sends_wait) {
    fprintf(to, "           ulfm-mpirun -n %d", um_options.ranks);
    if (is_place(place)) fprintf(to, place->inside ? " --stop %d@%d.%d" : " --stop %d@%d", place->rank, place->call, place->inside);
    for (int k = 0; k < um_options.stops; k++) {
        char text[80];
        um_text_of_stop(&um_options.stop[k], text, sizeof text);
        fprintf(to, " --stop %s", text);
    }
    if (sends_wait) fprintf(to, " --sends wait");
    if (um_options.seed) fprintf(to, " --seed %llu", (unsigned long long)um_options.seed);
    if (um_options.schedule) {
        fputs(" --schedule", to);
        tell_word(to, um_options.schedule);
    }
    tell_word(to, um_options.program);
    for (int k = 0; k < um_options.count; k++) tell_word(to, um_options.words[k]);
    fputc('\n', to);
}

/* The first line of a text that isn't in the other one; both are sorted. */
static void first_difference(const char *base, const char *output, char *why, size_t room) {
    while (*base && *output) {
        size_t one = strcspn(base, "\n"), other = strcspn(output, "\n");
        if (one != other || strncmp(base, output, one)) break;
        base += one + 1;
        output += other + 1;
    }
    int extra = (int)strcspn(output, "\n"), missing = (int)strcspn(base, "\n");
    if (*output && (!*base || strcmp(output, base) < 0)) snprintf(why, room, ": '%.*s' is new", extra, output);
    else snprintf(why, room, ": '%.*s' is missing", missing, base);
}

/* How a run with a stop came out, or without one, compared with how it should, and why. */
enum outcome um_judge(const struct result *base, const struct result *result, const struct place *place, char *why, size_t room) {
    *why = 0;
    if (result->end != RIGHT) {
        snprintf(why, room, ":%s", result->detail);
        return result->end;
    }
    if (place && result->fate[place->rank] != STOPPED) return NOT_REACHED;
    for (int k = 0; k < um_options.ranks; k++) {
        if ((place && k == place->rank) || (base->fate[k] == STOPPED && result->fate[k] == STOPPED)) continue;
        if (result->fate[k] != ENDED) {
            snprintf(why, room, ": rank %d", k);
            return FAILED;
        }
        if (result->status[k] != base->status[k]) {
            snprintf(why, room, ": rank %d ended with %d", k, result->status[k]);
            return OTHER_STATUS;
        }
    }
    if (!um_options.same_output || !strcmp(base->output, result->output)) return RIGHT;
    first_difference(base->output, result->output, why, room);
    return OTHER_OUTPUT;
}

/* A line for a run, where it came out wrong or all are wanted, and the command below. */
void um_tell_outcome(const struct place *place, bool sends_wait, enum outcome outcome, const char *why) {
    char stop[32];
    if ((outcome == RIGHT || outcome == NOT_REACHED) && !um_options.all) return;
    snprintf(stop, sizeof stop, place->inside ? "%d@%d.%d" : "%d@%d", place->rank, place->call, place->inside);
    printf("%-10s %-22s %-7s %s%s\n", stop, place->name, sends_wait ? "wait" : "buffer", outcomes[outcome], why);
    um_tell_command(stdout, place, sends_wait);
}

/* How many places came out how. */
void um_tell_counts(int counts[2][OUTCOMES]) {
    for (int k = 0; k < 2; k++) {
        int total = 0;
        for (int outcome = 0; outcome < OUTCOMES; outcome++) total += counts[k][outcome];
        const char *kind = k ? "sends that wait" : "buffered sends";
        if (total) printf("%s: %d of %d places right", kind, counts[k][RIGHT], total);
        else printf("%s: not tried", kind);
        for (int outcome = 1; outcome < OUTCOMES; outcome++)
            if (counts[k][outcome]) printf(", %d: %s", counts[k][outcome], outcomes[outcome]);
        putchar('\n');
    }
}
