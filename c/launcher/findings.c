/* The table of --every-schedule: what the searches of all places found. */
#define _GNU_SOURCE
#include "launcher/every.h"
#include "progress/progress.h"
#include <stdlib.h>
#include <string.h>

/* The file of a schedule at a place, by the name of the program; of the endings of a place that aren't right the first one has no number. */
void um_path_of_schedule(const struct place *place, int number, char *path, size_t room) {
    const char *name = strrchr(um_options.program, '/');
    size_t used = (size_t)snprintf(path, room, "%s", name ? name + 1 : um_options.program);
    if (is_place(place))
        used += (size_t)snprintf(path + used, room - used, place->inside ? ".%d@%d.%d" : ".%d@%d", place->rank, place->call, place->inside);
    for (int k = 0; k < um_options.stops && used + 90 < room; k++) {
        char text[80];
        um_text_of_stop(&um_options.stop[k], text, sizeof text);
        used += (size_t)snprintf(path + used, room - used, ".%s", text);
    }
    if (!is_place(place) && !um_options.stops) used += (size_t)snprintf(path + used, room - used, ".no_stop");
    if (number > 1) snprintf(path + used, room - used, ".%d", number);
}

static bool add_ending(struct found *found, const char *line) {
    struct found_ending ending = {0};
    int outcome, used = 0;
    if (sscanf(line, "ending %ld %d %d%n", &ending.count, &outcome, &ending.number, &used) < 3 || outcome < 0 || outcome >= OUTCOMES) return false;
    ending.outcome = (enum outcome)outcome;
    snprintf(ending.why, sizeof ending.why, "%s", line + used);
    if (!um_grow(&found->endings, found->count, sizeof ending)) return false;
    found->endings[found->count++] = ending;
    return true;
}

/* Reads what a search reported. */
void um_read_found(const struct trial *trial, struct found *found) {
    char *text = um_read_all(trial->files[2]), *rest;
    int is_whole, rule;
    long count;
    *found = (struct found){.is_there = false};
    for (char *line = text ? strtok_r(text, "\n", &rest) : 0; line; line = strtok_r(0, "\n", &rest)) {
        if (sscanf(line, "searched %ld %d %ld %ld %ld", &found->searched, &is_whole, &found->played, &found->unseen, &found->otherwise) == 5) {
            found->is_there = true;
            found->is_whole = is_whole;
        }
        if (sscanf(line, "swapped %d %ld", &rule, &count) == 2 && rule >= 0 && rule < SWAPS) found->swapped[rule] = count;
        add_ending(found, line);
        if (!strncmp(line, "ulfm-mpirun: ", 13) && !*found->note) snprintf(found->note, sizeof found->note, "%s", line);
        if (!strncmp(line, "other ", 6)) snprintf(found->other, sizeof found->other, "%s", line + 6);
    }
    free(text);
    if (!found->is_there) snprintf(found->other, sizeof found->other, "the search didn't end well");
}

/* A schedule that is too long is none that is known to be wrong. */
bool um_is_right(const struct found *found) {
    bool is_well = found->is_there && !*found->other;
    for (int k = 0; k < found->count; k++) {
        enum outcome outcome = found->endings[k].outcome;
        is_well = is_well && (outcome == RIGHT || outcome == NOT_REACHED || outcome == LONG);
    }
    return is_well;
}

static bool has_ending(const struct found *found, const struct found_ending *ending) {
    bool has = false;
    for (int k = 0; k < found->count; k++) has = has || (found->endings[k].outcome == ending->outcome && !strcmp(found->endings[k].why, ending->why));
    return has;
}

/* Whether each ending of a place that isn't right is one of the other place. */
static bool are_endings_of(const struct found *found, const struct found *other) {
    bool are = true;
    for (int k = 0; k < found->count; k++) are = are && (found->endings[k].outcome == RIGHT || has_ending(other, &found->endings[k]));
    return are;
}

/* Whether two places come out alike. */
static bool are_alike(const struct found *one, const struct found *other) {
    return !*one->other && !*other->other && are_endings_of(one, other) && are_endings_of(other, one);
}

/* A place, as --stop has it. */
char *um_text_of_place(const struct place *place, char *text, size_t room) {
    *text = 0;
    if (is_place(place)) snprintf(text, room, place->inside ? "%d@%d.%d" : "%d@%d", place->rank, place->call, place->inside);
    return text;
}

static void tell_found_ending(const struct place *place, const struct found *found, const struct found_ending *ending, bool is_first) {
    char stop[32] = "", schedules[48], path[512];
    um_text_of_place(place, stop, sizeof stop);
    snprintf(schedules, sizeof schedules, found->is_whole ? "all %ld" : "first %ld", found->searched);
    printf("%-10s %-22s %-12s %ld: %s%s\n", is_first ? stop : "", is_first ? place->name : "", is_first ? schedules : "", ending->count,
           um_words_of_outcome(ending->outcome), ending->why);
    if (ending->outcome == RIGHT) return;
    um_path_of_schedule(place, ending->number, path, sizeof path);
    um_options.schedule = path;
    um_tell_command(stdout, place, um_options.sends_wait);
    um_options.schedule = 0;
}

/* The lines of a place: each ending, with the command that plays a schedule of it. */
static void tell_place(const struct place *place, const struct found *found) {
    bool is_first = true;
    const char *before = found->is_there ? "not the same again: rank " : "";
    if (*found->other) printf("%-10s %-22s %s%s\n", "", place->name, before, found->other);
    for (int k = 0; k < found->count; k++)
        if (found->endings[k].outcome != RIGHT || um_options.all) {
            tell_found_ending(place, found, &found->endings[k], is_first);
            is_first = false;
        }
}

/* Whether the lines of a place are to be told. */
static bool is_told(const struct found *found) {
    bool is_told = um_options.all || *found->other;
    for (int k = 0; k < found->count; k++) is_told = is_told || (found->endings[k].outcome != RIGHT && found->endings[k].outcome != NOT_REACHED);
    return is_told;
}

/* The lines of each place, those that come out alike together below the first one of them. */
static void tell_places_found(const struct place *places, const struct found *found, int count) {
    for (int k = 0; k < count; k++) {
        char text[32];
        bool is_first = is_told(&found[k]);
        for (int other = 0; other < k && is_first && !um_options.all; other++) is_first = !are_alike(&found[other], &found[k]);
        if (!is_first) continue;
        tell_place(&places[k], &found[k]);
        bool is_begun = false;
        for (int other = k + 1; other < count && !um_options.all; other++)
            if (is_told(&found[other]) && are_alike(&found[k], &found[other])) {
                printf("%s %s", is_begun ? "," : "           so too at", um_text_of_place(&places[other], text, sizeof text));
                is_begun = true;
            }
        if (is_begun) printf("\n");
    }
}

/* Each note once. */
static void tell_found_notes(const struct found *found, int count) {
    for (int k = 0; k < count; k++) {
        bool is_new = *found[k].note;
        for (int other = 0; other < k && is_new; other++) is_new = strcmp(found[other].note, found[k].note) != 0;
        if (is_new) printf("%s\n", found[k].note);
    }
}

/* What all searches come to. */
struct sums {
    int tried, right, whole;
    long schedules, unseen, otherwise;
};

static struct sums sums_of(const struct found *found, int count) {
    struct sums sums = {0};
    for (int k = 0; k < count; k++) {
        if (!found[k].is_there && !*found[k].other) continue;
        sums.tried++;
        sums.right += um_is_right(&found[k]);
        sums.whole += found[k].is_whole;
        sums.schedules += found[k].played;
        sums.unseen += found[k].unseen;
        sums.otherwise += found[k].otherwise;
    }
    return sums;
}

static void tell_table(const struct place *places, const struct found *found, int count, const struct sums *sums) {
    printf("%-10s %-22s %-12s %s\n", "stop", "call", "schedules", "what came out");
    tell_places_found(places, found, count);
    printf("%d of %d places right in each schedule; all schedules at %d of them, %ld in all\n", sums->right, sums->tried, sums->whole,
           sums->schedules);
    if (sums->tried < count) printf("%d places weren't tried\n", count - sums->tried);
    tell_found_notes(found, count);
    if (sums->unseen) printf("%ld schedules by chance weren't among those that were searched\n", sums->unseen);
    if (sums->otherwise) printf("%ld schedules by chance weren't the same with two events exchanged that are to commute\n", sums->otherwise);
}

/* 0: all was searched, and all is right. 1: not so. STATUS_LIMIT: what was searched is right, but that isn't all. */
int um_tell_all_found(const struct place *places, const struct found *found, int count) {
    struct sums sums = sums_of(found, count);
    if (!um_options.json) tell_table(places, found, count, &sums);
    if (sums.right < sums.tried || sums.unseen || sums.otherwise) return 1;
    return sums.whole < count ? STATUS_LIMIT : 0;
}
