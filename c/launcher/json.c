/* What the search at a place found, as a line of JSON: for those who share the places among machines. */
#include "launcher/every.h"
#include <stdio.h>
#include <string.h>

static void tell_text(const char *text) {
    putchar('"');
    for (; *text; text++) {
        unsigned char sign = (unsigned char)*text;
        if (sign < ' ') printf("\\u%04x", sign);
        else printf(sign == '"' || sign == '\\' ? "\\%c" : "%c", sign);
    }
    putchar('"');
}

static void tell_member(const char *name, const char *text) {
    printf(", \"%s\": ", name);
    tell_text(text);
}

/* The stops of the place, its own one first. */
static void tell_stops(const struct place *place) {
    char text[80];
    bool is_first = true;
    printf("{\"stops\": [");
    if (is_place(place)) {
        um_text_of_place(place, text, sizeof text);
        tell_text(text);
        is_first = false;
    }
    for (int k = 0; k < um_options.stops; k++, is_first = false) {
        um_text_of_stop(&um_options.stop[k], text, sizeof text);
        printf(is_first ? "" : ", ");
        tell_text(text);
    }
    putchar(']');
}

static void tell_ending(const struct place *place, const struct found_ending *ending) {
    char path[512];
    printf("{\"count\": %ld", ending->count);
    tell_member("outcome", um_words_of_outcome(ending->outcome));
    if (*ending->why) tell_member("why", ending->why + strspn(ending->why, ": "));
    if (ending->outcome != RIGHT) {
        um_path_of_schedule(place, ending->number, path, sizeof path);
        tell_member("schedule", path);
    }
    putchar('}');
}

/* The line. `searched` are the schedules of the search, `played` those by chance too. */
void um_tell_json(const struct place *place, const struct found *found) {
    tell_stops(place);
    if (is_place(place)) tell_member("call", place->name);
    printf(", \"right\": %s, \"whole\": %s", um_is_right(found) ? "true" : "false", found->is_whole ? "true" : "false");
    printf(", \"searched\": %ld, \"played\": %ld, \"unseen\": %ld, ", found->searched, found->played, found->unseen);
    for (int k = 0; um_options.checks && k < SWAPS; k++) printf(k ? ", %ld" : "\"exchanged\": [%ld", found->swapped[k]);
    if (um_options.checks) printf("], \"otherwise\": %ld, ", found->otherwise);
    printf("\"endings\": [");
    for (int k = 0; k < found->count; k++) {
        printf(k ? ", " : "");
        tell_ending(place, &found->endings[k]);
    }
    putchar(']');
    if (*found->other) tell_member("not_the_same", found->other);
    if (*found->note) tell_member("note", found->note);
    printf("}\n");
    fflush(stdout);
}
