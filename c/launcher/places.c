/* The places where a rank may stop, read off the report of a run without a stop. */
#include "launcher/every.h"
#include "progress/progress.h"
#include <stdlib.h>
#include <string.h>

/* Adds a place; false where there is no memory. */
static bool add_place(struct place **places, int *count, struct place place) {
    if (!um_grow(places, *count, sizeof **places)) return false;
    (*places)[(*count)++] = place;
    return true;
}

int um_compare_places(const void *a, const void *b) {
    const struct place *one = a, *other = b;
    if (one->rank != other->rank) return one->rank < other->rank ? -1 : 1;
    if (one->call != other->call) return one->call < other->call ? -1 : 1;
    return one->inside < other->inside ? -1 : one->inside > other->inside;
}

/* The places, by ranks and calls. */
struct place *um_read_places(const struct trial *trial, int *count) {
    char *text = um_read_all(trial->files[2]), *rest, names[MAX_RANKS][40] = {{0}};
    struct place *places = 0;
    *count = 0;
    for (char *line = text ? strtok_r(text, "\n", &rest) : 0; line; line = strtok_r(0, "\n", &rest)) {
        struct place place = {0};
        bool is_call = sscanf(line, "call %d %d %39s", &place.rank, &place.call, place.name) == 3;
        bool is_inside = !is_call && sscanf(line, "inside %d %d %d", &place.rank, &place.call, &place.inside) == 3;
        if (!is_call && !is_inside) continue;
        if (is_call) strcpy(names[place.rank], place.name);
        else strcpy(place.name, names[place.rank]);
        if (!add_place(&places, count, place)) break;
    }
    free(text);
    qsort(places, (size_t)*count, sizeof *places, um_compare_places);
    return places;
}

/* Whether some are asked for. */
bool um_are_places_chosen(void) { return um_options.first_call || um_options.last_call || um_options.sample; }

/* Keeps those that are asked for, as far apart as can be where that is a number. How many. */
int um_choose_places(struct place *places, int count) {
    int kept = 0, sample = um_options.sample;
    for (int k = 0; k < count; k++)
        if (places[k].call >= um_options.first_call && (!um_options.last_call || places[k].call <= um_options.last_call)) places[kept++] = places[k];
    if (!sample || sample >= kept) return kept;
    for (int k = 0; k < sample; k++) places[k] = places[(long)k * kept / sample];
    return sample;
}
