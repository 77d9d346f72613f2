/* Which event pushed what is in the ring from each rank to each. */
#include "progress/progress.h"
#include "search/search.h"

/* The events that pushed what is in a ring. */
struct ring {
    int16_t *at;
    int first, count;
    int taken_at_stop, count_at_stop; /* where its sender stopped */
};
static struct ring rings[MAX_RANKS][MAX_RANKS];

void um_note_push(int from, int to) {
    struct ring *ring = &rings[from][to];
    if (um_grow(&ring->at, ring->count, sizeof *ring->at)) ring->at[ring->count++] = (int16_t)um_step;
}

int um_count_of_pushed(int from, int to) { return rings[from][to].count; }

/* How much a rank had sent to another one when it stopped, and how much of it was taken. */
int um_count_at_stop(int from, int to, int *taken) {
    *taken = rings[from][to].taken_at_stop;
    return rings[from][to].count_at_stop;
}

/* The events that sent what a rank never took from another one: how many, and from which place on. */
const int16_t *um_left_in_ring(int from, int to, int *count) {
    const struct ring *ring = &rings[from][to];
    *count = ring->count - ring->first;
    return ring->at + ring->first;
}

/* To all, also those that are known to have failed: these take nothing, but they might have taken it before they stopped, where word of that comes later. */
void um_push_to_all(int from, uint32_t members) {
    for (int k = 0; k < um_options.ranks; k++)
        if (k != from && members >> k & 1) um_note_push(from, k);
}

/* An item is taken: the event that pushed it. */
int16_t um_pull(int from, int to) {
    struct ring *ring = &rings[from][to];
    return ring->first < ring->count ? ring->at[ring->first++] : NO_STEP;
}

/* The event that sent the first item that is lost; NO_STEP: none is. */
int um_first_lost(int from, int to) {
    const struct ring *ring = &rings[from][to];
    return ring->first < ring->count - 1 ? ring->at[ring->first] : NO_STEP;
}

/* All is lost but word of the failure: the event that pushed that. */
int16_t um_lose(int from, int to) {
    struct ring *ring = &rings[from][to];
    if (ring->count) ring->first = ring->count - 1;
    return ring->count ? ring->at[ring->first] : NO_STEP;
}

void um_end_stop(void) {
    int rank = um_footprints[um_step].rank;
    for (int to = 0; to < um_options.ranks; to++) {
        struct ring *ring = &rings[rank][to];
        ring->taken_at_stop = ring->first;
        ring->count_at_stop = ring->count;
    }
    um_push_to_all(rank, UINT32_MAX);
}
