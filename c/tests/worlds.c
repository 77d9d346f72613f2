/* Worlds of 1 to 8 ranks are made and ended 10,000 times, each with a message round the ring: the memory of the process stays flat. */
#include "ulfm.h"
#include <stdio.h>
#include <stdlib.h>
#include <sys/resource.h>

enum { WORLDS = 10000, SETTLED = 1000, MOST_RANKS = 8 };
static ulfm_slot slots[MOST_RANKS];

/* The greatest resident size so far, in kilobytes. */
static long peak(void) {
    struct rusage usage;
    getrusage(RUSAGE_SELF, &usage);
    return usage.ru_maxrss;
}

static void need(uint32_t code, const char *call) {
    if (!code) return;
    printf("%s: %u\n", call, code);
    exit(1);
}

/* Rank r sends its number to the next rank, all go on until it has come, and it is the right one. */
static void pass_round(uint32_t ranks) {
    uint64_t requests[MOST_RANKS];
    ulfm_status status;
    for (uint32_t r = 0; r < ranks; r++) {
        uint8_t body = (uint8_t)r;
        need(ulfm_irecv(&slots[r], 0, (r + ranks - 1) % ranks, 1, 1, &requests[r]), "ulfm_irecv");
        need(ulfm_isend(&slots[r], 0, (r + 1) % ranks, 1, &body, 1), "ulfm_isend");
    }
    for (uint32_t left = ranks, r = 0; left; r = (r + 1) % ranks) {
        uint32_t moved;
        uint8_t body;
        need(ulfm_turn(&slots[r], &moved), "ulfm_turn");
        if (requests[r] == UINT64_MAX || ulfm_test(&slots[r], requests[r], &status, &body, 1) == ULFM_NOT_YET) continue;
        if (status.error || body != (r + ranks - 1) % ranks) need(99, "what came");
        requests[r] = UINT64_MAX;
        left--;
    }
}

int main(void) {
    long settled = 0;
    for (int k = 0; k < WORLDS; k++) {
        uint32_t ranks = 1 + (uint32_t)k % MOST_RANKS;
        need(ulfm_world(slots, ranks, 4), "ulfm_world");
        pass_round(ranks);
        for (uint32_t r = 0; r < ranks; r++) need(ulfm_end(&slots[r]), "ulfm_end");
        if (k == SETTLED) settled = peak();
    }
    long grown = peak() - settled;
    printf("%d worlds, grown by %s\n", WORLDS, grown < 1024 ? "less than a megabyte" : "more");
    return grown >= 1024;
}
