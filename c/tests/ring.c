/* Four ranks, each a thread: messages round a ring, rank 2 stops, the others see it, revoke, shrink and go on. */
#include "ulfm.h"
#include <pthread.h>
#include <sched.h>
#include <stdio.h>
#include <stdlib.h>
#include <string.h>

enum { RANKS = 4, ROUNDS = 20, STOPS_AT = 7, STOPPER = 2, PROC_FAILED = 5, REVOKED = 6 };
static ulfm_slot slots[RANKS];
static int failures[RANKS], sums[RANKS], sizes[RANKS];
static __thread int me;

static void go(void) { uint32_t moved = 0; ulfm_turn(&slots[me], &moved); if (!moved) sched_yield(); }

static int wait_for(uint64_t id, ulfm_status *st, void *buf, size_t len) {
    for (;;) {
        uint32_t r = ulfm_test(&slots[me], id, st, buf, len);
        if (r == 0) return st->error;
        if (r != ULFM_NOT_YET) return 100 + r;
        go();
    }
}

// One exchange with the neighbours of a communicator. 0 or why not.
static int exchange(int comm, int pos, int size, int round, int *got) {
    int32_t out = pos * 1000 + round, in = -1;
    uint64_t id;
    ulfm_status st;
    int r = ulfm_irecv(&slots[me], comm, (pos + size - 1) % size, round, 4, &id);
    if (r) return r;
    r = ulfm_isend(&slots[me], comm, (pos + 1) % size, round, (uint8_t *)&out, 4);
    if (r && r != PROC_FAILED) return r;
    int w = wait_for(id, &st, &in, 4);
    if (w) return w;
    if (r) return r;
    if (in != ((pos + size - 1) % size) * 1000 + round) { fprintf(stderr, "rank %d round %d got %d\n", me, round, in); exit(3); }
    *got += in;
    return 0;
}

static void *rank(void *arg) {
    me = (int)(intptr_t)arg;
    int comm = 0, pos = me, size = RANKS, r = 0;
    for (int round = 0; round < ROUNDS; round++) {
        if (me == STOPPER && round == STOPS_AT) {
            ulfm_stop(&slots[me]);
            for (int i = 0; i < 200; i++) go();
            return 0;
        }
        r = exchange(comm, pos, size, round, &sums[me]);
        if (r) break;
    }
    failures[me] = r;
    if (r != PROC_FAILED && r != REVOKED) { fprintf(stderr, "rank %d: %d\n", me, r); exit(4); }
    if (ulfm_revoke(&slots[me], comm)) exit(5);
    if (ulfm_enter_shrink(&slots[me], comm)) exit(6);
    uint64_t made = 0;
    for (;;) {
        uint32_t d = ulfm_poll_shrink(&slots[me], comm, &made);
        if (d == 0) break;
        if (d != ULFM_NOT_YET) { fprintf(stderr, "decide %u\n", d); exit(7); }
        go();
    }
    ulfm_group g;
    if (ulfm_group_of(&slots[me], made, &g)) exit(8);
    for (pos = 0; pos < (int)g.size && g.members[pos] != me; pos++) {}
    sizes[me] = g.size;
    for (int round = 100; round < 100 + ROUNDS; round++) {
        r = exchange(made, pos, g.size, round, &sums[me]);
        if (r) { fprintf(stderr, "rank %d after the shrink: %d\n", me, r); exit(9); }
    }
    for (int i = 0; i < 200; i++) go();
    return 0;
}

int main(void) {
    if (ulfm_world(slots, RANKS, 8)) return 1;
    pthread_t t[RANKS];
    for (int i = 0; i < RANKS; i++) if (pthread_create(&t[i], 0, rank, (void *)(intptr_t)i)) return 2;
    for (int i = 0; i < RANKS; i++) pthread_join(t[i], 0);
    for (int i = 0; i < RANKS; i++) ulfm_end(&slots[i]);
    for (int i = 0; i < RANKS; i++) if (i != STOPPER && sizes[i] != RANKS - 1) return 10;
    printf("errors");
    for (int i = 0; i < RANKS; i++) printf(" %d", failures[i]);
    printf(" size %d\n", sizes[0]);
    return 0;
}
