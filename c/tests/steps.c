/* A world whose ranks are called one after the other, each push and each take by itself: what goes out, what stands first, what is taken of whom,
   and what a test would answer. */
#include "ulfm.h"
#include <stdio.h>
#include <string.h>

enum { RANKS = 3, PLACES = 2 };

static ulfm_slot slots[RANKS];
static int faults;

static void want(uint64_t is, uint64_t wanted, const char *what, int line) {
    if (is == wanted) return;
    printf("steps.c:%d: %s: %llu, and not %llu\n", line, what, (unsigned long long)is, (unsigned long long)wanted);
    faults++;
}

#define WANT(what, wanted) want(what, wanted, #what, __LINE__)

static uint32_t pushed(int rank) {
    uint32_t moved = 7;
    WANT(ulfm_push(&slots[rank], &moved), ULFM_OK);
    return moved;
}

static uint32_t taken(int rank, uint32_t source) {
    uint32_t took = 7;
    WANT(ulfm_take(&slots[rank], source, &took), ULFM_OK);
    return took;
}

static ulfm_next_item first(int rank, uint32_t source) {
    ulfm_next_item item;
    memset(&item, 7, sizeof item);
    WANT(ulfm_next(&slots[rank], source, &item), ULFM_OK);
    return item;
}

static uint32_t would(int rank, uint64_t request) {
    uint32_t code = 99;
    WANT(ulfm_would(&slots[rank], request, &code), ULFM_OK);
    return code;
}

static void send(int rank, uint32_t dest, uint32_t tag, size_t length) {
    static const uint8_t body[8];
    WANT(ulfm_isend(&slots[rank], 0, dest, tag, body, length), ULFM_OK);
}

static uint64_t receive(int rank, uint32_t source, uint32_t tag) {
    uint64_t request = 0;
    WANT(ulfm_irecv(&slots[rank], 0, source, tag, 8, &request), ULFM_OK);
    return request;
}

/* The tag of what a test gets, or 1000 and its code. */
static uint32_t tested(int rank, uint64_t request) {
    ulfm_status status;
    uint8_t body[8];
    uint32_t code = ulfm_test(&slots[rank], request, &status, body, sizeof body);
    return code ? 1000 + code : status.error ? 2000 + status.error : status.tag;
}

/* Messages are taken of whom the caller names, in the order of each sender. The third one waits for a place of the ring. */
static void messages(void) {
    uint64_t any = receive(2, ULFM_ANY, ULFM_ANY);
    for (uint32_t tag = 5; tag < 8; tag++) send(0, 2, tag, tag - 5);
    send(1, 2, 9, 4);
    WANT(first(2, 0).kind, ULFM_NOTHING);
    WANT(taken(2, 0), 0);
    WANT(pushed(0), 1);
    WANT(pushed(0), 0);
    WANT(first(2, 1).kind, ULFM_NOTHING);
    WANT(pushed(1), 1);
    WANT(first(2, 0).tag, 5);
    WANT(first(2, 1).tag, 9);
    WANT(first(2, 1).length, 4);
    WANT(would(2, any), ULFM_NOT_YET);
    WANT(taken(2, 1), 1);
    WANT(taken(2, 1), 0);
    WANT(would(2, any), ULFM_OK);
    WANT(would(2, any), ULFM_OK);
    WANT(tested(2, any), 9);
    WANT(would(2, any), ULFM_NO_REQUEST);
    WANT(pushed(0), 0);
    WANT(taken(2, 0), 1);
    WANT(first(2, 0).tag, 6);
    WANT(first(2, 0).length, 1);
    WANT(pushed(0), 1);
    WANT(taken(2, 0) + taken(2, 0) + taken(2, 0), 2);
    for (uint32_t tag = 5; tag < 8; tag++) WANT(tested(2, receive(2, 0, ULFM_ANY)), tag);
}

/* A take leaves the turn: the next turn begins at rank 0, of which none was taken by a turn. */
static void turns(void) {
    uint32_t moved = 0;
    send(0, 2, 1, 0);
    send(0, 2, 2, 0);
    send(1, 2, 3, 0);
    WANT(pushed(0) + pushed(1), 2);
    WANT(taken(2, 0), 1);
    WANT(ulfm_turn(&slots[2], &moved), ULFM_OK);
    WANT(first(2, 0).kind, ULFM_NOTHING);
    WANT(first(2, 1).tag, 3);
    WANT(taken(2, 1), 1);
    for (uint32_t tag = 1; tag < 4; tag++) WANT(tested(2, receive(2, ULFM_ANY, tag)), tag);
    send(2, 2, 4, 8);
    WANT(first(2, 2).kind, ULFM_NOTHING);
    WANT(pushed(2), 1);
    WANT(first(2, 2).length, 8);
    WANT(taken(2, 2), 1);
    WANT(tested(2, receive(2, 2, 4)), 4);
}

/* Entries, a revocation and a stop, each told by its kind. */
static void notices(void) {
    ulfm_next_item item;
    uint64_t any = receive(2, ULFM_ANY, 1), named = receive(2, 1, 1);
    WANT(ulfm_enter_agree(&slots[1], 0, 5), ULFM_OK);
    WANT(ulfm_enter_shrink(&slots[0], 0), ULFM_OK);
    WANT(pushed(0) + pushed(1), 2);
    item = first(2, 1);
    WANT(item.kind, ULFM_AGREE_ENTRY);
    WANT(item.comm + item.tag + item.length + item.round, 0);
    item = first(2, 0);
    WANT(item.kind, ULFM_SHRINK_ENTRY);
    WANT(taken(2, 0) + taken(2, 1), 2);
    WANT(ulfm_stop(&slots[1]), ULFM_OK);
    WANT(pushed(1), 1);
    WANT(would(1, 0), ULFM_STOPPED);
    WANT(taken(1, 0), 0);
    WANT(first(2, 1).kind, ULFM_STOP_NOTICE);
    WANT(would(2, named), ULFM_NOT_YET);
    WANT(taken(2, 1), 1);
    WANT(would(2, named), ULFM_OK);
    WANT(would(2, any), ULFM_PENDING);
    WANT(tested(2, named), 2000 + ULFM_PROC_FAILED);
    WANT(ulfm_revoke(&slots[0], 0), ULFM_OK);
    WANT(pushed(0), 1);
    item = first(2, 0);
    WANT(item.kind, ULFM_REVOCATION);
    WANT(item.comm + item.tag + item.length + item.round, 0);
    WANT(taken(2, 0), 1);
    WANT(would(2, any), ULFM_OK);
    WANT(tested(2, any), 2000 + ULFM_REVOKED);
}

/* Events of two ranks commute, unless both poll one shrink or agreement; of one rank, or of no kind or communicator that there is, they may not. */
static void outlines(void) {
    ulfm_outline call = {.rank = 0}, take = {.kind = ULFM_DOES_TAKE, .rank = 1, .source = 0};
    ulfm_outline shrink = {.comm = 5, .round = 2, .kind = ULFM_DOES_POLL_SHRINK, .rank = 2},
                 agree = {.comm = 5, .round = 2, .kind = ULFM_DOES_POLL_AGREE, .rank = 3};
    ulfm_outline next = {.comm = 5, .round = 3, .kind = ULFM_DOES_POLL_SHRINK, .rank = 1},
                 other = {.comm = 6, .round = 2, .kind = ULFM_DOES_POLL_SHRINK, .rank = 1};
    WANT(ulfm_may_matter(&call, &take), 0);
    WANT(ulfm_may_matter(&take, &call), 0);
    WANT(ulfm_may_matter(&take, &shrink), 0);
    WANT(ulfm_may_matter(&shrink, &agree), 0);
    WANT(ulfm_may_matter(&shrink, &next), 0);
    WANT(ulfm_may_matter(&shrink, &other), 0);
    call.rank = 1;
    WANT(ulfm_may_matter(&call, &take), 1);
    next.round = 2;
    WANT(ulfm_may_matter(&shrink, &next), 1);
    agree.rank = 2;
    WANT(ulfm_may_matter(&shrink, &agree), 1);
    call.kind = 4;
    WANT(ulfm_may_matter(&call, &shrink), 1);
    other.comm = UINT64_MAX;
    WANT(ulfm_may_matter(&agree, &other), 1);
    WANT(ulfm_may_matter(&agree, 0), 1);
    WANT(ulfm_may_matter(0, &agree), 1);
}

/* Where there is no such rank, or none in the slot, nothing is written. */
static void refusals(void) {
    uint32_t out = 7;
    ulfm_next_item item = {.kind = 7};
    WANT(ulfm_take(&slots[2], RANKS, &out), ULFM_BAD_RANK);
    WANT(ulfm_take(&slots[1], 300, &out), ULFM_BAD_RANK);
    WANT(ulfm_next(&slots[2], RANKS, &item), ULFM_BAD_RANK);
    for (int rank = 0; rank < RANKS; rank++) WANT(ulfm_end(&slots[rank]), ULFM_OK);
    WANT(ulfm_would(&slots[0], 0, &out), ULFM_ENDED);
    WANT(out, 7);
    WANT(item.kind, 7);
}

int main(void) {
    WANT(ulfm_world(slots, RANKS, PLACES), ULFM_OK);
    messages();
    turns();
    notices();
    outlines();
    refusals();
    printf("faults: %d\n", faults);
    return faults ? 1 : 0;
}
