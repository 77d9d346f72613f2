/* What calls of ulfm.h answer that can't be followed: each code that a rank alone can meet, in the order in which ulfm.h lists them. */
#include "ulfm.h"
#include <stdio.h>

static ulfm_slot slots[2];
static uint32_t out;
static uint64_t made;
static uint64_t id;
static ulfm_status status;
static ulfm_group group;
static ulfm_next_item item;
static uint8_t body[1025];
static int faults;

/* No communicator has this number or a greater one. */
#define PAST ((uint64_t)1 << 45)

static void want(uint32_t code, uint32_t wanted, const char *call) {
    if (code == wanted) return;
    printf("%s: %u, and not %u\n", call, code, wanted);
    faults++;
}

#define WANT(call, wanted) want(call, wanted, #call)

/* Each call that a slot alone lets answer: 16 of a null one and of an ended one, 10 of a rank that stopped where `stopped` says so. */
static void all_calls(ulfm_slot *slot, uint32_t wanted) {
    WANT(ulfm_dup(slot, 0, &made), wanted);
    WANT(ulfm_dup_again(slot, 0, &made), wanted);
    WANT(ulfm_isend(slot, 0, 0, 0, body, 1), wanted);
    WANT(ulfm_irecv(slot, 0, 0, 0, 1, &id), wanted);
    WANT(ulfm_test(slot, 0, &status, body, 1), wanted);
    WANT(ulfm_cancel(slot, 0, &status, body, 1), wanted);
    WANT(ulfm_iprobe(slot, 0, 0, 0, &status), wanted);
    WANT(ulfm_improbe(slot, 0, 0, 0, &id, &status), wanted);
    WANT(ulfm_mrecv(slot, 0, &status, body, 1), wanted);
    WANT(ulfm_revoke(slot, 0), wanted);
    WANT(ulfm_is_revoked(slot, 0, &out), wanted);
    WANT(ulfm_get_failed(slot, 0, &group), wanted);
    WANT(ulfm_ack_failed(slot, 0, 1, &out), wanted);
    WANT(ulfm_enter_shrink(slot, 0), wanted);
    WANT(ulfm_enter_shrink_again(slot, 0), wanted);
    WANT(ulfm_poll_shrink(slot, 0, &made), wanted);
    WANT(ulfm_enter_agree(slot, 0, 1), wanted);
    WANT(ulfm_poll_agree(slot, 0, &out, &group), wanted);
}

/* Those that a stopped rank answers too. */
static void calls_of_all(ulfm_slot *slot, uint32_t wanted) {
    WANT(ulfm_turn(slot, &out), wanted);
    WANT(ulfm_flushed(slot, &out), wanted);
    WANT(ulfm_push(slot, &out), wanted);
    WANT(ulfm_take(slot, 0, &out), wanted);
    WANT(ulfm_next(slot, 0, &item), wanted);
    WANT(ulfm_would(slot, 0, &out), wanted);
    WANT(ulfm_me(slot, &out), wanted);
    WANT(ulfm_group_of(slot, 0, &group), wanted);
    WANT(ulfm_position(slot, 0, &out), wanted);
    WANT(ulfm_stop(slot), wanted);
}

static void null_outs(ulfm_slot *slot) {
    WANT(ulfm_turn(slot, 0), ULFM_ENDED);
    WANT(ulfm_flushed(slot, 0), ULFM_ENDED);
    WANT(ulfm_push(slot, 0), ULFM_ENDED);
    WANT(ulfm_take(slot, 0, 0), ULFM_ENDED);
    WANT(ulfm_next(slot, 0, 0), ULFM_ENDED);
    WANT(ulfm_would(slot, 0, 0), ULFM_ENDED);
    WANT(ulfm_me(slot, 0), ULFM_ENDED);
    WANT(ulfm_group_of(slot, 0, 0), ULFM_ENDED);
    WANT(ulfm_position(slot, 0, 0), ULFM_ENDED);
    WANT(ulfm_dup(slot, 0, 0), ULFM_ENDED);
    WANT(ulfm_dup_again(slot, 0, 0), ULFM_ENDED);
    WANT(ulfm_isend(slot, 0, 0, 0, 0, 1), ULFM_ENDED);
    WANT(ulfm_irecv(slot, 0, 0, 0, 1, 0), ULFM_ENDED);
    WANT(ulfm_test(slot, 0, 0, body, 1), ULFM_ENDED);
    WANT(ulfm_test(slot, 0, &status, 0, 1), ULFM_ENDED);
    WANT(ulfm_cancel(slot, 0, 0, body, 1), ULFM_ENDED);
    WANT(ulfm_iprobe(slot, 0, 0, 0, 0), ULFM_ENDED);
    WANT(ulfm_improbe(slot, 0, 0, 0, 0, &status), ULFM_ENDED);
    WANT(ulfm_improbe(slot, 0, 0, 0, &id, 0), ULFM_ENDED);
    WANT(ulfm_mrecv(slot, 0, 0, body, 1), ULFM_ENDED);
    WANT(ulfm_is_revoked(slot, 0, 0), ULFM_ENDED);
    WANT(ulfm_get_failed(slot, 0, 0), ULFM_ENDED);
    WANT(ulfm_ack_failed(slot, 0, 1, 0), ULFM_ENDED);
    WANT(ulfm_poll_shrink(slot, 0, 0), ULFM_ENDED);
    WANT(ulfm_poll_agree(slot, 0, 0, &group), ULFM_ENDED);
    WANT(ulfm_poll_agree(slot, 0, &out, 0), ULFM_ENDED);
}

/* Sends that are refused: on no communicator, on one that wasn't made, and by their tags. */
static void wrong_sends(ulfm_slot *slot, uint32_t code_of_unmade) {
    WANT(ulfm_isend(slot, PAST, 0, 0, body, 1), ULFM_NO_COMM);
    WANT(ulfm_isend(slot, PAST, 0, 32768, body, 1), ULFM_NO_COMM);
    WANT(ulfm_isend(slot, PAST - 1, 0, 0, body, 1), code_of_unmade);
    WANT(ulfm_isend(slot, 5, 0, 0, body, 1), code_of_unmade);
    WANT(ulfm_isend(slot, 0, 0, 32768, body, 1), ULFM_BAD_TAG);
}

static void refusals(ulfm_slot *slot) {
    WANT(ulfm_take(slot, 2, &out), ULFM_BAD_RANK);
    WANT(ulfm_next(slot, 300, &item), ULFM_BAD_RANK);
    wrong_sends(slot, ULFM_NO_COMM);
    WANT(ulfm_isend(slot, 0, 2, 0, body, 1), ULFM_BAD_RANK);
    WANT(ulfm_isend(slot, 0, 300, 0, body, 1), ULFM_BAD_RANK);
    WANT(ulfm_isend(slot, 0, 0, 0, body, 1025), ULFM_TOO_LONG);
    WANT(ulfm_irecv(slot, 0, 2, 0, 1, &id), ULFM_BAD_RANK);
    WANT(ulfm_irecv(slot, 0, 0, 40000, 1, &id), ULFM_BAD_TAG);
    WANT(ulfm_irecv(slot, UINT32_MAX, 0, 0, 1, &id), ULFM_NO_COMM);
    WANT(ulfm_test(slot, UINT64_MAX, &status, body, 1), ULFM_NO_REQUEST);
    WANT(ulfm_cancel(slot, UINT64_MAX, &status, body, 1), ULFM_NO_REQUEST);
    WANT(ulfm_mrecv(slot, UINT64_MAX, &status, body, 1), ULFM_NO_REQUEST);
    WANT(ulfm_iprobe(slot, 0, 0, 0, &status), ULFM_NOT_YET);
    WANT(ulfm_improbe(slot, 0, 0, 0, &id, &status), ULFM_NOT_YET);
    WANT(ulfm_poll_shrink(slot, 0, &made), ULFM_NOT_ENTERED);
    WANT(ulfm_poll_agree(slot, 0, &out, &group), ULFM_NOT_ENTERED);
    WANT(ulfm_enter_agree(slot, 0, 1), 0);
    WANT(ulfm_enter_agree(slot, 0, 1), ULFM_ALREADY_MADE);
    WANT(ulfm_enter_shrink(slot, 0), 0);
    WANT(ulfm_enter_shrink(slot, 0), ULFM_ALREADY_MADE);
    WANT(ulfm_enter_shrink_again(slot, 0), ULFM_ALREADY_MADE);
    for (uint64_t comm = 0; comm < 31; comm = 2 * comm + 1) WANT(ulfm_dup(slot, comm, &made), 0);
    WANT(ulfm_dup(slot, 31, &made), ULFM_NO_CONTEXT);
    WANT(ulfm_enter_shrink(slot, 31), ULFM_NO_CONTEXT);
    WANT(ulfm_dup(slot, 0, &made), ULFM_ALREADY_MADE);
    WANT(ulfm_revoke(slot, 1), 0);
    WANT(ulfm_isend(slot, 1, 0, 0, body, 1), ULFM_REVOKED);
    WANT(ulfm_dup_again(slot, 1, &made), ULFM_REVOKED);
    WANT(ulfm_dup_again(slot, 5, &made), ULFM_NO_COMM);
    WANT(ulfm_enter_shrink_again(slot, PAST - 1), ULFM_NO_COMM);
}

/* The number of a communicator that was made. */
static void want_made(uint64_t wanted, const char *by) {
    if (made == wanted) return;
    printf("%s made %llu, and not %llu\n", by, (unsigned long long)made, (unsigned long long)wanted);
    faults++;
}

/* Shrinks of a communicator of one rank, which are decided as soon as they are entered, and what each makes. */
static void shrink(ulfm_slot *slot, uint64_t comm, uint64_t wanted) {
    WANT(ulfm_enter_shrink_again(slot, comm), 0);
    WANT(ulfm_poll_shrink(slot, comm, &made), 0);
    want_made(wanted, "a shrink");
}

/* A rank alone makes further communicators: none has the number of another one. Once they are made they are communicators as others are. */
static void further(ulfm_slot *slot) {
    static const uint64_t of_the_world[] = {1, 67, 91};
    WANT(ulfm_world(slot, 1, 4), 0);
    for (int k = 0; k < 3; k++) {
        WANT(ulfm_dup_again(slot, 0, &made), 0);
        want_made(of_the_world[k], "a duplicate of the world");
    }
    WANT(ulfm_dup(slot, 0, &made), ULFM_ALREADY_MADE);
    WANT(ulfm_dup(slot, 67, &made), 0);
    want_made(198, "the first duplicate of one past 62");
    WANT(ulfm_dup(slot, 67, &made), 0);
    want_made(2211, "its second one");
    shrink(slot, 0, 2);
    WANT(ulfm_enter_shrink(slot, 0), ULFM_ALREADY_MADE);
    shrink(slot, 0, 75);
    WANT(ulfm_enter_shrink(slot, 75), 0);
    WANT(ulfm_enter_shrink(slot, 75), ULFM_ALREADY_MADE);
    WANT(ulfm_enter_shrink_again(slot, 75), ULFM_ALREADY_MADE);
    WANT(ulfm_dup_again(slot, 75, &made), 0);
    WANT(ulfm_position(slot, made, &out), 0);
    WANT(ulfm_isend(slot, made, 0, 9, body, 3), 0);
    WANT(ulfm_push(slot, &out), 0);
    WANT(ulfm_next(slot, 0, &item), 0);
    want(item.comm == made, 1, "the communicator of the first item is the one past 62");
    WANT(ulfm_irecv(slot, made, 0, 9, 3, &id), 0);
    WANT(ulfm_take(slot, 0, &out), 0);
    WANT(ulfm_test(slot, id, &status, body, 3), 0);
    want((uint32_t)status.length, 3, "the length of its message");
    WANT(ulfm_end(slot), 0);
}

/* Communicators in a row, each made of the one before, as far as there are numbers. */
static void rows(ulfm_slot *slot) {
    uint64_t comm = 0;
    WANT(ulfm_world(slot, 1, 4), 0);
    for (int k = 0; k < 43; k++) WANT(ulfm_dup_again(slot, comm, &comm), 0);
    WANT(ulfm_dup_again(slot, comm, &made), ULFM_NO_CONTEXT);
    WANT(ulfm_dup(slot, comm, &made), ULFM_NO_CONTEXT);
    comm = 0;
    for (int k = 0; k < 17; k++) {
        WANT(ulfm_enter_shrink_again(slot, comm), 0);
        WANT(ulfm_poll_shrink(slot, comm, &comm), 0);
    }
    WANT(ulfm_enter_shrink_again(slot, comm), ULFM_NO_CONTEXT);
    WANT(ulfm_enter_shrink(slot, comm), ULFM_NO_CONTEXT);
    WANT(ulfm_end(slot), 0);
}

/* A message of no bytes may have a null body, and what stands in an out parameter stays where a call is refused. */
static void edges(ulfm_slot *slot) {
    uint32_t moved;
    WANT(ulfm_isend(slot, 0, 0, 7, 0, 0), 0);
    WANT(ulfm_irecv(slot, 0, ULFM_ANY, ULFM_ANY, 0, &id), 0);
    for (int k = 0; k < 4; k++) ulfm_turn(slot, &moved);
    WANT(ulfm_test(slot, id, &status, 0, 0), 0);
    want(status.length + status.error + status.source, 0, "the status of an empty message");
    want(status.tag, 7, "its tag");
    WANT(ulfm_irecv(slot, 0, ULFM_ANY, ULFM_ANY, 0, &id), 0);
    WANT(ulfm_cancel(slot, id, &status, 0, 0), 0);
    want(status.error, 0, "the error of a receive that was withdrawn");
    want(status.cancelled, 1, "whether it was");
    out = 12345;
    WANT(ulfm_position(slot, 62, &out), ULFM_NO_COMM);
    want(out, 12345, "an out parameter of a refused call");
}

/* A rank that stopped, and calls that are refused for two causes: the one that ulfm.h lists first is answered. */
static void orders(ulfm_slot *slot) {
    WANT(ulfm_dup(slot, PAST, &made), ULFM_NO_COMM);
    WANT(ulfm_dup_again(slot, PAST, &made), ULFM_NO_COMM);
    WANT(ulfm_enter_shrink_again(slot, PAST), ULFM_NO_COMM);
    WANT(ulfm_dup(slot, 5, &made), ULFM_STOPPED);
    wrong_sends(slot, ULFM_STOPPED);
    WANT(ulfm_position(slot, 5, &out), ULFM_NO_COMM);
}

int main(void) {
    WANT(ulfm_world(0, 2, 4), ULFM_ENDED);
    WANT(ulfm_world(slots, 0, 4), ULFM_BAD_SIZE);
    WANT(ulfm_world(slots, 9, 4), ULFM_BAD_SIZE);
    WANT(ulfm_world(slots, 2, 0), ULFM_BAD_SIZE);
    WANT(ulfm_world(slots, 2, 65), ULFM_BAD_SIZE);
    all_calls(0, ULFM_ENDED);
    calls_of_all(0, ULFM_ENDED);
    all_calls(&slots[0], ULFM_ENDED);
    calls_of_all(&slots[0], ULFM_ENDED);
    WANT(ulfm_end(0), ULFM_ENDED);
    WANT(ulfm_end(&slots[0]), ULFM_ENDED);
    WANT(ulfm_world(slots, 2, 4), 0);
    WANT(ulfm_world(slots, 2, 4), 0);
    null_outs(&slots[0]);
    edges(&slots[0]);
    refusals(&slots[0]);
    WANT(ulfm_stop(&slots[0]), 0);
    all_calls(&slots[0], ULFM_STOPPED);
    orders(&slots[0]);
    calls_of_all(&slots[0], 0);
    WANT(ulfm_end(&slots[0]), 0);
    want(slots[0].at != 0 || slots[0].holds, 0, "an ended slot is all zeros");
    all_calls(&slots[0], ULFM_ENDED);
    WANT(ulfm_end(&slots[0]), ULFM_ENDED);
    WANT(ulfm_end(&slots[1]), 0);
    further(&slots[0]);
    rows(&slots[0]);
    printf("faults: %d\n", faults);
    return faults != 0;
}
