/* Message passing with recovery from failures: the calls of one rank, for C.

   A world is 1 to 8 ranks in one process. Each rank stands behind a slot and is used by one thread at a time, mostly each by a thread of its
   own. No call blocks: receives, shrinks and agreements are polled, and `ulfm_turn` moves what goes out and comes in.

       ulfm_slot slots[4] = {{0}};
       if (ulfm_world(slots, 4, 16)) ..
       each thread: ulfm_irecv(&slots[me], 0, ULFM_ANY, 7, sizeof buffer, &request);
                    while ((code = ulfm_test(&slots[me], request, &status, buffer, sizeof buffer)) == ULFM_NOT_YET) {
                        ulfm_turn(&slots[me], &moved);
                        if (!moved) ..wait a little..
                    }
       at the end:  ulfm_end(&slots[k]) for each k, by any thread, when no other one uses it. `ulfm_end` says how nothing is lost.

   Each call answers a code: 0, or one of the codes below. A refused call changes nothing, and writes to no out parameter. Where several
   refusals apply, the first one of those listed at the call is answered; 12 is the last.

   Shapes and units. `comm` names a communicator by its context, a number below 2^45: 0 is the world's, and `ulfm_dup` says what others have. `dest`
   and `source` are positions in the communicator's group, 0 to size - 1. `tag` is 0 to 32,767. Bodies are bytes, at most 1,024 of them. A pointer to
   a body may be null only with a length of 0. The pointers of a call lead to places that don't overlap. No call may be left half way, as by a
   signal's handler, a `longjmp` or a thread that is cancelled: its rank would be lost.

   What is proved, and what isn't, says docs/PROOFS.md and docs/LIMITS.md. */
#ifndef ULFM_H
#define ULFM_H

#include <stddef.h>
#include <stdint.h>

#ifdef __cplusplus
extern "C" {
#endif

/* A rank, or none. All zeros is none. Nobody copies it while it has a rank: it is handed on by its address. Between calls it may move: the old
   place is never used again. Calls write to it, so slots of different threads should stand on different cache lines. */
typedef struct {
    void *at;       /* null where it has none */
    uint32_t holds; /* 1 where it has a rank, else 0 */
} ulfm_slot;

/* What is told of a message (MPI 4.0, 3.2.5). */
typedef struct {
    uint32_t source;    /* the sender's position in the communicator */
    uint32_t tag;       /* 0 to 32,767 */
    uint64_t length;    /* bytes of the body, 0 to 1,024 */
    uint32_t error;     /* 0: a message came, or the receive was withdrawn. ULFM_PROC_FAILED, ULFM_REVOKED, ULFM_TRUNCATED: why none came */
    uint32_t cancelled; /* 1: the receive was withdrawn (`ulfm_cancel`), and no message came. Else 0. Without a message all other fields are 0 */
} ulfm_status;

/* Some ranks of the world, by their positions. */
typedef struct {
    uint32_t size;      /* 0 to 8 */
    uint8_t members[8]; /* their world ranks, 0 to 7; 255 from `size` on */
} ulfm_group;

/* What stands first in the ring from a rank. */
typedef struct {
    uint32_t kind;   /* one of the kinds below */
    uint32_t tag;    /* of a message: its tag, 0 to 32,767. Else 0 */
    uint64_t comm;   /* its communicator. Of ULFM_NOTHING and ULFM_STOP_NOTICE 0 */
    uint64_t length; /* of a message: bytes of the body, 0 to 1,024. Else 0 */
    uint64_t round;  /* of an entry into a shrink or an agreement: its number on the communicator, from 0. Else 0 */
} ulfm_next_item;

/* Kinds of what stands first. */
enum {
    ULFM_NOTHING = 0,      /* nothing came that wasn't taken */
    ULFM_MESSAGE = 1,
    ULFM_STOP_NOTICE = 2,  /* the rank stopped */
    ULFM_REVOCATION = 3,   /* of a communicator */
    ULFM_SHRINK_ENTRY = 4, /* the rank entered the shrink of a communicator */
    ULFM_AGREE_ENTRY = 5   /* the rank entered an agreement */
};

/* Any source, any tag. */
#define ULFM_ANY UINT32_MAX

/* Codes. */
enum {
    ULFM_OK = 0,
    ULFM_NO_COMM = 1,        /* the communicator wasn't made at this rank */
    ULFM_BAD_RANK = 2,       /* the communicator has no such position */
    ULFM_BAD_TAG = 3,        /* the tag is past 32,767 */
    ULFM_TOO_LONG = 4,       /* the body is longer than 1,024 bytes */
    ULFM_PROC_FAILED = 5,    /* the other rank is known to have failed */
    ULFM_REVOKED = 6,        /* the communicator is revoked */
    ULFM_NO_REQUEST = 7,     /* there is no such request or message, or it was released */
    ULFM_ALREADY_MADE = 8,   /* made, entered or adopted before */
    ULFM_NO_CONTEXT = 9,     /* no context is left for the new communicator */
    ULFM_STOPPED = 10,       /* this rank has stopped */
    ULFM_NOT_MEMBER = 11,    /* the decision isn't this rank's to adopt: it was taken for failed */
    ULFM_OUT_OF_MEMORY = 12, /* a growth was refused */
    ULFM_BAD_SIZE = 13,      /* not 1 to 8 ranks, or a capacity that isn't 1 to 64 */
    ULFM_NOT_ENTERED = 14,   /* no shrink or agreement was entered here */
    ULFM_TRUNCATED = 15,     /* in a status alone: the message was longer than the room of its receive, and is gone */
    ULFM_ENDED = 16,         /* the slot is null or has no rank, or an out parameter is null */
    ULFM_NOT_YET = 17,       /* of polls: nothing came yet, poll again */
    ULFM_PENDING = 18        /* of receives from any source: as 17, and a member failed whose failure isn't acknowledged
                                (ULFM, `MPI_ERR_PROC_FAILED_PENDING`). Acknowledged, it goes on as 17 */
};

/* ---- Worlds ---- */

/* Makes a world of `ranks` ranks, 1 to 8, in slots[0 .. ranks - 1]: slot k has the rank of world number k. Slots that have a rank are ended
   first, where the call answers 0. `capacity`, 1 to 64, is the number of places of the ring from each rank to each: what finds no place waits
   at its sender. 13, 12. */
uint32_t ulfm_world(ulfm_slot *slots, size_t ranks, uint8_t capacity);

/* Ends a rank and frees what it has; the slot is all zeros then. The other ranks aren't told, and what didn't go out is lost. Nothing is if these
   come before, in this order: `ulfm_turn` until `ulfm_flushed` says 1, so that messages go out; `ulfm_stop`; `ulfm_turn` until it says 1 once more,
   so that the notices do. A rank that stopped takes nothing any more. What waits for it counts no more once its notice came; a rank that stopped
   itself takes no notice from then on: end the second loop also when the other ranks have stopped or ended. 16. */
uint32_t ulfm_end(ulfm_slot *slot);

/* The rank stops, as if it failed there (ULFM: a process failure): what didn't go out of it yet is lost, its messages too, and the others learn of
   the stop by a notice, which goes out by `ulfm_turn`. From then on all its calls but those of progress, `ulfm_me`, `ulfm_group_of`,
   `ulfm_position`, `ulfm_stop` and `ulfm_end` answer 10, or what is listed before it: 1 of a communicator of 2^45 or more, 3 of a tag past 32,767.
   16. */
uint32_t ulfm_stop(ulfm_slot *slot);

/* ---- Progress ---- */

/* Takes one item that came, if there is one, and pushes what waits to go out, to each rank as far as its ring has places. Ranks are looked
   at upwards and round, from the one after the last of which one was taken, first of all from rank 0. *moved: 1 where anything moved, else 0: then
   this rank has nothing to do until another one moves, and the next turn, if it is the next call, doesn't answer 12. 16, 12 (of a running rank). */
uint32_t ulfm_turn(ulfm_slot *slot, uint32_t *moved);

/* *flushed: 1 where nothing waits to go out to a rank that isn't known to have failed; a rank that stopped knows what it knew as it stopped. Else
   0. 16. */
uint32_t ulfm_flushed(ulfm_slot *slot, uint32_t *flushed);

/* ---- Progress step by step ----

   Who runs all ranks of a world, one call after the other, chooses with these what moves when: so a run can be played again exactly. */

/* A half of a turn: pushes what waits to go out, to each rank as far as its ring has places, and takes nothing. *moved: 1 where anything
   went, else 0. 16. */
uint32_t ulfm_push(ulfm_slot *slot, uint32_t *moved);

/* Takes the first item that came from the rank of number `source` in the world, if there is one and this rank runs, and pushes nothing. *took: 1
   where one was taken, else 0. Where the next `ulfm_turn` begins to look stays. 16, 2 (no such rank), 12 (of a running rank). */
uint32_t ulfm_take(ulfm_slot *slot, uint32_t source, uint32_t *took);

/* *item: what `ulfm_take` of this source would take. It stays where it is. 16, 2 (no such rank). */
uint32_t ulfm_next(ulfm_slot *slot, uint32_t source, ulfm_next_item *item);

/* *code: what `ulfm_test` of this request would answer now: 0 where it is over, 17, 18, or a refusal, 10 or 7. It changes nothing. 16. */
uint32_t ulfm_would(ulfm_slot *slot, uint64_t request, uint32_t *code);

/* What is known of an event of a world's processes: what the rank does, and of a poll its communicator and which of its shrinks or agreements is polled,
   from 0. */
typedef struct {
    uint64_t comm, round;
    uint32_t kind; /* ULFM_DOES_CALL .. */
    uint8_t rank;
    uint8_t source; /* of a take: of whom */
} ulfm_outline;

enum {
    ULFM_DOES_CALL = 0, /* a call that polls nothing */
    ULFM_DOES_TAKE = 1,
    ULFM_DOES_POLL_SHRINK = 2,
    ULFM_DOES_POLL_AGREE = 3
};

/* 0 where two events commute, of which this is known: either order leads to the same, each answer included, and neither makes the other one
   impossible. 1 where their order may matter. */
uint32_t ulfm_may_matter(const ulfm_outline *first, const ulfm_outline *second);

/* ---- Communicators and groups ---- */

/* *rank: the rank's number in the world (MPI 4.0, 7.4.1, on MPI_COMM_WORLD). 16. */
uint32_t ulfm_me(ulfm_slot *slot, uint32_t *rank);

/* *group: the world ranks of the members, by their positions (MPI 4.0, 7.3.2 and 7.4.1, `MPI_Comm_group`, `MPI_Comm_size`). 16, 1. */
uint32_t ulfm_group_of(ulfm_slot *slot, uint64_t comm, ulfm_group *group);

/* *position: this rank's position (MPI 4.0, 7.4.1, `MPI_Comm_rank`). 16, 1, 11. */
uint32_t ulfm_position(ulfm_slot *slot, uint64_t comm, uint32_t *position);

/* Duplicates a communicator: *made has the same group (MPI 4.0, 7.4.2, `MPI_Comm_dup`). It is made here alone, without a message: each member has to
   do the same. A communicator c of 0 to 62 has one duplicate by this call: of the number 2c + 1, for c up to 30, else refused 9; a second one is
   refused 8. Of one past 62 it makes the next, as `ulfm_dup_again` does. 16, 1 (comm of 2^45 or more), 10, 1, 6, 8, 9, 12. */
uint32_t ulfm_dup(ulfm_slot *slot, uint64_t comm, uint64_t *made);

/* Duplicates a communicator, as `ulfm_dup` does, as often as wanted. The first duplicate of c up to 30 has the number 2c + 1. All others have
   numbers past 62, by the path that leads to them from the world: by which of its parent's duplicates, or of the communicators that its shrinks
   made, each one on it is. So members that made the same ones have the same numbers. Each is greater than its parent's, and than those that were
   made of its parent in this way before; no two communicators have the same; all are below 2^45. 9: the duplicate's wouldn't be. 43 duplicates in a
   row have numbers, each made of the one before, and millions of the world. 16, 1 (comm of 2^45 or more), 10, 1, 6, 9, 12. */
uint32_t ulfm_dup_again(ulfm_slot *slot, uint64_t comm, uint64_t *made);

/* ---- Messages ---- */

/* Starts a send of `length` bytes to the member `dest` (MPI 4.0, 3.7.2, `MPI_Isend`). It is buffered: done when the call returns. 16, 1 (comm
   of 2^45 or more), 3, 10, 1, 6, 2, 4, 5, 12. */
uint32_t ulfm_isend(ulfm_slot *slot, uint64_t comm, uint32_t dest, uint32_t tag, const uint8_t *body, size_t length);

/* Posts a receive from the member `source` or ULFM_ANY, with `tag` or ULFM_ANY, of at most `room` bytes (MPI 4.0, 3.7.2, `MPI_Irecv`).
   *request: its number, which none of this rank's requests and messages had before. 16, 1 (comm of 2^45 or more), 3, 10, 1, 6, 2, 12. */
uint32_t ulfm_irecv(ulfm_slot *slot, uint64_t comm, uint32_t source, uint32_t tag, uint32_t room, uint64_t *request);

/* Tests a receive (MPI 4.0, 3.7.3, `MPI_Test`). 0: it is over and released, *status tells how, and where status->error is 0 the body stands at
   `body`; of a body that is longer than `size` the first `size` bytes. Give as many bytes as the receive's room. 17, 18: it goes on. 16, 10, 7. */
uint32_t ulfm_test(ulfm_slot *slot, uint64_t request, ulfm_status *status, uint8_t *body, size_t size);

/* Cancels a receive (MPI 4.0, 3.8.4, `MPI_Cancel` with its completion). 0: it is released; it was withdrawn and gets no message
   (status->cancelled is 1), or had ended before, and is answered as by `ulfm_test`. 16, 10, 7. */
uint32_t ulfm_cancel(ulfm_slot *slot, uint64_t request, ulfm_status *status, uint8_t *body, size_t size);

/* Looks for a message that a receive with these arguments would get where it was posted now (MPI 4.0, 3.8.1, `MPI_Iprobe`). 0: there is one, and
   *status tells of it. It changes nothing. 17: there is none. 16, 1 (comm of 2^45 or more), 3, 10, 1, 6, 2, 5 (there is none, and `source` is known
   to have failed). */
uint32_t ulfm_iprobe(ulfm_slot *slot, uint64_t comm, uint32_t source, uint32_t tag, ulfm_status *status);

/* Looks for a message as `ulfm_iprobe` does, and takes it aside: `ulfm_mrecv` alone gets it, revoked or not (MPI 4.0, 3.8.2, `MPI_Improbe`). 0: there
   is one, *message is its number, and *status tells of it. 17: there is none. 16, 1 (comm of 2^45 or more), 3, 10, 1, 6, 2, 5, 12. */
uint32_t ulfm_improbe(ulfm_slot *slot, uint64_t comm, uint32_t source, uint32_t tag, uint64_t *message, ulfm_status *status);

/* Receives a message into `size` bytes, and releases it (MPI 4.0, 3.8.3, `MPI_Mrecv`). 0: as by `ulfm_test`; status->error is ULFM_TRUNCATED
   where its body is longer. 16, 10, 7. */
uint32_t ulfm_mrecv(ulfm_slot *slot, uint64_t message, ulfm_status *status, uint8_t *body, size_t size);

/* ---- Recovery (ULFM) ---- */

/* Revokes a communicator, here and, as the notice comes there, at all members (ULFM, `MPI_Comm_revoke`). Again it changes nothing. 16, 1 (comm
   of 2^45 or more), 10, 1, 12. */
uint32_t ulfm_revoke(ulfm_slot *slot, uint64_t comm);

/* *revoked: 1 where the communicator is known to be revoked, else 0 (ULFM, `MPI_Comm_is_revoked`). 16, 1 (comm of 2^45 or more), 10, 1. */
uint32_t ulfm_is_revoked(ulfm_slot *slot, uint64_t comm, uint32_t *revoked);

/* *failed: the members that are known to have failed, in the order in which this rank learned it, which stays (ULFM, `MPI_Comm_get_failed`).
   16, 1 (comm of 2^45 or more), 10, 1. */
uint32_t ulfm_get_failed(ulfm_slot *slot, uint64_t comm, ulfm_group *failed);

/* Acknowledges the first `count` of them, or all where they are fewer; never fewer than before (ULFM, `MPI_Comm_ack_failed`). *total: how many
   are acknowledged now. 16, 1 (comm of 2^45 or more), 10, 1, 12. */
uint32_t ulfm_ack_failed(ulfm_slot *slot, uint64_t comm, uint32_t count, uint32_t *total);

/* Enters the shrink of a communicator, revoked or not (ULFM, `MPI_Comm_shrink`). A communicator c of 0 to 62 has one shrink by this call: of the
   number 2c + 2, for c up to 30, else refused 9; a second one is refused 8. Of one past 62 it enters the next, as `ulfm_enter_shrink_again` does.
   16, 1 (comm of 2^45 or more), 10, 1, 8, 9, 12. */
uint32_t ulfm_enter_shrink(ulfm_slot *slot, uint64_t comm);

/* Enters the next shrink of a communicator, as `ulfm_enter_shrink` does, as often as wanted, one after the other. The first one of c up to 30 makes
   the number 2c + 2, all others numbers past 62, as `ulfm_dup_again` says. 8: the last one is open, or its decision isn't adopted here. 9: the
   number wouldn't be below 2^45. 17 shrinks in a row have numbers, each of the one before. 16, 1 (comm of 2^45 or more), 10, 1, 8, 9, 12. */
uint32_t ulfm_enter_shrink_again(ulfm_slot *slot, uint64_t comm);

/* Asks for the decision of the shrink that was entered. 0: it is adopted, and *made is the communicator of the new group. 17: not all
   members that run have entered yet. 16, 1 (comm of 2^45 or more), 10, 1, 14, 8, 11, 12. After 11 this rank is no member of the new group. After 12
   poll again. */
uint32_t ulfm_poll_shrink(ulfm_slot *slot, uint64_t comm, uint64_t *made);

/* Enters the next agreement on a communicator, revoked or not, with a flag (ULFM, `MPI_Comm_agree`). 16, 1 (comm of 2^45 or more), 10, 1, 8 (the
   last one isn't adopted yet), 12. */
uint32_t ulfm_enter_agree(ulfm_slot *slot, uint64_t comm, uint32_t flag);

/* Asks for the decision of the agreement that was entered last. 0: it is adopted. *value: the AND of the flags of all members but those in *missing,
   which failed. It is the same at all members that are told. 17: not all members that run have entered yet. 16, 1 (comm of 2^45 or more), 10, 1, 14,
   8, 11, 12. */
uint32_t ulfm_poll_agree(ulfm_slot *slot, uint64_t comm, uint32_t *value, ulfm_group *missing);

#ifdef __cplusplus
}
#endif
#endif
