/* Requests: what was begun and isn't over, and what is over and wasn't told. */
#include "collective/collective.h"
#include "collective/repeated.h"
#include "engine/body.h"
#include "play/play.h"
#include "progress/progress.h"
#include <stddef.h>
#include <stdlib.h>
#include <string.h>

/* A place of the table that is free, or -1 where there is no memory. */
static inline int free_place(struct objects *mpi) {
    while (mpi->first_free < mpi->request_count && mpi->requests[mpi->first_free]) mpi->first_free++;
    if (mpi->first_free < mpi->request_count) return mpi->first_free;
    if (!um_grow(&mpi->requests, mpi->request_count, sizeof *mpi->requests)) return -1;
    mpi->requests[mpi->request_count] = 0;
    return mpi->request_count++;
}

/* A request that isn't over, or null where there is no memory. */
struct request *um_new_request(enum kind kind, struct comm *comm, int peer, int tag) {
    struct objects *mpi = &um_me->mpi;
    struct request *request = mpi->spare;
    int place = free_place(mpi);
    if (place < 0 || (!request && !(request = calloc(1, sizeof *request)))) return 0;
    if (mpi->spare) mpi->spare = request->next;
    request->kind = kind;
    request->comm = comm;
    request->context = comm->context;
    request->peer = peer;
    request->tag = tag;
    request->buffer = 0;
    request->room = 0;
    request->parcel = 0;
    request->landing = 0;
    request->over = request->freed = false;
    request->code = MPI_SUCCESS;
    request->status = (MPI_Status){.MPI_SOURCE = peer, .MPI_TAG = tag};
    request->next = request->previous = 0;
    request->handle = place + 1;
    mpi->requests[place] = request;
    if (kind == RECOVERY) mpi->recoveries++;
    return request;
}

static void link_open(struct request *request) {
    request->next = um_me->mpi.open;
    if (um_me->mpi.open) um_me->mpi.open->previous = request;
    um_me->mpi.open = request;
}

static void unlink_open(struct request *request) {
    if (request->previous) request->previous->next = request->next;
    else um_me->mpi.open = request->next;
    if (request->next) request->next->previous = request->previous;
}

/* Frees what only requests of some kinds have. */
static void free_rest(struct request *request) {
    um_free_start(request->start);
    um_free_repeated(request->repeated);
    um_free_reduction(request->reduction);
    if (request->kind == RECOVERY) um_me->mpi.recoveries--;
    um_free_copy(request);
    free(request->more);
    memset(&request->start, 0, sizeof *request - offsetof(struct request, start));
}

void um_free_request(struct request *request) {
    if (request->kind == RECEIVE && !request->over) unlink_open(request);
    if (request->parcel) um_let_go(request->parcel);
    if (request->landing) um_free_landing(request->landing);
    if (request->kind >= EXCHANGE) free_rest(request);
    um_me->mpi.requests[request->handle - 1] = 0;
    if (request->handle - 1 < um_me->mpi.first_free) um_me->mpi.first_free = request->handle - 1;
    request->next = um_me->mpi.spare;
    um_me->mpi.spare = request;
}

/* Writes what is told of a message, but for the error code: a program may keep its own there (3.2.5). Calls that end several requests write it
   where they return MPI_ERR_IN_STATUS. */
void um_tell_status(MPI_Status *status, const MPI_Status *told) {
    if (!status) return;
    int kept = status->MPI_ERROR;
    *status = *told;
    status->MPI_ERROR = kept;
}

/* The request is over. One that the program freed before goes. */
void um_end_request(struct request *request, int code) {
    if (request->kind == RECEIVE && !request->over) unlink_open(request);
    request->over = true;
    request->code = code;
    if (!request->freed) return;
    atomic_fetch_sub(&um_me->shared.waited_for, 1);
    um_free_request(request);
}

/* Where a message goes or comes from nobody (3.10). */
static void end_with_nobody(struct request *request) {
    request->status = (MPI_Status){.MPI_SOURCE = MPI_PROC_NULL, .MPI_TAG = MPI_ANY_TAG};
    request->kind = NOTHING;
    request->over = true;
}

static inline uint32_t post(const struct comm *comm, uint64_t context, int source, int tag, uint64_t *id) {
    uint32_t from = comm->is_self ? comm->engine_position[0] : source == MPI_ANY_SOURCE ? ULFM_ANY : comm->engine_position[source];
    return ulfm_irecv(um_me->slot, context, from, tag == MPI_ANY_TAG ? ULFM_ANY : (uint32_t)tag, BODY, id);
}

static inline uint32_t test(uint64_t id, struct received *received) {
    return ulfm_test(um_me->slot, id, &received->told, &received->body.content, sizeof received->body);
}

/* Posts the receive of a request. A refusal is told where the request ends. */
void um_start_receive(struct request *request, void *buffer, size_t room) {
    request->buffer = buffer;
    request->room = room;
    if (request->peer == MPI_PROC_NULL) {
        end_with_nobody(request);
        return;
    }
    const struct comm *comm = request->comm;
    uint32_t code = ULFM_REVOKED;
    if (!comm->is_part || !um_is_revoked(comm)) code = post(comm, request->context, request->peer, request->tag, &request->id);
    link_open(request);
    if (code != ULFM_OK) um_end_request(request, um_class_of(code));
    else if (um_is_waited_for() && !um_is_played) um_look_at(request);
}

/* Sends a message of the program. Where `parcel` isn't null, it gets a parcel whose flag tells the match. */
int um_send_now(struct comm *comm, int peer, int tag, const void *buffer, size_t length, struct parcel **parcel) {
    if (comm->is_part && um_is_revoked(comm)) return MPIX_ERR_REVOKED;
    return um_send_body(comm->context, comm->engine_position[peer], comm->members[peer], tag, (struct bytes){buffer, length}, parcel);
}

/* Starts the send of a request. A refusal is told where the request ends. */
void um_start_send(struct request *request, const void *buffer, size_t length, bool is_synchronous) {
    if (request->peer == MPI_PROC_NULL) {
        end_with_nobody(request);
        return;
    }
    int code = um_send_now(request->comm, request->peer, request->tag, buffer, length, is_synchronous ? &request->parcel : 0);
    request->kind = request->parcel ? SYNCHRONOUS : SENT;
    request->status.bytes = length;
    if (code != MPI_SUCCESS || !is_synchronous) um_end_request(request, code);
}

/* Looks whether a synchronous send was matched, or never can be. */
static int look_at_send(struct request *request) {
    if (um_is_played) {
        uint32_t code = um_look_at_sent(request);
        if (code != ULFM_NOT_YET) um_end_request(request, um_class_of(code));
    } else if (atomic_load(&request->parcel->matched)) um_end_request(request, MPI_SUCCESS);
    else if (um_is_revoked(request->comm)) um_end_request(request, MPIX_ERR_REVOKED);
    else if (um_is_failed(request->comm, request->peer)) um_end_request(request, MPIX_ERR_PROC_FAILED);
    return MPI_SUCCESS;
}

/* The engine answered that a receive is over: takes its message. The error code. */
static inline int take(const struct comm *comm, const struct received *received, void *buffer, size_t room, MPI_Status *status) {
    const ulfm_status *told = &received->told;
    int code = MPI_SUCCESS;
    if (told->cancelled) status->cancelled = 1;
    else if (told->error) code = um_class_of(told->error);
    else {
        um_take_body(received, buffer, room, status, &code);
        status->MPI_SOURCE = um_position_at(comm, told->source);
    }
    return code;
}

static void end_receive(struct request *request, const struct received *received) {
    int code = take(request->comm, received, request->buffer, request->room, &request->status);
    if (request->landing && !received->told.cancelled && !received->told.error) um_land(request->landing, request->status.bytes);
    um_end_request(request, code);
}

/* Cancels a receive. */
static uint32_t cancel(uint64_t id, struct received *received) {
    return ulfm_cancel(um_me->slot, id, &received->told, &received->body.content, sizeof received->body);
}

/* What was posted goes on as a request. */
static int wait_later(const struct transfer *of, size_t room, uint64_t id, struct request **waiting) {
    struct request *request = um_new_request(RECEIVE, of->comm, of->peer, of->tag);
    struct received received;
    *waiting = request;
    if (!request) {
        if (cancel(id, &received) == ULFM_OK && !received.told.cancelled && !received.told.error) um_drop_body(&received);
        return MPI_ERR_NO_MEM;
    }
    request->buffer = um_into(of->data);
    request->room = room;
    request->id = id;
    link_open(request);
    return MPI_SUCCESS;
}

/* Receives a message in a call that blocks, on a communicator of a whole group, where the run isn't played. Mostly the message is there: then no request is
   needed. Else `waiting` is one that waits for it. */
int um_receive_soon(const struct transfer *of, size_t room, MPI_Status *status, struct request **waiting) {
    struct received received;
    MPI_Status told = {.MPI_SOURCE = of->peer, .MPI_TAG = of->tag};
    uint64_t id;
    uint32_t code = post(of->comm, of->comm->context, of->peer, of->tag, &id);
    if (code == ULFM_OK) {
        um_move_once();
        code = test(id, &received);
        if (code == ULFM_NOT_YET || code == ULFM_PENDING) return wait_later(of, room, id, waiting);
    }
    int ended = code == ULFM_OK ? take(of->comm, &received, um_into(of->data), room, &told) : um_class_of(code);
    um_learn_of_success();
    um_tell_status(status, &told);
    return ended;
}

/* Ends a receive that waits on a part that is revoked. */
static void end_revoked(struct request *request) {
    struct received received;
    if (cancel(request->id, &received) == ULFM_OK && !received.told.cancelled) end_receive(request, &received);
    else um_end_request(request, MPIX_ERR_REVOKED);
}

static int look_at_receive(struct request *request) {
    struct received received;
    uint32_t code = test(request->id, &received);
    bool is_open = code == ULFM_NOT_YET || code == ULFM_PENDING;
    if (is_open && request->comm->is_part && um_is_revoked(request->comm)) {
        end_revoked(request);
        return MPI_SUCCESS;
    }
    if (code == ULFM_NOT_YET) return MPI_SUCCESS;
    if (code == ULFM_PENDING) return um_has_unacknowledged(request->comm) ? MPIX_ERR_PROC_FAILED_PENDING : MPI_SUCCESS;
    if (code == ULFM_OK) end_receive(request, &received);
    else um_end_request(request, um_class_of(code));
    return MPI_SUCCESS;
}

/* Looks at a request once. It may be over then. MPIX_ERR_PROC_FAILED_PENDING where it pends, else MPI_SUCCESS. */
int um_look_at(struct request *request) {
    if (request->over) return MPI_SUCCESS;
    switch (request->kind) {
    case SYNCHRONOUS: return look_at_send(request);
    case EXCHANGE: return um_look_at_exchange(request);
    case COLLECTIVE: um_look_at_collective(request); return MPI_SUCCESS;
    case RECOVERY: request->look(request); return MPI_SUCCESS;
    default: return look_at_receive(request);
    }
}

/* Looks at all receives that wait, so that senders that wait for a match are told. */
void um_look_at_all(void) {
    for (struct request *request = um_me->mpi.open, *next; request; request = next) {
        next = request->next;
        um_look_at(request);
    }
}

/* Withdraws a receive that waits. Where a message came before, the request ends with it. */
void um_withdraw(struct request *request) {
    if (request->over || request->kind != RECEIVE) return;
    struct received received;
    uint32_t code = cancel(request->id, &received);
    if (code == ULFM_OK) end_receive(request, &received);
    else um_end_request(request, um_class_of(code));
}

void um_clear_requests(void) {
    for (int k = 0; k < um_me->mpi.request_count; k++) {
        struct request *request = um_me->mpi.requests[k];
        if (!request) continue;
        if (request->parcel) um_let_go(request->parcel);
        um_free_landing(request->landing);
        free_rest(request);
        free(request);
    }
    free(um_me->mpi.requests);
    um_me->mpi.requests = 0;
    um_me->mpi.request_count = 0;
    um_me->mpi.open = 0;
    while (um_me->mpi.spare) {
        struct request *next = um_me->mpi.spare->next;
        free(um_me->mpi.spare);
        um_me->mpi.spare = next;
    }
}
