/* Recovery from failures (ULFM): revocations, shrinks, and failures that are known. Shrinks are the engine's, as agreements in agree.c: all members that run have
   to call them, and none ends before that. */
#include "engine/engine.h"
#include "mpi/calls.h"
#include "play/play.h"
#include "progress/progress.h"
#include "recovery/recovery.h"
#include <stdlib.h>
#include <string.h>

int MPIX_Comm_revoke(MPI_Comm comm) {
    struct comm *of = um_comm_at(comm);
    ENTER(of, MPI_UNDEFINED, MPI_UNDEFINED);
    if (!of) return um_fail(0, MPI_ERR_COMM);
    if (of->is_part) {
        um_tell_left_out("revokes a communicator of a part of a group", __builtin_return_address(0));
        atomic_store(of->revoked, 1);
    }
    int code = of->is_part ? MPI_SUCCESS : um_class_of(ulfm_revoke(um_me->slot, of->context));
    um_marked();
    um_progress();
    return um_answer(of, code);
}

int MPIX_Comm_is_revoked(MPI_Comm comm, int *flag) {
    struct comm *of = um_comm_at(comm);
    ENTER_LOOK(of, MPI_UNDEFINED, MPI_UNDEFINED);
    if (!of) return um_fail(0, MPI_ERR_COMM);
    WRITES(of, flag);
    um_progress();
    *flag = um_is_revoked(of);
    return MPI_SUCCESS;
}

/* ---- Shrink ---- */

struct shrink {
    struct comm *comm;
    uint64_t context, made;
    uint32_t code;
    MPI_Comm *handle;
};

static bool is_shrunk(void *of, bool is_settled) {
    struct shrink *shrink = of;
    (void)is_settled;
    shrink->code = ulfm_poll_shrink(um_me->slot, shrink->context, &shrink->made);
    if (shrink->code == ULFM_OK) um_moved();
    return shrink->code != ULFM_NOT_YET;
}

static void look_at_shrink(struct request *request);

/* Whether a request of this rank for a shrink of a communicator of this group stands, decided or not: see is_asked_for of agree.c. */
static bool is_asked_for(const struct comm *comm) {
    for (int k = 0; k < um_me->mpi.request_count; k++) {
        const struct request *request = um_me->mpi.requests[k];
        if (!request || request->look != look_at_shrink) continue;
        const struct shrink *shrink = request->more;
        if (shrink->comm && shrink->context == comm->chain->plane[0].context) return true;
    }
    return false;
}

/* Enters a shrink, the next one of the first context of the group: all communicators of one group are shrunk by that, since numbers of contexts that
   are made of duplicates' have few to come after them. */
static int enter(struct shrink *shrink, struct comm *comm, MPI_Comm *handle) {
    if (is_asked_for(comm)) return ONE_AT_A_TIME;
    *shrink = (struct shrink){.comm = comm, .context = comm->chain->plane[0].context, .handle = handle};
    if (comm->is_part) return NOT_ON_PARTS;
    shrink->code = ulfm_enter_shrink_again(um_me->slot, shrink->context);
    if (shrink->code != ULFM_OK) return shrink->code == ULFM_ALREADY_MADE ? ONE_AT_A_TIME : um_class_of(shrink->code);
    um_progress();
    um_count_inside();
    return MPI_SUCCESS;
}

/* Makes the communicator of the members that run. */
static int adopt(struct shrink *shrink) {
    if (shrink->code != ULFM_OK) return um_class_of(shrink->code);
    struct chain *chain = um_new_chain(shrink->made);
    struct group before;
    um_group_of(shrink->comm, &before);
    struct comm *shrunk = chain ? um_new_comm(chain, 0, shrink->comm->handler, &before) : 0;
    if (!shrunk) return MPI_ERR_NO_MEM;
    *shrink->handle = um_handle_of(shrunk);
    return MPI_SUCCESS;
}

/* A part of one member needs no decision of others. */
static bool is_alone(const struct comm *comm) { return comm->is_part && comm->size == 1; }

int MPIX_Comm_shrink(MPI_Comm comm, MPI_Comm *made) {
    struct comm *of = um_comm_at(comm);
    struct shrink shrink;
    ENTER(of, MPI_UNDEFINED, MPI_UNDEFINED);
    if (!of) return um_fail(0, MPI_ERR_COMM);
    WRITES(of, made);
    if (is_alone(of)) return um_answer(of, um_make_another(of, made));
    int code = enter(&shrink, of, made);
    if (code != MPI_SUCCESS) return um_fail(of, code);
    um_wait_until(is_shrunk, &shrink, true);
    if (shrink.code == ULFM_OK) um_count_inside();
    return um_answer(of, adopt(&shrink));
}

static void look_at_shrink(struct request *request) {
    struct shrink *shrink = request->more;
    if (is_shrunk(shrink, true)) um_end_request(request, adopt(shrink));
}

/* *made is there when the request is over. */
int MPIX_Comm_ishrink(MPI_Comm comm, MPI_Comm *made, MPI_Request *handle) {
    struct comm *of = um_comm_at(comm);
    struct request *request;
    ENTER(of, MPI_UNDEFINED, MPI_UNDEFINED);
    if (!of) return um_fail(0, MPI_ERR_COMM);
    WRITES(of, made && handle);
    *handle = MPI_REQUEST_NULL;
    int code = um_new_recovery(of, look_at_shrink, sizeof(struct shrink), &request);
    if (code == MPI_SUCCESS && is_alone(of)) um_end_request(request, um_make_another(of, made));
    else if (code == MPI_SUCCESS) code = enter(request->more, of, made);
    return um_give_recovery(of, code, request, handle);
}

/* ---- Failures that are known ---- */

int MPIX_Comm_get_failed(MPI_Comm comm, MPI_Group *group) {
    struct comm *of = um_comm_at(comm);
    ulfm_group failed;
    ENTER_LOOK(of, MPI_UNDEFINED, MPI_UNDEFINED);
    if (!of) return um_fail(0, MPI_ERR_COMM);
    WRITES(of, group);
    um_progress();
    int code = um_failed_of(of, &failed);
    return um_answer(of, code != MPI_SUCCESS ? code : um_make_group(failed.members, (int)failed.size, group));
}

/* Acknowledges the first `count` of them, or all, never fewer than before. */
static int acknowledge(struct comm *comm, uint32_t count) {
    ulfm_group failed;
    int code = um_failed_of(comm, &failed);
    uint32_t total = failed.size < count ? failed.size : count;
    if (total < comm->acknowledged) total = comm->acknowledged;
    if (code == MPI_SUCCESS && !comm->is_part) code = um_class_of(ulfm_ack_failed(um_me->slot, comm->context, count, &total));
    if (code == MPI_SUCCESS) comm->acknowledged = total;
    return code;
}

/* A count past the number of known failures is wrong, as in Open MPI 5. */
int MPIX_Comm_ack_failed(MPI_Comm comm, int count, int *acknowledged) {
    struct comm *of = um_comm_at(comm);
    ulfm_group failed;
    ENTER_LOOK(of, MPI_UNDEFINED, MPI_UNDEFINED);
    if (!of) return um_fail(0, MPI_ERR_COMM);
    WRITES(of, acknowledged);
    um_progress();
    int code = um_failed_of(of, &failed);
    if (code == MPI_SUCCESS && (count < 0 || (uint32_t)count > failed.size)) code = MPI_ERR_ARG;
    if (code == MPI_SUCCESS) code = acknowledge(of, (uint32_t)count);
    if (code == MPI_SUCCESS) *acknowledged = (int)of->acknowledged;
    return um_answer(of, code);
}

int MPIX_Comm_failure_ack(MPI_Comm comm) {
    struct comm *of = um_comm_at(comm);
    ENTER_LOOK(of, MPI_UNDEFINED, MPI_UNDEFINED);
    if (!of) return um_fail(0, MPI_ERR_COMM);
    um_progress();
    return um_answer(of, acknowledge(of, MAX_RANKS));
}

int MPIX_Comm_failure_get_acked(MPI_Comm comm, MPI_Group *group) {
    struct comm *of = um_comm_at(comm);
    ulfm_group failed;
    ENTER_LOOK(of, MPI_UNDEFINED, MPI_UNDEFINED);
    if (!of) return um_fail(0, MPI_ERR_COMM);
    WRITES(of, group);
    um_progress();
    int code = um_failed_of(of, &failed);
    return um_answer(of, code != MPI_SUCCESS ? code : um_make_group(failed.members, (int)of->acknowledged, group));
}
