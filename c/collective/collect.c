/* What collectives are made of: messages on a context of their own, each with the number of its collective in its tag. A rank waits for a message of
   another one until it comes, or that rank is known to have failed, or the program's communicator is known to be revoked. So a collective in which
   a member failed ends at each member that makes it: at some by success, at others by MPIX_ERR_PROC_FAILED (ULFM). */
#include "collective/collective.h"
#include "engine/body.h"
#include "progress/progress.h"
#include "types/types.h"
#include <stdlib.h>
#include <string.h>

static int tag_of(const struct comm *comm) {
    unsigned number = comm->repeats ? SINGLE + comm->repeats % (CREATION - SINGLE) : comm->begun % SINGLE;
    return comm->first_tag + (int)number;
}

/* Begins a collective, with the next number. One that was shrunk has no hidden context either where it was revoked before it was adopted here. */
int um_begin_collective(struct comm *comm) {
    if (!comm) return MPI_ERR_COMM;
    if (!comm->repeats) comm->begun++;
    um_progress();
    if (um_is_revoked(comm)) return MPIX_ERR_REVOKED;
    return comm->size > 1 && comm->hidden == NO_CONTEXT ? NO_COLLECTIVES : MPI_SUCCESS;
}

/* A collective whose arguments are wrong here has its number too: the next one then meets those of the others. */
int um_refuse_collective(struct comm *comm, int code) {
    if (comm && !comm->repeats) comm->begun++;
    return code;
}

int um_collect_send(struct comm *comm, int to, const void *bytes, size_t length) {
    int code = um_send_body(comm->hidden, comm->engine_position[to], comm->members[to], tag_of(comm), (struct bytes){bytes, length}, 0);
    um_count_inside();
    return code;
}

/* Posts the receive of a message, or null where there is no memory. */
struct request *um_collect_post(struct comm *comm, int from, void *bytes, size_t room, struct landing *landing) {
    struct request *request = um_new_request(RECEIVE, comm, from, tag_of(comm));
    if (!request) return 0;
    request->context = comm->hidden;
    request->landing = landing;
    um_start_receive(request, bytes, room);
    return request;
}

static bool has_come(void *of, bool is_settled) {
    struct request *request = of;
    (void)is_settled;
    um_look_at(request);
    return request->over || um_is_revoked(request->comm);
}

/* Waits for a message, and releases its request. */
int um_collect_finish(struct request *request) {
    if (!request) return MPI_ERR_NO_MEM;
    um_set_awaited(1u << request->comm->members[request->peer]);
    if (!request->over) um_wait_until(has_come, request, false);
    um_set_awaited(0);
    if (!request->over) um_withdraw(request);
    int code = request->status.cancelled ? MPIX_ERR_REVOKED : request->code;
    um_free_request(request);
    return code;
}

int um_collect_receive(struct comm *comm, int from, void *bytes, size_t room) {
    return um_collect_finish(um_collect_post(comm, from, bytes, room, 0));
}

/* Position 0 gets `length` bytes of each, by positions; the others send theirs. The first error, after all were asked. */
int um_gather_all(struct comm *comm, const void *in, size_t length, void *all) {
    if (comm->position) return um_collect_send(comm, 0, in, length);
    int code = MPI_SUCCESS;
    if (length && all != in) memcpy(all, in, length);
    for (int k = 1; k < comm->size; k++) {
        int one = um_collect_receive(comm, k, (char *)all + length * (size_t)k, length);
        if (code == MPI_SUCCESS) code = one;
    }
    return code;
}

/* All get the root's bytes. The first error, after all were told. */
int um_spread(struct comm *comm, void *bytes, size_t length, int root) {
    if (comm->position != root) return um_collect_receive(comm, root, bytes, length);
    int code = MPI_SUCCESS;
    for (int k = 0; k < comm->size; k++) {
        if (k == root) continue;
        int one = um_collect_send(comm, k, bytes, length);
        if (code == MPI_SUCCESS) code = one;
    }
    return code;
}

/* Position 0 tells all its code, and `length` bytes behind it: the buffer has room for both. What comes of it here. */
int um_spread_verdict(struct comm *comm, int code, void *buffer, size_t length) {
    int64_t verdict = code;
    memset(buffer, 0, VERDICT);
    memcpy(buffer, &verdict, sizeof verdict);
    int told = um_spread(comm, buffer, VERDICT + length, 0);
    memcpy(&verdict, buffer, sizeof verdict);
    if (comm->position == 0) return code != MPI_SUCCESS ? code : told;
    return told != MPI_SUCCESS ? told : (int)verdict;
}

int MPI_Barrier(MPI_Comm comm) {
    struct comm *of = um_comm_at(comm);
    char verdict[VERDICT];
    ENTER(of, MPI_UNDEFINED, MPI_UNDEFINED);
    int code = um_begin_collective(of);
    if (code != MPI_SUCCESS) return um_fail(of, code);
    code = um_gather_all(of, 0, 0, 0);
    return um_answer(of, um_spread_verdict(of, code, verdict, 0));
}

/* All get the root's data, where their types lay it out. */
static int broadcast(struct comm *comm, void *buf, int count, MPI_Datatype type, size_t bytes, int root) {
    const void *data;
    void *packed;
    int code = um_pack_data(buf, count, type, &data, &packed);
    if (code != MPI_SUCCESS) return code;
    code = um_spread(comm, packed ? packed : buf, bytes, root);
    if (packed && code == MPI_SUCCESS && comm->position != root) um_unpack_data(packed, bytes, buf, count, type);
    free(packed);
    return code;
}

/* Why a broadcast can't be, or MPI_SUCCESS and its bytes. */
int um_check_broadcast(struct comm *comm, const void *buf, int count, MPI_Datatype type, int root, size_t *bytes) {
    int code;
    if (!comm) return MPI_ERR_COMM;
    um_check_buffer(count, type, bytes, &code);
    if (root < 0 || root >= comm->size) code = MPI_ERR_ROOT;
    if (code == MPI_SUCCESS && !um_is_buffer(buf, *bytes, type)) code = MPI_ERR_BUFFER;
    return code == MPI_SUCCESS ? code : um_refuse_collective(comm, code);
}

int MPI_Bcast(void *buf, int count, MPI_Datatype type, int root, MPI_Comm comm) {
    struct comm *of = um_comm_at(comm);
    size_t bytes;
    ENTER(of, MPI_UNDEFINED, MPI_UNDEFINED);
    int code = um_check_broadcast(of, buf, count, type, root, &bytes);
    if (code == MPI_SUCCESS) code = um_begin_collective(of);
    return um_answer(of, code != MPI_SUCCESS ? code : broadcast(of, buf, count, type, bytes, root));
}
