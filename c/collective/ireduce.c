/* Reductions that don't block (MPI 4.0, 6.12.7 to 6.12.11). Each rank that gets a result gets all parts of it, and folds them in the order of positions
   when they are there, so all results have the same bits, as those of reductions that block. */
#include "collective/collective.h"
#include "collective/reduce.h"
#include "progress/progress.h"
#include "types/types.h"
#include <stdlib.h>
#include <string.h>

/* Whether the part of one position goes to another one. */
static bool goes(const struct reduction *of, int from, int to) {
    if (of->to == UPWARD) return from < to;
    return of->to == TO_ALL || of->to == to;
}

/* Keeps the type and the operation, which the program may free before the end. */
static int keep(struct reduction *of) {
    of->given = of->type;
    of->op = um_keep_op(of->op);
    of->type = um_keep_type(of->type);
    return of->op != MPI_OP_NULL && of->type != MPI_DATATYPE_NULL ? MPI_SUCCESS : MPI_ERR_NO_MEM;
}

void um_free_reduction(struct reduction *of) {
    if (!of) return;
    um_drop_op(of->op);
    um_drop_type(of->type);
    free(of->room);
    free(of);
}

/* Sends this rank's part, and posts receives for those that it folds. */
static void exchange_parts(struct request *made, struct reduction *of, const void *sendbuf) {
    const void *own = um_own_part(of, sendbuf, of->recvbuf);
    int at = of->comm->position;
    if (of->bytes) memcpy(of->parts + of->bytes * (size_t)at, own, of->bytes);
    for (int k = 0; k < of->comm->size; k++)
        if (goes(of, at, k)) um_send_bytes(made, k, own, of->bytes);
    for (int k = 0; k < of->comm->size; k++)
        if (goes(of, k, at)) um_post_bytes(made, k, of->parts + of->bytes * (size_t)k, of->bytes, 0);
}

/* Begins a reduction like this one. `receives`: this rank gets a result. */
static int start(const struct reduction *like, const void *sendbuf, bool receives, MPI_Request *handle) {
    struct request *made = 0;
    struct comm *comm = like->comm;
    struct reduction *of = malloc(sizeof *of);
    if (!of) return um_fail(comm, MPI_ERR_NO_MEM);
    *of = *like;
    int code = um_check_reduction(of, sendbuf, of->recvbuf, receives);
    if (code != MPI_SUCCESS) {
        free(of);
        return um_answer(comm, code);
    }
    code = keep(of);
    if (code == MPI_SUCCESS) code = um_make_room(of);
    if (code == MPI_SUCCESS) code = um_start_collective(comm, &made);
    if (code == MPI_SUCCESS) made->reduction = of;
    else um_free_reduction(of);
    if (code == MPI_SUCCESS && !made->over) exchange_parts(made, of, sendbuf);
    return um_give_collective(comm, code, &made, handle);
}

/* All parts are there, or an error is. */
int um_end_reduction(struct reduction *of, int code) {
    if (code == MPI_SUCCESS && of->last >= 0) {
        struct call call = um_me->call; /* an operation of the program's may ask MPI something, and look at the type's handle */
        MPI_Datatype kept = of->type;
        if (um_type_at(of->given) == um_type_at(kept)) of->type = of->given;
        code = um_fold_parts(of, of->last, of->result + VERDICT);
        if (code == MPI_SUCCESS) um_deliver_own_elements(of, of->recvbuf);
        of->type = kept;
        um_set_call(call);
    }
    um_free_reduction(of);
    return code;
}

int MPI_Iallreduce(const void *sendbuf, void *recvbuf, int count, MPI_Datatype type, MPI_Op op, MPI_Comm comm, MPI_Request *handle) {
    struct comm *in = um_comm_at(comm);
    struct reduction of = {.comm = in, .count = count, .type = type, .op = op, .recvbuf = recvbuf, .to = TO_ALL, .last = in ? in->size - 1 : 0};
    ENTER(in, MPI_UNDEFINED, MPI_UNDEFINED);
    GIVES(in, handle);
    return start(&of, sendbuf, true, handle);
}

int MPI_Ireduce(const void *sendbuf, void *recvbuf, int count, MPI_Datatype type, MPI_Op op, int root, MPI_Comm comm, MPI_Request *handle) {
    struct comm *in = um_comm_at(comm);
    struct reduction of = {.comm = in, .count = count, .type = type, .op = op, .recvbuf = recvbuf, .to = root};
    ENTER(in, MPI_UNDEFINED, MPI_UNDEFINED);
    GIVES(in, handle);
    if (in && (root < 0 || root >= in->size)) return um_fail(in, um_refuse_collective(in, MPI_ERR_ROOT));
    bool is_root = in && in->position == root;
    if (is_root && sendbuf == recvbuf && count > 0) return um_fail(in, um_refuse_collective(in, MPI_ERR_BUFFER));
    of.last = is_root ? in->size - 1 : -1;
    return start(&of, sendbuf, is_root, handle);
}

int MPI_Iscan(const void *sendbuf, void *recvbuf, int count, MPI_Datatype type, MPI_Op op, MPI_Comm comm, MPI_Request *handle) {
    struct comm *in = um_comm_at(comm);
    struct reduction of = {.comm = in, .count = count, .type = type, .op = op, .recvbuf = recvbuf, .to = UPWARD, .last = in ? in->position : 0};
    ENTER(in, MPI_UNDEFINED, MPI_UNDEFINED);
    GIVES(in, handle);
    return start(&of, sendbuf, true, handle);
}

int MPI_Iexscan(const void *sendbuf, void *recvbuf, int count, MPI_Datatype type, MPI_Op op, MPI_Comm comm, MPI_Request *handle) {
    struct comm *in = um_comm_at(comm);
    struct reduction of = {.comm = in, .count = count, .type = type, .op = op, .recvbuf = recvbuf, .to = UPWARD, .last = in ? in->position - 1 : 0};
    ENTER(in, MPI_UNDEFINED, MPI_UNDEFINED);
    GIVES(in, handle);
    return start(&of, sendbuf, !in || in->position > 0 || sendbuf == MPI_IN_PLACE, handle);
}

int MPI_Ireduce_scatter_block(const void *sendbuf, void *recvbuf, int count, MPI_Datatype type, MPI_Op op, MPI_Comm comm, MPI_Request *handle) {
    struct comm *in = um_comm_at(comm);
    struct reduction of = {.comm = in, .count = in && count > 0 ? count * in->size : count, .type = type, .op = op, .recvbuf = recvbuf, .to = TO_ALL};
    ENTER(in, MPI_UNDEFINED, MPI_UNDEFINED);
    GIVES(in, handle);
    if (in) um_take_own_elements(&of, 0, count), of.last = in->size - 1;
    return start(&of, sendbuf, true, handle);
}

int MPI_Ireduce_scatter(const void *sendbuf, void *recvbuf, const int counts[], MPI_Datatype type, MPI_Op op, MPI_Comm comm, MPI_Request *handle) {
    struct comm *in = um_comm_at(comm);
    struct reduction of = {.comm = in, .type = type, .op = op, .recvbuf = recvbuf, .to = TO_ALL};
    ENTER(in, MPI_UNDEFINED, MPI_UNDEFINED);
    GIVES(in, handle);
    int code = um_sum_of_counts(counts, in, &of.count);
    if (code != MPI_SUCCESS) return um_fail(in, code);
    um_take_own_elements(&of, counts, 0);
    of.last = in->size - 1;
    return start(&of, sendbuf, counts[in->position] > 0 || sendbuf == MPI_IN_PLACE, handle);
}
