/* Reductions (MPI 4.0, 6.9 and 6.11): position 0 gets all parts and folds them in the order of positions, so that each run gives the same bits. */
#include "collective/reduce.h"
#include "collective/collective.h"
#include "types/types.h"
#include <stdlib.h>
#include <string.h>

/* Why its arguments can't be, or MPI_SUCCESS; then it knows its bytes. `recvbuf` is null where nothing is received. */
static int check(struct reduction *of, const void *sendbuf, const void *recvbuf) {
    int code = of->count < 0 ? MPI_ERR_COUNT : um_check_op(of->op, of->type);
    if (code != MPI_SUCCESS || !um_check_buffer(of->count, of->type, &of->bytes, &code)) return code;
    if (!(sendbuf == MPI_IN_PLACE && recvbuf) && !um_is_buffer(sendbuf, of->bytes, of->type)) return MPI_ERR_BUFFER;
    return um_reach_of_data(of->count, of->type, &of->bytes) ? MPI_SUCCESS : MPI_ERR_TYPE;
}

/* Why a reduction can't be, or MPI_SUCCESS. */
int um_check_reduction(struct reduction *of, const void *sendbuf, const void *recvbuf, bool receives) {
    if (!of->comm) return MPI_ERR_COMM;
    int code = check(of, sendbuf, receives ? recvbuf : 0);
    if (code == MPI_SUCCESS && receives && !um_is_buffer(recvbuf, of->bytes, of->type)) code = MPI_ERR_BUFFER;
    return code == MPI_SUCCESS ? code : um_refuse_collective(of->comm, code);
}

/* Gives a reduction its room, where there is memory. */
int um_make_room(struct reduction *of) {
    bool is_plain = um_is_plain_type(of->type);
    size_t each = (of->bytes + 15) & ~(size_t)15, copied = is_plain ? 0 : each, whole = 16 + 2 * each + copied + of->bytes * (size_t)of->comm->size;
    char *room = whole <= SHORT ? of->short_room : (of->room = malloc(whole));
    if (!room) return MPI_ERR_NO_MEM;
    of->result = room + 16 - VERDICT;
    of->folded = room + 16 + each;
    of->parts = of->folded + each + copied;
    if (!is_plain) of->copy = memset(of->folded + each, 0, each);
    return MPI_SUCCESS;
}

static int begin(struct reduction *of, const void *sendbuf, const void *recvbuf, bool receives) {
    int code = um_check_reduction(of, sendbuf, recvbuf, receives);
    if (code == MPI_SUCCESS) code = um_begin_collective(of->comm);
    return code == MPI_SUCCESS ? um_make_room(of) : code;
}

/* This rank's elements, without what stands between their data. */
const void *um_own_part(const struct reduction *of, const void *sendbuf, const void *recvbuf) {
    const void *own = sendbuf == MPI_IN_PLACE ? recvbuf : sendbuf;
    if (of->copy) um_copy_data(own, of->copy, of->count, of->type);
    return of->copy ? of->copy : own;
}

void um_deliver(const struct reduction *of, const void *result, void *recvbuf) {
    if (of->copy) um_copy_data(result, recvbuf, of->count, of->type);
    else if (of->bytes) memcpy(recvbuf, result, of->bytes);
}

static int finish(struct reduction *of, int code) {
    free(of->room);
    return um_answer(of->comm, code);
}

/* Folds parts 0 to last into `into`, in order. */
int um_fold_parts(const struct reduction *of, int last, char *into) {
    int code = MPI_SUCCESS;
    memcpy(into, of->parts, of->bytes);
    for (int k = 1; k <= last && code == MPI_SUCCESS; k++) {
        memcpy(of->folded, of->parts + of->bytes * (size_t)k, of->bytes);
        code = um_fold(into, of->folded, of->count, of->type, of->op);
        memcpy(into, of->folded, of->bytes);
    }
    return code;
}

int MPI_Allreduce(const void *sendbuf, void *recvbuf, int count, MPI_Datatype type, MPI_Op op, MPI_Comm comm) {
    struct comm *in = um_comm_at(comm);
    struct reduction of = {.comm = in, .count = count, .type = type, .op = op};
    ENTER(in, MPI_UNDEFINED, MPI_UNDEFINED);
    int code = begin(&of, sendbuf, recvbuf, true);
    if (code != MPI_SUCCESS) return finish(&of, code);
    code = um_gather_all(in, um_own_part(&of, sendbuf, recvbuf), of.bytes, of.parts);
    if (in->position == 0 && code == MPI_SUCCESS) code = um_fold_parts(&of, in->size - 1, of.result + VERDICT);
    else memset(of.result + VERDICT, 0, of.bytes);
    code = um_spread_verdict(in, code, of.result, of.bytes);
    if (code == MPI_SUCCESS) um_deliver(&of, of.result + VERDICT, recvbuf);
    return finish(&of, code);
}

/* The root gets the result; another one is through when its part is on its way. */
int MPI_Reduce(const void *sendbuf, void *recvbuf, int count, MPI_Datatype type, MPI_Op op, int root, MPI_Comm comm) {
    struct comm *in = um_comm_at(comm);
    struct reduction of = {.comm = in, .count = count, .type = type, .op = op};
    ENTER(in, MPI_UNDEFINED, MPI_UNDEFINED);
    if (in && (root < 0 || root >= in->size)) return um_fail(in, um_refuse_collective(in, MPI_ERR_ROOT));
    bool is_root = in && in->position == root;
    if (is_root && sendbuf == recvbuf && count > 0) return um_fail(in, um_refuse_collective(in, MPI_ERR_BUFFER));
    int code = begin(&of, sendbuf, recvbuf, is_root);
    if (code != MPI_SUCCESS) return finish(&of, code);
    const void *own = um_own_part(&of, sendbuf, recvbuf);
    if (in->position != root) return finish(&of, um_collect_send(in, root, own, of.bytes));
    for (int k = 0; k < in->size; k++) {
        char *part = of.parts + of.bytes * (size_t)k;
        int one = MPI_SUCCESS;
        if (k == root && of.bytes) memcpy(part, own, of.bytes);
        else if (k != root) one = um_collect_receive(in, k, part, of.bytes);
        if (code == MPI_SUCCESS) code = one;
    }
    if (code == MPI_SUCCESS) code = um_fold_parts(&of, in->size - 1, of.result + VERDICT);
    if (code == MPI_SUCCESS) um_deliver(&of, of.result + VERDICT, recvbuf);
    return finish(&of, code);
}

/* Position 0 gives each its prefix, up to its own part or to the one before. */
static int scan(const void *sendbuf, void *recvbuf, struct reduction *of, bool is_exclusive) {
    struct comm *in = of->comm;
    int code = um_gather_all(in, um_own_part(of, sendbuf, recvbuf), of->bytes, of->parts), told = MPI_SUCCESS;
    int64_t verdict = code;
    for (int k = in->size - 1; k >= 0 && in->position == 0; k--) {
        bool has_none = is_exclusive && k == 0;
        memset(of->result + VERDICT, 0, of->bytes);
        if (verdict == MPI_SUCCESS && !has_none) verdict = um_fold_parts(of, is_exclusive ? k - 1 : k, of->result + VERDICT);
        memset(of->result, 0, VERDICT);
        memcpy(of->result, &verdict, sizeof verdict);
        if (k) told = um_collect_send(in, k, of->result, VERDICT + of->bytes);
        if (told != MPI_SUCCESS && code == MPI_SUCCESS) code = told;
    }
    if (in->position) code = um_collect_receive(in, 0, of->result, VERDICT + of->bytes);
    memcpy(&verdict, of->result, sizeof verdict);
    if (code == MPI_SUCCESS) code = (int)verdict;
    if (code == MPI_SUCCESS && !(is_exclusive && in->position == 0)) um_deliver(of, of->result + VERDICT, recvbuf);
    return code;
}

int MPI_Scan(const void *sendbuf, void *recvbuf, int count, MPI_Datatype type, MPI_Op op, MPI_Comm comm) {
    struct comm *in = um_comm_at(comm);
    struct reduction of = {.comm = in, .count = count, .type = type, .op = op};
    ENTER(in, MPI_UNDEFINED, MPI_UNDEFINED);
    int code = begin(&of, sendbuf, recvbuf, true);
    return finish(&of, code != MPI_SUCCESS ? code : scan(sendbuf, recvbuf, &of, false));
}

int MPI_Exscan(const void *sendbuf, void *recvbuf, int count, MPI_Datatype type, MPI_Op op, MPI_Comm comm) {
    struct comm *in = um_comm_at(comm);
    struct reduction of = {.comm = in, .count = count, .type = type, .op = op};
    ENTER(in, MPI_UNDEFINED, MPI_UNDEFINED);
    int code = begin(&of, sendbuf, recvbuf, !in || in->position > 0 || sendbuf == MPI_IN_PLACE);
    return finish(&of, code != MPI_SUCCESS ? code : scan(sendbuf, recvbuf, &of, true));
}

/* Which elements of the result this rank gets: `counts[k]` are for each, or `count`. */
void um_take_own_elements(struct reduction *of, const int counts[], int count) {
    of->is_scattered = true;
    of->own = counts ? counts[of->comm->position] : count;
    for (int k = 0; k < of->comm->position; k++) of->before += counts ? counts[k] : count;
}

/* Delivers those elements, or all. */
void um_deliver_own_elements(struct reduction *of, void *recvbuf) {
    ptrdiff_t each = extent_of(um_type_at(of->type));
    if (of->is_scattered) of->bytes = (size_t)(each * of->own), of->count = of->own;
    um_deliver(of, of->result + VERDICT + each * of->before, recvbuf);
}

/* Position 0 tells all the result, of which each takes its own elements. */
static int reduce_scatter(const void *sendbuf, void *recvbuf, struct reduction *of) {
    struct comm *in = of->comm;
    int code = um_gather_all(in, um_own_part(of, sendbuf, recvbuf), of->bytes, of->parts);
    if (in->position == 0 && code == MPI_SUCCESS) code = um_fold_parts(of, in->size - 1, of->result + VERDICT);
    else memset(of->result + VERDICT, 0, of->bytes);
    code = um_spread_verdict(in, code, of->result, of->bytes);
    if (code == MPI_SUCCESS) um_deliver_own_elements(of, recvbuf);
    return code;
}

int MPI_Reduce_scatter_block(const void *sendbuf, void *recvbuf, int count, MPI_Datatype type, MPI_Op op, MPI_Comm comm) {
    struct comm *in = um_comm_at(comm);
    struct reduction of = {.comm = in, .count = in && count > 0 ? count * in->size : count, .type = type, .op = op};
    ENTER(in, MPI_UNDEFINED, MPI_UNDEFINED);
    int code = begin(&of, sendbuf, recvbuf, true);
    if (code == MPI_SUCCESS) um_take_own_elements(&of, 0, count);
    return finish(&of, code != MPI_SUCCESS ? code : reduce_scatter(sendbuf, recvbuf, &of));
}

/* How many elements all get, or why that can't be. */
int um_sum_of_counts(const int counts[], struct comm *comm, int *sum) {
    if (!comm) return MPI_ERR_COMM;
    if (!counts) return um_refuse_collective(comm, MPI_ERR_ARG);
    *sum = 0;
    for (int k = 0; k < comm->size; k++) {
        if (counts[k] < 0) return um_refuse_collective(comm, MPI_ERR_COUNT);
        *sum += counts[k];
    }
    return MPI_SUCCESS;
}

int MPI_Reduce_scatter(const void *sendbuf, void *recvbuf, const int counts[], MPI_Datatype type, MPI_Op op, MPI_Comm comm) {
    struct comm *in = um_comm_at(comm);
    struct reduction of = {.comm = in, .type = type, .op = op};
    ENTER(in, MPI_UNDEFINED, MPI_UNDEFINED);
    int code = um_sum_of_counts(counts, in, &of.count);
    if (code == MPI_SUCCESS) code = begin(&of, sendbuf, recvbuf, counts[in->position] > 0 || sendbuf == MPI_IN_PLACE);
    if (code == MPI_SUCCESS) um_take_own_elements(&of, counts, 0);
    return finish(&of, code != MPI_SUCCESS ? code : reduce_scatter(sendbuf, recvbuf, &of));
}
