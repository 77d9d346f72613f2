/* Wrong arguments, and the class that MPICH and Open MPI answer alike. */
#include "check.h"

#define REFUSED(class, call) CHECK(class_of(call) == class)

static int x[4], y[4], flag, count, rank, size;
static MPI_Comm world = MPI_COMM_WORLD, none = MPI_COMM_NULL, made;
static MPI_Request request;
static MPI_Status status;

static void messages(void) {
    REFUSED(MPI_ERR_COMM, MPI_Send(x, 1, MPI_INT, 0, 0, none));
    REFUSED(MPI_ERR_COUNT, MPI_Send(x, -1, MPI_INT, 0, 0, world));
    REFUSED(MPI_ERR_TYPE, MPI_Isend(x, 1, MPI_DATATYPE_NULL, 0, 0, world, &request));
    REFUSED(MPI_ERR_RANK, MPI_Ssend(x, 1, MPI_INT, size, 0, world));
    REFUSED(MPI_ERR_RANK, MPI_Send(x, 1, MPI_INT, MPI_ANY_SOURCE, 0, world));
    REFUSED(MPI_ERR_TAG, MPI_Recv(x, 1, MPI_INT, 0, -7, world, &status));
    REFUSED(MPI_ERR_BUFFER, MPI_Irecv(NULL, 1, MPI_INT, 0, 0, world, &request));
    REFUSED(MPI_ERR_RANK, MPI_Iprobe(size + 1, 0, world, &flag, &status));
    request = MPI_REQUEST_NULL;
    REFUSED(MPI_ERR_ARG, MPI_Test(&request, NULL, &status));
    REFUSED(MPI_ERR_ARG, MPI_Waitany(1, &request, NULL, &status));
    REFUSED(MPI_ERR_REQUEST, MPI_Cancel(&request));
    REFUSED(MPI_ERR_REQUEST, MPI_Request_free(&request));
}

static void collectives(void) {
    int counts[8] = {-1}, displs[8] = {0};
    REFUSED(MPI_ERR_COMM, MPI_Barrier(none));
    REFUSED(MPI_ERR_ROOT, MPI_Bcast(x, 1, MPI_INT, size, world));
    REFUSED(MPI_ERR_ROOT, MPI_Gather(x, 1, MPI_INT, y, 1, MPI_INT, -1, world));
    REFUSED(MPI_ERR_COUNT, MPI_Alltoall(x, -1, MPI_INT, y, 1, MPI_INT, world));
    REFUSED(MPI_ERR_COUNT, MPI_Allgatherv(x, 1, MPI_INT, y, counts, displs, MPI_INT, world));
    REFUSED(MPI_ERR_OP, MPI_Allreduce(x, y, 1, MPI_INT, MPI_OP_NULL, world));
    REFUSED(MPI_ERR_OP, MPI_Reduce(x, y, 1, MPI_DOUBLE, MPI_BXOR, 0, world));
    REFUSED(MPI_ERR_OP, MPI_Scan(x, y, 1, MPI_INT, MPI_MAXLOC, world));
    REFUSED(MPI_ERR_OP, MPI_Reduce_local(x, y, 1, MPI_2INT, MPI_SUM));
    REFUSED(MPI_ERR_OP, MPI_Allreduce(x, y, 1, MPI_INT, MPI_REPLACE, world));
    REFUSED(MPI_ERR_BUFFER, MPI_Allreduce(x, MPI_IN_PLACE, 1, MPI_INT, MPI_SUM, world));
}

static void unblocked(void) {
    int less[8] = {-1, -1, -1, -1, -1, -1, -1, -1}, ones[8] = {1, 1, 1, 1, 1, 1, 1, 1}, zeros[8] = {0};
    MPI_Datatype types[8], nulls[8], raw;
    for (int k = 0; k < 8; k++) types[k] = MPI_INT, nulls[k] = MPI_DATATYPE_NULL;
    MPI_Type_contiguous(2, MPI_INT, &raw);
    REFUSED(MPI_ERR_COMM, MPI_Ibarrier(none, &request));
    REFUSED(MPI_ERR_COMM, MPI_Iscan(x, y, 1, MPI_INT, MPI_SUM, none, &request));
    REFUSED(MPI_ERR_COUNT, MPI_Ibcast(x, -1, MPI_INT, 0, world, &request));
    REFUSED(MPI_ERR_TYPE, MPI_Ibcast(x, 1, raw, 0, world, &request));
    REFUSED(MPI_ERR_ROOT, MPI_Ireduce(x, y, 1, MPI_INT, MPI_SUM, size, world, &request));
    REFUSED(MPI_ERR_OP, MPI_Ireduce(x, y, 1, MPI_INT, MPI_MAXLOC, 0, world, &request));
    REFUSED(MPI_ERR_OP, MPI_Iallreduce(x, y, 1, MPI_DATATYPE_NULL, MPI_SUM, world, &request));
    REFUSED(MPI_ERR_OP, MPI_Ireduce_scatter_block(x, y, 1, MPI_INT, MPI_OP_NULL, world, &request));
    REFUSED(MPI_ERR_BUFFER, MPI_Iallreduce(x, MPI_IN_PLACE, 1, MPI_INT, MPI_SUM, world, &request));
    REFUSED(MPI_ERR_COUNT, MPI_Ireduce_scatter(x, y, less, MPI_INT, MPI_SUM, world, &request));
    REFUSED(MPI_ERR_ROOT, MPI_Igather(x, 1, MPI_INT, y, 1, MPI_INT, size, world, &request));
    REFUSED(MPI_ERR_TYPE, MPI_Iallgather(x, 1, MPI_INT, y, 1, MPI_DATATYPE_NULL, world, &request));
    REFUSED(MPI_ERR_COUNT, MPI_Ialltoallv(x, less, zeros, MPI_INT, y, ones, zeros, MPI_INT, world, &request));
    REFUSED(MPI_ERR_COUNT, MPI_Alltoallw(x, ones, zeros, types, y, less, zeros, types, world));
    REFUSED(MPI_ERR_TYPE, MPI_Alltoallw(x, ones, zeros, nulls, y, ones, zeros, types, world));
    REFUSED(MPI_ERR_TRUNCATE, MPI_Igather(x, 2, MPI_INT, y, 1, MPI_INT, 0, MPI_COMM_SELF, &request));
    REFUSED(MPI_ERR_TRUNCATE, MPI_Iscatter(x, 2, MPI_INT, y, 1, MPI_INT, 0, MPI_COMM_SELF, &request));
    CHECK(MPI_Ibcast(NULL, 0, MPI_INT, 0, world, &request) == MPI_SUCCESS && MPI_Wait(&request, &status) == MPI_SUCCESS);
    CHECK(MPI_Iallreduce(x, y, 1, MPI_INT, MPI_SUM, world, &request) == MPI_SUCCESS && MPI_Wait(&request, &status) == MPI_SUCCESS);
    CHECK(status.MPI_SOURCE == 0 && status.MPI_TAG == 0 && MPI_Get_count(&status, MPI_INT, &count) == MPI_SUCCESS && count == 0);
    MPI_Type_free(&raw);
}

/* Position 0 alone is wrong. Here what the others sent isn't taken for the next one's, as MPICH does. */
static void at_the_root(void) {
    int in = rank + 1, out = 0, code = MPI_Reduce(&in, rank ? &out : NULL, 1, MPI_INT, MPI_SUM, 0, world);
    CHECK(class_of(code) == (rank ? MPI_SUCCESS : MPI_ERR_BUFFER));
    MPI_Reduce(&rank, &out, 1, MPI_INT, MPI_SUM, 0, world);
    CHECK(rank || out == size * (size - 1) / 2);
    MPI_Barrier(world);
}

static void handles(void) {
    MPI_Group group, another;
    MPI_Datatype type = MPI_INT;
    MPI_Comm free_it = MPI_COMM_WORLD;
    int past[1] = {size};
    MPI_Comm_group(world, &group);
    REFUSED(MPI_ERR_COMM, MPI_Comm_rank(none, &flag));
    REFUSED(MPI_ERR_ARG, MPI_Comm_size(world, NULL));
    REFUSED(MPI_ERR_COMM, MPI_Comm_free(&free_it));
    REFUSED(MPI_ERR_TAG, MPI_Comm_create_group(world, group, -1, &made));
    REFUSED(MPI_ERR_GROUP, MPI_Comm_create(world, MPI_GROUP_NULL, &made));
    REFUSED(MPI_ERR_GROUP, MPI_Group_size(MPI_GROUP_NULL, &count));
    REFUSED(MPI_ERR_RANK, MPI_Group_incl(group, 1, past, &another));
    REFUSED(MPI_ERR_ARG, MPI_Group_range_incl(group, 1, (int[][3]){{1, 0, 1}}, &another));
    REFUSED(MPI_ERR_ARG, MPI_Group_range_excl(group, 1, (int[][3]){{0, 1, -3}}, &another));
    REFUSED(MPI_ERR_TYPE, MPI_Type_free(&type));
    REFUSED(MPI_ERR_TYPE, MPI_Type_size(MPI_DATATYPE_NULL, &count));
    REFUSED(MPI_ERR_COUNT, MPI_Type_contiguous(-1, MPI_INT, &type));
    REFUSED(MPI_ERR_ARG, MPI_Type_size(MPI_INT, NULL));
    MPI_Group_free(&group);
}

int main(int argc, char **argv) {
    MPI_Init(&argc, &argv);
    MPI_Comm_rank(world, &rank);
    MPI_Comm_size(world, &size);
    MPI_Comm_set_errhandler(world, MPI_ERRORS_RETURN);
    MPI_Comm_set_errhandler(MPI_COMM_SELF, MPI_ERRORS_RETURN);
    messages();
    collectives();
    unblocked();
    at_the_root();
    handles();
    printf("faults: %d\n", faults);
    MPI_Finalize();
    return faults != 0;
}
