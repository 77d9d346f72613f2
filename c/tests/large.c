/* Counts that an int doesn't hold: of data that take no room, and of types; the same calls with small counts have their data. For 2 or more ranks. */
#include "check.h"
#include <limits.h>
#include <setjmp.h>

static const MPI_Count MANY = 3000000000;
static int rank, size;
static MPI_Comm world = MPI_COMM_WORLD;
static MPI_Datatype nothing;

static void messages(void) {
    int next = (rank + 1) % size, before = (rank + size - 1) % size, out[2] = {rank, 7}, in[2];
    MPI_Status status;
    MPI_Request requests[2];
    MPI_Count count;
    MPI_Sendrecv_c(out, 2, MPI_INT, next, 1, in, 2, MPI_INT, before, 1, world, &status);
    MPI_Get_count_c(&status, MPI_INT, &count);
    CHECK(in[0] == before && in[1] == 7 && count == 2);
    MPI_Irecv_c(in, MANY, nothing, before, 2, world, &requests[0]);
    MPI_Isend_c(out, MANY, nothing, next, 2, world, &requests[1]);
    CHECK(MPI_Waitall(2, requests, MPI_STATUSES_IGNORE) == MPI_SUCCESS);
    MPI_Send_init_c(out, MANY, nothing, next, 3, world, &requests[0]);
    MPI_Start(&requests[0]);
    CHECK(MPI_Recv_c(in, MANY, nothing, before, 3, world, &status) == MPI_SUCCESS);
    MPI_Wait(&requests[0], MPI_STATUS_IGNORE);
    MPI_Request_free(&requests[0]);
    CHECK(class_of(MPI_Send_c(out, -1, MPI_INT, next, 4, world)) == MPI_ERR_COUNT && class_of(MPI_Send_c(out, MANY, MPI_INT, size, 4, world)) == MPI_ERR_RANK);
}

static void collectives(void) {
    int own = rank, all[8], sum = 0;
    MPI_Request request;
    MPI_Allgather_c(&own, 1, MPI_INT, all, 1, MPI_INT, world);
    for (int k = 0; k < size; k++) CHECK(all[k] == k);
    CHECK(MPI_Bcast_c(all, MANY, nothing, 0, world) == MPI_SUCCESS && MPI_Gather_c(&own, MANY, nothing, all, MANY, nothing, 1, world) == MPI_SUCCESS);
    MPI_Iallreduce_c(&own, &sum, 1, MPI_INT, MPI_SUM, world, &request);
    MPI_Wait(&request, MPI_STATUS_IGNORE);
    CHECK(sum == size * (size - 1) / 2 && class_of(MPI_Allreduce_c(&own, &sum, MANY, MPI_INT, MPI_SUM, world)) == MPI_ERR_COUNT);
    MPI_Barrier(world);
}

/* Lists of counts and displacements. */
static void lists(void) {
    int own[16], all[64], sum[2], wanted = 0;
    MPI_Count counts[8];
    MPI_Aint displs[8];
    MPI_Request request;
    for (int k = 0; k < 16; k++) own[k] = 100 * rank + k;
    for (int k = 0; k < size; k++) counts[k] = 2, displs[k] = 2 * k;
    MPI_Allgatherv_c(own, 2, MPI_INT, all, counts, displs, MPI_INT, world);
    for (int k = 0; k < 2 * size; k++) CHECK(all[k] == 100 * (k / 2) + k % 2);
    MPI_Ialltoallv_c(own, counts, displs, MPI_INT, all, counts, displs, MPI_INT, world, &request);
    MPI_Wait(&request, MPI_STATUS_IGNORE);
    for (int k = 0; k < 2 * size; k++) CHECK(all[k] == 100 * (k / 2) + 2 * rank + k % 2);
    MPI_Gatherv_c(own, 2, MPI_INT, all, rank ? 0 : counts, rank ? 0 : displs, MPI_INT, 0, world);
    for (int k = 0; k < 2 * size && rank == 0; k++) CHECK(all[k] == 100 * (k / 2) + k % 2);
    MPI_Scatterv_c(own, rank ? 0 : counts, rank ? 0 : displs, MPI_INT, all, 2, MPI_INT, 0, world);
    CHECK(all[0] == 2 * rank && all[1] == 2 * rank + 1);
    MPI_Reduce_scatter_c(own, sum, counts, MPI_INT, MPI_SUM, world);
    for (int k = 0; k < size; k++) wanted += 100 * k + 2 * rank;
    CHECK(sum[0] == wanted);
    counts[0] = MANY;
    CHECK(class_of(MPI_Allgatherv_c(own, 2, MPI_INT, all, counts, displs, MPI_INT, world)) == MPI_ERR_COUNT);
}

static void types(void) {
    MPI_Datatype many, listed, all;
    MPI_Count bytes, lower, extent, count;
    MPI_Status status;
    MPI_Type_contiguous_c(MANY, MPI_INT, &many);
    MPI_Type_size_c(many, &bytes);
    MPI_Type_get_extent_c(many, &lower, &extent);
    CHECK(bytes == 4 * MANY && lower == 0 && extent == bytes);
    MPI_Type_indexed_c(2, (MPI_Count[]){MANY, 1}, (MPI_Count[]){0, 2 * MANY}, MPI_DOUBLE, &listed);
    MPI_Type_get_true_extent_c(listed, &lower, &extent);
    CHECK(lower == 0 && extent == 16 * MANY + 8);
    MPI_Type_create_struct_c(2, (MPI_Count[]){1, MANY}, (MPI_Count[]){0, 8}, (MPI_Datatype[]){MPI_CHAR, MPI_DOUBLE}, &all);
    MPI_Type_size_c(all, &bytes);
    CHECK(bytes == 8 * MANY + 1);
    MPI_Status_set_elements_c(&status, MPI_INT, MANY);
    MPI_Get_elements_c(&status, MPI_INT, &count);
    CHECK(count == MANY);
    MPI_Type_free(&many);
    MPI_Type_free(&listed);
    MPI_Type_free(&all);
}

/* Collectives that are started, and those among neighbours. */
static void started(void) {
    int own[16], all[64], before = (rank + size - 1) % size, next = (rank + 1) % size, pair[2];
    MPI_Count counts[8], ones[2] = {1, 1};
    MPI_Aint displs[8], places[2] = {0, 1};
    MPI_Request requests[4];
    MPI_Comm ring;
    for (int k = 0; k < 16; k++) own[k] = 100 * rank + k;
    for (int k = 0; k < size; k++) counts[k] = 1, displs[k] = k;
    MPI_Cart_create(world, 1, &size, (int[]){1}, 0, &ring);
    MPI_Allgatherv_init_c(own, 1, MPI_INT, all, counts, displs, MPI_INT, world, MPI_INFO_NULL, &requests[0]);
    MPI_Bcast_init_c(own, MANY, nothing, 1, world, MPI_INFO_NULL, &requests[1]);
    MPI_Neighbor_alltoallv_init_c(own, ones, places, MPI_INT, pair, ones, places, MPI_INT, ring, MPI_INFO_NULL, &requests[2]);
    MPI_Allreduce_init_c(own, all + 32, MANY, MPI_INT, MPI_SUM, world, MPI_INFO_NULL, &requests[3]);
    for (int round = 0; round < 2; round++) {
        CHECK(MPI_Startall(3, requests) == MPI_SUCCESS && MPI_Waitall(3, requests, MPI_STATUSES_IGNORE) == MPI_SUCCESS);
        for (int k = 0; k < size; k++) CHECK(all[k] == 100 * k);
        CHECK(pair[0] == 100 * before + 1 && pair[1] == 100 * next);
    }
    CHECK(class_of(MPI_Start(&requests[3])) == MPI_ERR_COUNT);
    for (int k = 0; k < 4; k++) MPI_Request_free(&requests[k]);
    MPI_Neighbor_allgather_c(own, 1, MPI_INT, pair, 1, MPI_INT, ring);
    CHECK(pair[0] == 100 * before && pair[1] == 100 * next);
    MPI_Ineighbor_alltoallw_c(own, ones, (MPI_Aint[]){4, 0}, (MPI_Datatype[]){MPI_INT, MPI_INT}, pair, ones, (MPI_Aint[]){0, 4},
                              (MPI_Datatype[]){MPI_INT, MPI_INT}, ring, requests);
    MPI_Wait(requests, MPI_STATUS_IGNORE);
    CHECK(pair[0] == 100 * before && pair[1] == 100 * next + 1);
    ones[1] = MANY;
    CHECK(class_of(MPI_Neighbor_allgatherv_c(own, 1, MPI_INT, pair, ones, places, MPI_INT, ring)) == MPI_ERR_COUNT);
    MPI_Barrier(ring);
    MPI_Comm_free(&ring);
}

static void packed(void) {
    double own[2] = {rank + 0.5, 7}, back[2] = {0, 0};
    char bytes[64];
    MPI_Count position = 0, size_there, last;
    MPI_Pack_c(own, 2, MPI_DOUBLE, bytes, sizeof bytes, &position, world);
    MPI_Pack_c(own, MANY, nothing, bytes, sizeof bytes, &position, world);
    CHECK(position == 16 && MPI_Pack_size_c(MANY, MPI_DOUBLE, world, &size_there) == MPI_SUCCESS && size_there == 8 * MANY);
    CHECK(class_of(MPI_Pack_c(own, 2, MPI_DOUBLE, bytes, 31, &position, world)) == MPI_ERR_TRUNCATE && position == 16);
    position = 0;
    MPI_Unpack_c(bytes, 16, &position, back, 2, MPI_DOUBLE, world);
    CHECK(position == 16 && back[0] == own[0] && back[1] == 7);
    position = last = 0;
    MPI_Pack_external_c("external32", own, 2, MPI_DOUBLE, bytes, sizeof bytes, &position);
    MPI_Unpack_external_c("external32", bytes, position, &last, back, 1, MPI_DOUBLE);
    CHECK(position == 16 && last == 8 && back[0] == own[0] && MPI_Pack_external_size_c("external32", MANY, MPI_LONG, &size_there) == MPI_SUCCESS && size_there == 4 * MANY);
    MPI_Buffer_attach_c(bytes, MANY);
    MPI_Buffer_detach_c(&(void *){0}, &size_there);
    CHECK(size_there == MANY);
}

/* Blocks of one length, parts of arrays, and how they aren't told. */
static void parts(void) {
    MPI_Datatype listed, part, mine;
    MPI_Count bytes, lower, extent, counts[4];
    int combiner, ints[8];
    MPI_Datatype of[1];
    MPI_Type_create_indexed_block_c(2, 3, (MPI_Count[]){0, MANY}, MPI_INT, &listed);
    MPI_Type_get_true_extent_c(listed, &lower, &extent);
    CHECK(lower == 0 && extent == 4 * MANY + 12);
    MPI_Type_free(&listed);
    MPI_Type_create_hindexed_block_c(2, 3, (MPI_Count[]){8, MANY}, MPI_INT, &listed);
    MPI_Type_get_true_extent_c(listed, &lower, &extent);
    CHECK(lower == 8 && extent == MANY + 4);
    MPI_Type_create_subarray_c(2, (MPI_Count[]){2, MANY}, (MPI_Count[]){1, 5}, (MPI_Count[]){1, MANY - 5}, MPI_ORDER_C, MPI_INT, &part);
    MPI_Type_get_true_extent_c(part, &lower, &extent);
    CHECK(lower == 8 * MANY - 20 && extent == 20);
    MPI_Type_get_extent_c(part, &lower, &extent);
    CHECK(lower == 0 && extent == 8 * MANY);
    MPI_Type_create_darray_c(2, 1, 1, (MPI_Count[]){2 * MANY}, (int[]){MPI_DISTRIBUTE_BLOCK}, (int[]){MPI_DISTRIBUTE_DFLT_DARG}, (int[]){2}, MPI_ORDER_C, MPI_INT,
                             &mine);
    MPI_Type_size_c(mine, &bytes);
    MPI_Type_get_true_extent_c(mine, &lower, &extent);
    CHECK(bytes == 4 * MANY && lower == 4 * MANY && extent == bytes);
    MPI_Type_free(&listed);
    MPI_Type_free(&part);
    MPI_Type_free(&mine);
    MPI_Type_vector(2, 3, 4, MPI_INT, &part);
    MPI_Type_get_envelope_c(part, &counts[0], &counts[1], &counts[2], &counts[3], &combiner);
    CHECK(counts[0] == 3 && counts[1] == 0 && counts[2] == 0 && counts[3] == 1 && combiner == MPI_COMBINER_VECTOR);
    MPI_Type_get_contents_c(part, 8, 0, 0, 1, ints, 0, 0, of);
    CHECK(ints[0] == 2 && ints[1] == 3 && ints[2] == 4 && of[0] == MPI_INT);
    MPI_Type_free(&part);
}

static void add(void *in, void *into, MPI_Count *count, MPI_Datatype *type) {
    (void)type;
    for (MPI_Count k = 0; k < *count; k++) ((int *)into)[k] += ((int *)in)[k];
}

static void operations(void) {
    int own[2] = {rank, 1}, sum[2] = {5, 6};
    MPI_Op op;
    MPI_Op_create_c(add, 1, &op);
    MPI_Reduce_local_c(own, sum, 2, MPI_INT, op);
    CHECK(sum[0] == 5 + rank && sum[1] == 7 && class_of(MPI_Reduce_local_c(own, sum, MANY, MPI_INT, op)) == MPI_ERR_COUNT);
    MPI_Allreduce_c(own, sum, 2, MPI_INT, op, world);
    CHECK(sum[0] == size * (size - 1) / 2 && sum[1] == size);
    MPI_Op_free(&op);
}

static jmp_buf back;

static void jump(MPI_Comm *comm, int *code, ...) {
    (void)comm, (void)code;
    longjmp(back, 1);
}

/* A handler that jumps out of such a call leaves nothing behind: the next ones count as ever. */
static void jumps(void) {
    MPI_Errhandler handler;
    int value = rank, all = 0;
    MPI_Comm_create_errhandler(jump, &handler);
    MPI_Comm_set_errhandler(world, handler);
    if (setjmp(back) == 0) MPI_Send_c(&value, 1, MPI_INT, size, 0, world);
    MPI_Comm_set_errhandler(world, MPI_ERRORS_RETURN);
    MPI_Allreduce(&value, &all, 1, MPI_INT, MPI_SUM, world);
    CHECK(all == size * (size - 1) / 2);
    MPI_Errhandler_free(&handler);
}

int main(int argc, char **argv) {
    int all = 0;
    MPI_Init(&argc, &argv);
    MPI_Comm_rank(world, &rank);
    MPI_Comm_size(world, &size);
    MPI_Comm_set_errhandler(world, MPI_ERRORS_RETURN);
    MPI_Type_contiguous(0, MPI_INT, &nothing);
    MPI_Type_commit(&nothing);
    messages();
    collectives();
    lists();
    types();
    started();
    packed();
    parts();
    operations();
    jumps();
    MPI_Type_free(&nothing);
    MPI_Reduce(&faults, &all, 1, MPI_INT, MPI_SUM, 0, world);
    if (rank == 0) printf("faults: %d\n", all);
    MPI_Finalize();
    return faults != 0;
}
