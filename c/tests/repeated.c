/* Collectives that are started as often as wanted, in another order at each rank, after their types were freed (MPI 4.0, 6.13): they give what those that block
   give. For 2 or more ranks. MPICH 4.0.2 does none of both. */
#include "check.h"

enum { ROUNDS = 3, MOST = 8, KINDS = 17 };
static int rank, size;
static MPI_Comm world = MPI_COMM_WORLD;

static void add(void *in, void *into, int *count, MPI_Datatype *type) {
    (void)type;
    for (int k = 0; k < *count; k++) ((int *)into)[k] += ((int *)in)[k];
}

static int out[KINDS][64], in[KINDS][64], wanted[KINDS][64], counts[MOST], displs[MOST], bytes[MOST];
static MPI_Datatype types[MOST];

/* What the collectives that block give of the same data. */
static void block(void) {
    MPI_Bcast(wanted[1], 2, MPI_INT, 1, world);
    MPI_Gather(out[2], 2, MPI_INT, wanted[2], 2, MPI_INT, 0, world);
    MPI_Gatherv(out[3], 2, MPI_INT, wanted[3], counts, displs, MPI_INT, 1, world);
    MPI_Scatter(out[4], 2, MPI_INT, wanted[4], 2, MPI_INT, 0, world);
    MPI_Scatterv(out[5], counts, displs, MPI_INT, wanted[5], 2, MPI_INT, 1, world);
    MPI_Allgather(out[6], 2, MPI_INT, wanted[6], 2, MPI_INT, world);
    MPI_Allgatherv(out[7], 2, MPI_INT, wanted[7], counts, displs, MPI_INT, world);
    MPI_Alltoall(out[8], 2, MPI_INT, wanted[8], 2, MPI_INT, world);
    MPI_Alltoallv(out[9], counts, displs, MPI_INT, wanted[9], counts, displs, MPI_INT, world);
    MPI_Alltoallw(out[10], counts, bytes, types, wanted[10], counts, bytes, types, world);
    MPI_Reduce(out[11], wanted[11], 2, MPI_INT, MPI_SUM, 0, world);
    MPI_Allreduce(out[12], wanted[12], 2, MPI_INT, MPI_SUM, world);
    MPI_Reduce_scatter_block(out[13], wanted[13], 2, MPI_INT, MPI_MAX, world);
    MPI_Reduce_scatter(out[14], wanted[14], counts, MPI_INT, MPI_SUM, world);
    MPI_Scan(out[15], wanted[15], 2, MPI_INT, MPI_SUM, world);
    MPI_Exscan(out[16], wanted[16], 2, MPI_INT, MPI_SUM, world);
}

static void make(MPI_Request all[]) {
    MPI_Info info = MPI_INFO_NULL;
    MPI_Datatype pair;
    MPI_Op op;
    MPI_Type_contiguous(2, MPI_INT, &pair);
    MPI_Type_commit(&pair);
    MPI_Op_create(add, 1, &op);
    MPI_Barrier_init(world, info, &all[0]);
    MPI_Bcast_init(in[1], 1, pair, 1, world, info, &all[1]);
    MPI_Gather_init(out[2], 2, MPI_INT, in[2], 1, pair, 0, world, info, &all[2]);
    MPI_Gatherv_init(out[3], 2, MPI_INT, in[3], counts, displs, MPI_INT, 1, world, info, &all[3]);
    MPI_Scatter_init(out[4], 1, pair, in[4], 2, MPI_INT, 0, world, info, &all[4]);
    MPI_Scatterv_init(out[5], counts, displs, MPI_INT, in[5], 1, pair, 1, world, info, &all[5]);
    MPI_Allgather_init(out[6], 1, pair, in[6], 1, pair, world, info, &all[6]);
    MPI_Allgatherv_init(out[7], 1, pair, in[7], counts, displs, MPI_INT, world, info, &all[7]);
    MPI_Alltoall_init(out[8], 2, MPI_INT, in[8], 1, pair, world, info, &all[8]);
    MPI_Alltoallv_init(out[9], counts, displs, MPI_INT, in[9], counts, displs, MPI_INT, world, info, &all[9]);
    MPI_Alltoallw_init(out[10], counts, bytes, types, in[10], counts, bytes, types, world, info, &all[10]);
    MPI_Reduce_init(out[11], in[11], 2, MPI_INT, MPI_SUM, 0, world, info, &all[11]);
    MPI_Allreduce_init(out[12], in[12], 2, MPI_INT, op, world, info, &all[12]);
    MPI_Reduce_scatter_block_init(out[13], in[13], 2, MPI_INT, MPI_MAX, world, info, &all[13]);
    MPI_Reduce_scatter_init(out[14], in[14], counts, MPI_INT, MPI_SUM, world, info, &all[14]);
    MPI_Scan_init(out[15], in[15], 2, MPI_INT, MPI_SUM, world, info, &all[15]);
    MPI_Exscan_init(out[16], in[16], 2, MPI_INT, MPI_SUM, world, info, &all[16]);
    MPI_Type_free(&pair);
    MPI_Op_free(&op);
}

/* Some rounds of all. */
static void rounds(void) {
    MPI_Request all[KINDS];
    for (int k = 0; k < MOST; k++) counts[k] = 2, displs[k] = 2 * k, bytes[k] = 8 * k, types[k] = MPI_INT;
    make(all);
    for (int round = 0; round < ROUNDS; round++) {
        for (int k = 0; k < KINDS; k++)
            for (int j = 0; j < 64; j++) out[k][j] = 100 * rank + 7 * k + j + round, in[k][j] = wanted[k][j] = k == 1 ? 1000 * rank + j + round : -1;
        for (int k = 0; k < KINDS; k++) MPI_Start(&all[round == 1 ? (k + 5 * rank) % KINDS : round == 2 && rank % 2 ? KINDS - 1 - k : k]);
        block();
        MPI_Waitall(KINDS, all, MPI_STATUSES_IGNORE);
        CHECK(!memcmp(in, wanted, sizeof in));
    }
    for (int k = 0; k < KINDS; k++) MPI_Request_free(&all[k]);
}

/* One after the other, and beside others of the same kind, many times. */
static void many(void) {
    int out[2] = {0}, in[2], total = 0;
    MPI_Request both[2];
    MPI_Allreduce_init(&out[0], &in[0], 1, MPI_INT, MPI_SUM, world, MPI_INFO_NULL, &both[0]);
    MPI_Allreduce_init(&out[1], &in[1], 1, MPI_INT, MPI_MAX, world, MPI_INFO_NULL, &both[1]);
    for (int k = 0; k < 5000; k++) {
        out[0] = k, out[1] = rank + k;
        if (k % 3 == rank % 3) MPI_Startall(2, both);
        else MPI_Start(&both[1]), MPI_Start(&both[0]);
        if (k % 7 == 0) MPI_Allreduce(&k, &total, 1, MPI_INT, MPI_SUM, world);
        MPI_Waitall(2, both, MPI_STATUSES_IGNORE);
        CHECK(in[0] == k * size && in[1] == size - 1 + k);
    }
    MPI_Request_free(&both[0]);
    MPI_Request_free(&both[1]);
}

static void refused(void) {
    int value = 0, flag = 0;
    MPI_Request request;
    MPI_Status status;
    CHECK(class_of(MPI_Barrier_init(MPI_COMM_NULL, MPI_INFO_NULL, &request)) == MPI_ERR_COMM);
    MPI_Bcast_init(&value, 1, MPI_INT, 0, world, MPI_INFO_NULL, &request);
    MPI_Test(&request, &flag, &status);   /* one that isn't active is over */
    CHECK(flag && request != MPI_REQUEST_NULL);
    MPI_Request_free(&request);
}

int main(int argc, char **argv) {
    int all = 0;
    MPI_Init(&argc, &argv);
    MPI_Comm_rank(world, &rank);
    MPI_Comm_size(world, &size);
    MPI_Comm_set_errhandler(world, MPI_ERRORS_RETURN);
    rounds();
    many();
    refused();
    MPI_Reduce(&faults, &all, 1, MPI_INT, MPI_SUM, 0, world);
    if (rank == 0) printf("faults: %d\n", all);
    MPI_Finalize();
    return faults != 0;
}
