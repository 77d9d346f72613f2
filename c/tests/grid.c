/* Cartesian topologies and scattered reductions; what it prints is the same with each MPI. For 4 ranks or more. */
#include "check.h"

static int rank, size;
static MPI_Comm world = MPI_COMM_WORLD;

/* Sums of rows and columns, and a halo along each dimension of a grid whose second dimension is periodic. */
static void grid(void) {
    int dims[2] = {0, 2}, periods[2] = {0, 1}, got[2], wraps[2], coords[2], x, sum, from, to, kind, number;
    MPI_Comm all, row, dup;
    MPI_Dims_create(size / 2 * 2, 2, dims);
    MPI_Cart_create(world, 2, dims, periods, 0, &all);
    CHECK((all == MPI_COMM_NULL) == (rank >= size / 2 * 2));
    if (all == MPI_COMM_NULL) return;
    MPI_Cart_get(all, 2, got, wraps, coords);
    CHECK(got[0] == size / 2 && got[1] == 2 && !wraps[0] && wraps[1] && coords[0] == rank / 2 && coords[1] == rank % 2);
    MPI_Cart_shift(all, 0, 1, &from, &to);
    CHECK(from == (coords[0] ? rank - 2 : MPI_PROC_NULL) && to == (coords[0] < got[0] - 1 ? rank + 2 : MPI_PROC_NULL));
    x = -1;
    MPI_Sendrecv(&rank, 1, MPI_INT, to, 3, &x, 1, MPI_INT, from, 3, all, MPI_STATUS_IGNORE);
    CHECK(x == (coords[0] ? rank - 2 : -1));
    MPI_Cart_shift(all, 1, -3, &from, &to);
    CHECK(from == to && from == (rank ^ 1));
    coords[1] += 5;
    MPI_Cart_rank(all, coords, &number);
    CHECK(number == (rank ^ 1));
    coords[0] = got[0];
    CHECK(class_of(MPI_Cart_rank(all, coords, &number)) == MPI_ERR_ARG);
    for (int k = 0; k < 2; k++) {
        MPI_Cart_sub(all, k ? (int[]){1, 0} : (int[]){0, 1}, &row);
        MPI_Cartdim_get(row, &number);
        MPI_Allreduce(&rank, &sum, 1, MPI_INT, MPI_SUM, row);
        CHECK(number == 1 && sum == (k ? got[0] * (rank % 2) + got[0] * (got[0] - 1) : 4 * (rank / 2) + 1));
        MPI_Comm_free(&row);
    }
    MPI_Comm_dup(all, &dup);
    MPI_Topo_test(dup, &kind);
    CHECK(kind == MPI_CART);
    MPI_Comm_free(&dup);
    MPI_Comm_free(&all);
}

/* All share memory, but the last one doesn't want to. */
static void shared(void) {
    int members = 0, at = -1, is_last = rank == size - 1;
    MPI_Comm some;
    MPI_Comm_split_type(world, is_last ? MPI_UNDEFINED : MPI_COMM_TYPE_SHARED, -rank, MPI_INFO_NULL, &some);
    CHECK((some == MPI_COMM_NULL) == is_last);
    if (is_last) return;
    MPI_Comm_size(some, &members);
    MPI_Comm_rank(some, &at);
    CHECK(members == size - 1 && at == size - 2 - rank);
    MPI_Comm_free(&some);
}

static void scattered(void) {
    int in[36], out[8] = {0}, counts[8], total = 0, before = rank * (rank + 1) / 2;
    for (int k = 0; k < size; k++) counts[k] = k + 1, total += k + 1;
    for (int k = 0; k < total; k++) in[k] = rank + k;
    MPI_Reduce_scatter(in, out, counts, MPI_INT, MPI_SUM, world);
    for (int k = 0; k <= rank; k++) CHECK(out[k] == size * (size - 1) / 2 + size * (before + k));
    MPI_Reduce_scatter_block(in, out, 2, MPI_INT, MPI_MAX, world);
    CHECK(out[0] == size - 1 + 2 * rank && out[1] == size + 2 * rank);
    MPI_Reduce_scatter_block(MPI_IN_PLACE, in, 1, MPI_INT, MPI_MIN, world);
    CHECK(in[0] == rank);
}

/* As balanced as can be: what MPICH has of each number to 2,000, and of some large ones. */
static void divided(void) {
    unsigned hash = 0;
    for (int nodes = 1; nodes <= 20000; nodes += nodes < 2000 ? 1 : 97)
        for (int count = 2; count <= 4; count++) {
            int dims[4] = {0};
            MPI_Dims_create(nodes, count, dims);
            for (int k = 0; k < count; k++) hash = hash * 31 + (unsigned)dims[k];
        }
    if (rank == 0) printf("dims: %u\n", hash);
}

/* A group that isn't a part makes no communicator. */
static void outside(void) {
    MPI_Group all;
    MPI_Comm made = MPI_COMM_NULL;
    MPI_Comm_set_errhandler(MPI_COMM_SELF, MPI_ERRORS_RETURN);
    MPI_Comm_group(world, &all);
    CHECK(size == 1 || class_of(MPI_Comm_create(MPI_COMM_SELF, all, &made)) == MPI_ERR_GROUP);
    MPI_Group_free(&all);
}

int main(int argc, char **argv) {
    int all = 0, kind, dims[3] = {0, 0, 0};
    MPI_Init(&argc, &argv);
    MPI_Comm_rank(world, &rank);
    MPI_Comm_size(world, &size);
    MPI_Comm_set_errhandler(world, MPI_ERRORS_RETURN);
    MPI_Topo_test(world, &kind);
    CHECK(kind == MPI_UNDEFINED && class_of(MPI_Cartdim_get(world, &kind)) == MPI_ERR_TOPOLOGY);
    MPI_Dims_create(24, 3, dims);
    CHECK(dims[0] == 4 && dims[1] == 3 && dims[2] == 2);
    divided();
    outside();
    grid();
    shared();
    scattered();
    MPI_Reduce(&faults, &all, 1, MPI_INT, MPI_SUM, 0, world);
    if (rank == 0) printf("faults: %d\n", all);
    MPI_Finalize();
    return faults != 0;
}
