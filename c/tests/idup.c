/* Duplicates that don't block: two at a time, before one that blocks, on planes that were used before, and where a member fails. For 3 or more ranks. */
#include "check.h"
#include <signal.h>

static int rank, size;
static MPI_Comm world = MPI_COMM_WORLD;

/* Each of these is a communicator of its own. */
static void use(MPI_Comm comm[], int count) {
    int own = rank, sum, got[8];
    MPI_Request requests[8];
    for (int k = 0; k < count; k++) MPI_Irecv(&got[k], 1, MPI_INT, (rank + size - 1) % size, 5, comm[k], &requests[k]);
    for (int k = count - 1; k >= 0; k--) MPI_Send(&k, 1, MPI_INT, (rank + 1) % size, 5, comm[k]);
    MPI_Waitall(count, requests, MPI_STATUSES_IGNORE);
    for (int k = 0; k < count; k++) {
        MPI_Allreduce(&own, &sum, 1, MPI_INT, MPI_SUM, comm[k]);
        CHECK(got[k] == k && sum == size * (size - 1) / 2);
    }
}

static void several(void) {
    MPI_Comm made[3], grid, topology;
    MPI_Request requests[2];
    int coords[1], kind;
    CHECK(MPI_Comm_idup(world, &made[0], &requests[0]) == MPI_SUCCESS && MPI_Comm_idup_with_info(world, MPI_INFO_NULL, &made[1], &requests[1]) == MPI_SUCCESS);
    CHECK(MPI_Comm_dup(world, &made[2]) == MPI_SUCCESS && MPI_Waitall(2, requests, MPI_STATUSES_IGNORE) == MPI_SUCCESS);
    use(made, 3);
    MPI_Comm_free(&made[1]);
    CHECK(MPI_Comm_idup(made[0], &made[1], &requests[0]) == MPI_SUCCESS);
    MPI_Comm_free(&made[0]);
    CHECK(MPI_Wait(&requests[0], MPI_STATUS_IGNORE) == MPI_SUCCESS);
    use(made + 1, 2);
    MPI_Comm_free(&made[1]);
    MPI_Comm_free(&made[2]);
    MPI_Cart_create(world, 1, &size, (int[]){0}, 0, &grid);
    MPI_Comm_idup(grid, &topology, &requests[0]);
    MPI_Wait(&requests[0], MPI_STATUS_IGNORE);
    MPI_Topo_test(topology, &kind);
    CHECK(kind == MPI_CART && MPI_Cart_coords(topology, rank, 1, coords) == MPI_SUCCESS && coords[0] == rank);
    MPI_Comm_free(&grid);
    MPI_Comm_free(&topology);
}

/* It has the attributes that were there when it was begun. */
static void attributes(void) {
    static int first = 1, second = 2;
    MPI_Comm made;
    MPI_Request request;
    int key, flag;
    void *value;
    MPI_Comm_create_keyval(MPI_COMM_DUP_FN, MPI_COMM_NULL_DELETE_FN, &key, 0);
    MPI_Comm_set_attr(world, key, &first);
    MPI_Comm_idup(world, &made, &request);
    MPI_Comm_set_attr(world, key, &second);
    MPI_Wait(&request, MPI_STATUS_IGNORE);
    CHECK(MPI_Comm_get_attr(made, key, &value, &flag) == MPI_SUCCESS && flag && value == &first);
    MPI_Comm_delete_attr(world, key);
    MPI_Comm_free(&made);
    MPI_Comm_free_keyval(&key);
}

static void failure(void) {
    MPI_Comm made = MPI_COMM_WORLD, left;
    MPI_Request request;
    MPI_Barrier(world);
    if (rank == 1) raise(SIGKILL);
    MPI_Comm_idup(world, &made, &request);
    CHECK(class_of(MPI_Wait(&request, MPI_STATUS_IGNORE)) == MPIX_ERR_PROC_FAILED && made == MPI_COMM_NULL);
    MPIX_Comm_shrink(world, &left);
    MPI_Comm_idup(left, &made, &request);
    CHECK(MPI_Wait(&request, MPI_STATUS_IGNORE) == MPI_SUCCESS && MPI_Barrier(made) == MPI_SUCCESS);
    MPI_Comm_free(&made);
    MPI_Comm_free(&left);
}

int main(int argc, char **argv) {
    MPI_Request request;
    MPI_Comm made;
    MPI_Init(&argc, &argv);
    MPI_Comm_rank(world, &rank);
    MPI_Comm_size(world, &size);
    MPI_Comm_set_errhandler(world, MPI_ERRORS_RETURN);
    CHECK(class_of(MPI_Comm_idup(world, 0, &request)) == MPI_ERR_ARG && class_of(MPI_Comm_idup(world, &made, 0)) == MPI_ERR_ARG);
    MPI_Comm_idup(MPI_COMM_SELF, &made, &request);
    CHECK(MPI_Wait(&request, MPI_STATUS_IGNORE) == MPI_SUCCESS && MPI_Barrier(made) == MPI_SUCCESS);
    MPI_Comm_free(&made);
    for (int k = 0; k < 3; k++) several();
    attributes();
    failure();
    if (rank == 0) printf("faults: %d\n", faults);
    MPI_Finalize();
    return faults != 0;
}
