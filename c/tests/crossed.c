/* Communicators that are made at the same time, in another order at each member. For 2 or more ranks; by its word one of the ways alone. */
#include "check.h"
#include <signal.h>

static int rank, size;
static MPI_Comm world = MPI_COMM_WORLD;

/* Each is a communicator of its own, of all. */
static void use(MPI_Comm comm[2]) {
    int own = rank, sum, got[2];
    MPI_Request requests[2];
    for (int k = 0; k < 2; k++) MPI_Irecv(&got[k], 1, MPI_INT, (rank + size - 1) % size, 5, comm[k], &requests[k]);
    for (int k = 1; k >= 0; k--) MPI_Send(&k, 1, MPI_INT, (rank + 1) % size, 5, comm[k]);
    MPI_Waitall(2, requests, MPI_STATUSES_IGNORE);
    for (int k = 0; k < 2; k++) {
        MPI_Allreduce(&own, &sum, 1, MPI_INT, MPI_SUM, comm[k]);
        CHECK(got[k] == k && sum == size * (size - 1) / 2);
        MPI_Comm_free(&comm[k]);
    }
}

/* The first rank begins with one parent, the others with the other one; with `waits` these have it before they begin the second. */
static void parents(int waits) {
    MPI_Comm of[2] = {world}, made[2];
    MPI_Request requests[2];
    MPI_Comm_dup(world, &of[1]);
    int first = rank > 0;
    CHECK(MPI_Comm_idup(of[first], &made[first], &requests[0]) == MPI_SUCCESS);
    if (waits && first) CHECK(MPI_Wait(&requests[0], MPI_STATUS_IGNORE) == MPI_SUCCESS);
    CHECK(MPI_Comm_idup(of[!first], &made[!first], &requests[1]) == MPI_SUCCESS);
    CHECK(MPI_Waitall(2, requests, MPI_STATUSES_IGNORE) == MPI_SUCCESS);
    use(made);
    MPI_Comm_free(&of[1]);
}

/* A call that blocks is before a duplicate at one rank and behind it at the others. */
static void blocks(void) {
    MPI_Comm made[2];
    MPI_Group all;
    MPI_Request request = MPI_REQUEST_NULL;
    MPI_Comm_group(world, &all);
    if (rank > 0) MPI_Comm_idup(world, &made[0], &request);
    CHECK(MPI_Comm_create_group(world, all, 3, &made[1]) == MPI_SUCCESS);
    if (rank == 0) MPI_Comm_idup(world, &made[0], &request);
    CHECK(MPI_Wait(&request, MPI_STATUS_IGNORE) == MPI_SUCCESS);
    use(made);
    MPI_Group_free(&all);
}

/* Each pair of neighbours has a communicator, and each rank is the first of one and the second of another one. With 4 ranks each pair has one plane left. */
static void pairs(void) {
    MPI_Comm of[2], made[2];
    MPI_Request requests[2];
    for (int k = 0; k < size; k++) {
        int is_in = rank == k || rank == (k + 1) % size;
        MPI_Comm_split(world, is_in ? 0 : MPI_UNDEFINED, rank == k ? 0 : 1, is_in ? &of[rank != k] : &made[0]);
    }
    for (int k = 0; k < 2; k++) CHECK(MPI_Comm_idup(of[k], &made[k], &requests[k]) == MPI_SUCCESS);
    CHECK(MPI_Waitall(2, requests, MPI_STATUSES_IGNORE) == MPI_SUCCESS);
    int own = rank, sums[2];
    for (int k = 0; k < 2; k++) MPI_Iallreduce(&own, &sums[k], 1, MPI_INT, MPI_SUM, made[k], &requests[k]);
    MPI_Waitall(2, requests, MPI_STATUSES_IGNORE);
    for (int k = 0; k < 2; k++) {
        CHECK(sums[k] == rank + (rank + (k ? size - 1 : 1)) % size);
        MPI_Comm_free(&made[k]);
        MPI_Comm_free(&of[k]);
    }
}

/* Waits for a duplicate: it is there, or a member failed. */
static int is_made(const MPI_Comm *made, MPI_Request *request) {
    int code = class_of(MPI_Wait(request, MPI_STATUS_IGNORE));
    CHECK(code == MPI_SUCCESS ? *made != MPI_COMM_NULL : code == MPIX_ERR_PROC_FAILED && *made == MPI_COMM_NULL);
    return code == MPI_SUCCESS;
}

/* A rank may stop anywhere, by plan, or the last one before it begins the second: no request is open for ever, and what is left can be duplicated. */
static void failure(int is_planned) {
    MPI_Comm of[2] = {world, MPI_COMM_NULL}, made[2], left;
    MPI_Request requests[2];
    int first = rank > 0, have_all = MPI_Comm_dup(world, &of[1]) == MPI_SUCCESS;
    MPIX_Comm_agree(world, &have_all);
    if (have_all) {
        MPI_Comm_idup(of[first], &made[first], &requests[first]);
        if (!is_planned && rank == size - 1) raise(SIGKILL);
        MPI_Comm_idup(of[!first], &made[!first], &requests[!first]);
        for (int k = 0; k < 2; k++) have_all &= is_made(&made[k], &requests[k]);
        CHECK(is_planned || !have_all);
    }
    MPIX_Comm_shrink(world, &left);
    MPI_Comm_idup(left, &made[0], &requests[0]);
    have_all = is_made(&made[0], &requests[0]);
    MPIX_Comm_agree(left, &have_all);
    if (have_all) MPI_Barrier(made[0]);
}

int main(int argc, char **argv) {
    MPI_Init(&argc, &argv);
    MPI_Comm_rank(world, &rank);
    MPI_Comm_size(world, &size);
    MPI_Comm_set_errhandler(world, MPI_ERRORS_RETURN);
    const char *way = argc > 1 ? argv[1] : "";
    for (int k = 0; k < (*way ? 1 : 3); k++) {
        if (!*way || !strcmp(way, "parents")) parents(0);
        if (!*way || !strcmp(way, "waits")) parents(1);
        if (!*way || !strcmp(way, "blocks")) blocks();
        if (size == 4 && (!*way || !strcmp(way, "pairs"))) pairs();
    }
    if (!strcmp(way, "failure") || !strcmp(way, "stops")) failure(!strcmp(way, "stops"));
    if (rank == 0) printf("faults: %d\n", faults);
    MPI_Finalize();
    return faults != 0;
}
