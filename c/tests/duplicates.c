/* Recovery on duplicates, as often as on what was duplicated, and on communicators of one; and what a revocation of a duplicate leaves as it was.
   For 6 ranks, three of which fail. */
#include "check.h"
#include <signal.h>

static int rank;

/* The world isn't revoked with its duplicate: it can be duplicated and split again. */
static void revoked(void) {
    MPI_Comm revoked, again, part;
    int flag = 0, sum = 0;
    MPI_Comm_dup(MPI_COMM_WORLD, &revoked);
    if (rank == 0) MPIX_Comm_revoke(revoked);
    while (!flag) MPIX_Comm_is_revoked(revoked, &flag);
    CHECK(MPI_Comm_dup(MPI_COMM_WORLD, &again) == MPI_SUCCESS);
    CHECK(MPI_Allreduce(&flag, &sum, 1, MPI_INT, MPI_SUM, again) == MPI_SUCCESS && sum == 6);
    MPI_Comm_free(&revoked);
    CHECK(MPI_Comm_split(MPI_COMM_WORLD, rank % 2, 0, &part) == MPI_SUCCESS);
    CHECK(MPI_Allreduce(&flag, &sum, 1, MPI_INT, MPI_SUM, part) == MPI_SUCCESS && sum == 3);
    MPI_Comm_free(&again);
    MPI_Comm_free(&part);
}

/* A shrink of a communicator of one is one of it, also where that is revoked. */
static void alone(MPI_Comm comm) {
    MPI_Comm made[2];
    MPI_Request request;
    int sizes[2] = {0}, x = rank, y = -1, flag = -1;
    MPI_Comm_set_errhandler(comm, MPI_ERRORS_RETURN);
    CHECK(MPIX_Comm_revoke(comm) == MPI_SUCCESS);
    CHECK(MPIX_Comm_shrink(comm, &made[0]) == MPI_SUCCESS);
    CHECK(MPIX_Comm_ishrink(made[0], &made[1], &request) == MPI_SUCCESS && MPI_Wait(&request, MPI_STATUS_IGNORE) == MPI_SUCCESS);
    for (int k = 0; k < 2; k++) {
        MPI_Comm_size(made[k], &sizes[k]);
        CHECK(sizes[k] == 1 && MPIX_Comm_is_revoked(made[k], &flag) == MPI_SUCCESS && !flag);
        CHECK(MPI_Sendrecv(&x, 1, MPI_INT, 0, 1, &y, 1, MPI_INT, 0, 1, made[k], MPI_STATUS_IGNORE) == MPI_SUCCESS && y == rank);
        MPI_Comm_free(&made[k]);
    }
}

/* Works on a duplicate of what was shrunk, and shrinks the duplicate at the next failure. */
static void shrunk(void) {
    MPI_Comm works, made;
    int one = 1, sum = 0;
    CHECK(MPI_Comm_dup(MPI_COMM_WORLD, &works) == MPI_SUCCESS);
    for (int left = 5; left > 2; left--) {
        if (rank == left) raise(SIGKILL);
        if (MPI_Barrier(works)) MPIX_Comm_revoke(works);
        CHECK(MPIX_Comm_shrink(works, &made) == MPI_SUCCESS);
        MPI_Comm_free(&works);
        CHECK(MPI_Comm_dup(made, &works) == MPI_SUCCESS);
        MPI_Comm_free(&made);
        CHECK(MPI_Allreduce(&one, &sum, 1, MPI_INT, MPI_SUM, works) == MPI_SUCCESS && sum == left);
    }
    MPI_Comm_free(&works);
}

int main(int argc, char **argv) {
    MPI_Init(&argc, &argv);
    MPI_Comm_rank(MPI_COMM_WORLD, &rank);
    MPI_Comm_set_errhandler(MPI_COMM_WORLD, MPI_ERRORS_RETURN);
    MPI_Comm part;
    MPI_Comm_split(MPI_COMM_WORLD, rank, 0, &part);
    alone(part);
    MPI_Comm_free(&part);
    alone(MPI_COMM_SELF);
    revoked();
    shrunk();
    if (rank == 0) printf("faults: %d\n", faults);
    MPI_Finalize();
    return faults != 0;
}
