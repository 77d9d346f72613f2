/* Eight ranks, of which seven stop one after the other. Each stop is met by a revocation and a shrink of what is left, and all collectives go on. */
#include "check.h"
#include <signal.h>

/* The rank whose number among those that are left is the last one stops. */
static MPI_Comm lose_one(MPI_Comm comm) {
    MPI_Comm left;
    int rank, size, flag = 1;
    MPI_Comm_rank(comm, &rank);
    MPI_Comm_size(comm, &size);
    if (rank == size - 1) raise(SIGKILL);
    if (MPI_Barrier(comm) != MPI_SUCCESS) MPIX_Comm_revoke(comm);
    CHECK(MPIX_Comm_shrink(comm, &left) == MPI_SUCCESS);
    MPI_Comm_set_errhandler(left, MPI_ERRORS_RETURN);
    CHECK(MPIX_Comm_agree(left, &flag) == MPI_SUCCESS && flag == 1);
    if (comm != MPI_COMM_WORLD) MPI_Comm_free(&comm);
    return left;
}

/* All members sum up, also on a duplicate and on a part. */
static void use(MPI_Comm comm, int wanted) {
    MPI_Comm copy, part;
    int one = 1, sum[3] = {0};
    CHECK(MPI_Comm_dup(comm, &copy) == MPI_SUCCESS && MPI_Comm_split(comm, 0, 0, &part) == MPI_SUCCESS);
    CHECK(MPI_Allreduce(&one, &sum[0], 1, MPI_INT, MPI_SUM, comm) == MPI_SUCCESS);
    CHECK(MPI_Allreduce(&one, &sum[1], 1, MPI_INT, MPI_SUM, copy) == MPI_SUCCESS);
    CHECK(MPI_Allreduce(&one, &sum[2], 1, MPI_INT, MPI_SUM, part) == MPI_SUCCESS);
    for (int k = 0; k < 3; k++) CHECK(sum[k] == wanted);
    MPI_Comm_free(&copy);
    MPI_Comm_free(&part);
}

int main(int argc, char **argv) {
    MPI_Comm comm = MPI_COMM_WORLD;
    int size;
    MPI_Init(&argc, &argv);
    MPI_Comm_set_errhandler(comm, MPI_ERRORS_RETURN);
    MPI_Comm_size(comm, &size);
    for (int left = size - 1; left > 0; left--) {
        comm = lose_one(comm);
        use(comm, left);
        printf("%d left\n", left);
    }
    printf("faults: %d\n", faults);
    MPI_Finalize();
    return faults != 0;
}
