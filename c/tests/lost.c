/* Rank 0 tells two others, and is then stopped by plan: one of them may have heard and the other one not, where a stop loses what wasn't taken. */
#include "check.h"

int main(int argc, char **argv) {
    int rank, x = 1, other;
    MPI_Init(&argc, &argv);
    MPI_Comm_set_errhandler(MPI_COMM_WORLD, MPI_ERRORS_RETURN);
    MPI_Comm_rank(MPI_COMM_WORLD, &rank);
    if (rank == 0) {
        for (int to = 1; to < 3; to++) MPI_Send(&x, 1, MPI_INT, to, 1, MPI_COMM_WORLD);
        MPI_Barrier(MPI_COMM_WORLD);
    } else {
        int has = MPI_Recv(&x, 1, MPI_INT, 0, 1, MPI_COMM_WORLD, MPI_STATUS_IGNORE) == MPI_SUCCESS;
        MPI_Sendrecv(&has, 1, MPI_INT, 3 - rank, 2, &other, 1, MPI_INT, 3 - rank, 2, MPI_COMM_WORLD, MPI_STATUS_IGNORE);
        CHECK(has == other);
    }
    MPI_Finalize();
    return faults != 0;
}
