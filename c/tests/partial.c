/* Parts of a line that a rank flushed are there, however the run ends: the word says how. */
#include "check.h"

int main(int argc, char **argv) {
    int rank, x = 0;
    MPI_Init(&argc, &argv);
    MPI_Comm_rank(MPI_COMM_WORLD, &rank);
    for (int k = 1; k < 3 && rank == 0; k++) {
        printf("step %d ", k);
        fflush(stdout);
    }
    MPI_Barrier(MPI_COMM_WORLD);
    if (!strcmp(argv[1], "abort") && rank == 1) MPI_Abort(MPI_COMM_WORLD, 3);
    if (!strcmp(argv[1], "fatal") && rank == 1) MPI_Send(&x, 1, MPI_INT, 99, 0, MPI_COMM_WORLD);
    if (!strcmp(argv[1], "crash") && rank == 0) *(volatile int *)8 = 1;
    if (!strcmp(argv[1], "stuck")) {
        if (rank == 0) printf("rest");
        MPI_Recv(&x, 1, MPI_INT, 0, 77, MPI_COMM_WORLD, MPI_STATUS_IGNORE);
    }
    MPI_Barrier(MPI_COMM_WORLD);
    if (rank == 0) printf("end");
    MPI_Finalize();
    return 0;
}
