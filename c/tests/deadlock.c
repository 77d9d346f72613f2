/* Two ranks that send to each other first: right where sends are buffered, and stuck where they wait. Then each waits for a message that nobody sends,
   where the first word says so; or rank 0 for rank 1 in a sum or an agreement that doesn't block. */
#include "check.h"
#include <unistd.h>

int main(int argc, char **argv) {
    int rank, x = 0, y = 0;
    const char *how = argc > 1 ? argv[1] : "";
    MPI_Request request = MPI_REQUEST_NULL;
    MPI_Init(&argc, &argv);
    MPI_Comm_rank(MPI_COMM_WORLD, &rank);
    MPI_Send(&x, 1, MPI_INT, 1 - rank, 4, MPI_COMM_WORLD);
    MPI_Recv(&y, 1, MPI_INT, 1 - rank, 4, MPI_COMM_WORLD, MPI_STATUS_IGNORE);
    if (rank == 0 && !strcmp(how, "sum")) MPI_Iallreduce(&x, &y, 1, MPI_INT, MPI_SUM, MPI_COMM_WORLD, &request);
    if (rank == 0 && !strcmp(how, "agree")) MPIX_Comm_iagree(MPI_COMM_WORLD, &x, &request);
    MPI_Wait(&request, MPI_STATUS_IGNORE);
    if (chdir("/")) return 1;   /* its lines are told all the same */
    if (*how) MPI_Recv(&y, 1, MPI_INT, MPI_ANY_SOURCE, MPI_ANY_TAG, MPI_COMM_WORLD, MPI_STATUS_IGNORE);
    MPI_Finalize();
    return 0;
}
