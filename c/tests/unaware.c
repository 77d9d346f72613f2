/* A manager that receives from any rank, and a worker that has always asked again: a message is always there, so the manager isn't told that the other worker
   failed, and waits for its result for ever. With the word `asks` it looks who failed. For three ranks, of which rank 1 is stopped at its second call. */
#include "check.h"

enum { ASK = 1, ANSWER = 2 };
static MPI_Comm world = MPI_COMM_WORLD;

static int count_failed(void) {
    MPI_Group failed;
    int count;
    MPIX_Comm_get_failed(world, &failed);
    MPI_Group_size(failed, &count);
    MPI_Group_free(&failed);
    return count;
}

static void manage(int asks) {
    int asked, answer = 0, told = 0;
    MPI_Status status;
    MPI_Barrier(world);
    while (!told) {
        told = MPI_Recv(&asked, 1, MPI_INT, MPI_ANY_SOURCE, ASK, world, &status) != MPI_SUCCESS || (asks && count_failed());
        if (!told) MPI_Ssend(&answer, 1, MPI_INT, status.MPI_SOURCE, ANSWER, world);
    }
    printf("told of %d failure\n", count_failed());
    answer = 1;
    MPI_Send(&answer, 1, MPI_INT, 2, ANSWER, world);
}

static void work(int rank) {
    int ask = 0, is_over = 0;
    if (rank == 2) MPI_Send(&ask, 1, MPI_INT, 0, ASK, world);
    MPI_Barrier(world);
    while (!is_over) {
        MPI_Send(&ask, 1, MPI_INT, 0, ASK, world);
        MPI_Recv(&is_over, 1, MPI_INT, 0, ANSWER, world, MPI_STATUS_IGNORE);
    }
}

int main(int argc, char **argv) {
    int rank;
    MPI_Init(&argc, &argv);
    MPI_Comm_rank(world, &rank);
    MPI_Comm_set_errhandler(world, MPI_ERRORS_RETURN);
    if (rank == 0) manage(argc > 1);
    else work(rank);
    MPI_Finalize();
    return 0;
}
