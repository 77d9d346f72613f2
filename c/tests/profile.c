/* A profiler: calls of its own by the names of MPI, which call those of the library by their other names. What it prints is the same with each MPI. */
#include "check.h"

static int sends, sums;

int MPI_Send(const void *buf, int count, MPI_Datatype type, int dest, int tag, MPI_Comm comm) {
    sends++;
    return PMPI_Send(buf, count, type, dest, tag, comm);
}

int MPI_Allreduce(const void *sendbuf, void *recvbuf, int count, MPI_Datatype type, MPI_Op op, MPI_Comm comm) {
    sums++;
    return PMPI_Allreduce(sendbuf, recvbuf, count, type, op, comm);
}

int main(int argc, char **argv) {
    int rank, size, got = -1, sum = 0;
    PMPI_Init(&argc, &argv);
    PMPI_Comm_rank(MPI_COMM_WORLD, &rank);
    MPI_Comm_size(MPI_COMM_WORLD, &size);
    if (rank) MPI_Send(&rank, 1, MPI_INT, 0, 1, MPI_COMM_WORLD);
    for (int k = 1; k < size && rank == 0; k++) {
        MPI_Recv(&got, 1, MPI_INT, k, 1, MPI_COMM_WORLD, MPI_STATUS_IGNORE);
        CHECK(got == k);
    }
    MPI_Allreduce(&sends, &sum, 1, MPI_INT, MPI_SUM, MPI_COMM_WORLD);
    CHECK(sum == size - 1 && sums == 1 && PMPI_Wtime() > 0);
    PMPI_Reduce(&faults, &got, 1, MPI_INT, MPI_SUM, 0, MPI_COMM_WORLD);
    if (rank == 0) printf("sends %d sums %d faults: %d\n", sum, sums, got);
    PMPI_Finalize();
    return faults != 0;
}
