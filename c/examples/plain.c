/* Heat in a rod by Jacobi's method, without any recovery: the solver that heat.c begins from. It runs with each MPI. */
#include <mpi.h>
#include <stdio.h>
#include <string.h>

enum { CELLS = 60, STEPS = 12 };

int main(int argc, char **argv) {
    double rod[CELLS + 2] = {100}, after[CELLS + 2] = {100}, own = 0, heat = 0;
    int rank, size;
    MPI_Init(&argc, &argv);
    MPI_Comm_rank(MPI_COMM_WORLD, &rank);
    MPI_Comm_size(MPI_COMM_WORLD, &size);
    int first = 1 + CELLS * rank / size, last = CELLS * (rank + 1) / size;
    int left = rank > 0 ? rank - 1 : MPI_PROC_NULL, right = rank < size - 1 ? rank + 1 : MPI_PROC_NULL;
    for (int step = 0; step < STEPS; step++) {
        MPI_Sendrecv(&rod[last], 1, MPI_DOUBLE, right, 1, &rod[first - 1], 1, MPI_DOUBLE, left, 1, MPI_COMM_WORLD, MPI_STATUS_IGNORE);
        MPI_Sendrecv(&rod[first], 1, MPI_DOUBLE, left, 2, &rod[last + 1], 1, MPI_DOUBLE, right, 2, MPI_COMM_WORLD, MPI_STATUS_IGNORE);
        for (int k = first; k <= last; k++) after[k] = (rod[k - 1] + rod[k + 1]) / 2;
        memcpy(&rod[first], &after[first], sizeof after[0] * (size_t)(last - first + 1));
    }
    for (int k = first; k <= last; k++) own += rod[k];
    MPI_Allreduce(&own, &heat, 1, MPI_DOUBLE, MPI_SUM, MPI_COMM_WORLD);
    if (rank == 0) printf("heat after %d steps: %.6f\n", STEPS, heat);
    MPI_Finalize();
    return 0;
}
