// Exceptions that are caught while ranks give way to one another: each rank throws its own again.
#include <mpi.h>
#include <cstdio>
#include <exception>
#include <stdexcept>
#include <string>

static int faults, rank, size;

static void meet() {
    int all = 0;
    MPI_Allreduce(&rank, &all, 1, MPI_INT, MPI_SUM, MPI_COMM_WORLD);
    if (all != size * (size - 1) / 2) faults++;
}

int main(int argc, char **argv) {
    MPI_Init(&argc, &argv);
    MPI_Comm_rank(MPI_COMM_WORLD, &rank);
    MPI_Comm_size(MPI_COMM_WORLD, &size);
    for (int k = 0; k < 5; k++) {
        std::string said;
        try {
            try {
                throw std::runtime_error("of rank " + std::to_string(rank));
            } catch (const std::exception &) {
                meet();
                if (std::uncaught_exceptions()) faults++;
                throw;
            }
        } catch (const std::exception &error) {
            said = error.what();
        }
        if (said != "of rank " + std::to_string(rank)) faults++;
    }
    meet();
    MPI_Finalize();
    if (rank == 0) std::printf("faults: %d\n", faults);
    return faults != 0;
}
