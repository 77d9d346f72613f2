/* Two ranks: a message each way, an agreement, and a shrink where something failed. Few enough events that each order of them can be played. */
#include "check.h"

int main(int argc, char **argv) {
    int rank, in = -1, is_well, size = 2;
    MPI_Comm rest;
    MPI_Init(&argc, &argv);
    MPI_Comm_set_errhandler(MPI_COMM_WORLD, MPI_ERRORS_RETURN);
    MPI_Comm_rank(MPI_COMM_WORLD, &rank);
    is_well = MPI_Send(&rank, 1, MPI_INT, 1 - rank, 1, MPI_COMM_WORLD) == MPI_SUCCESS;
    is_well = is_well && MPI_Recv(&in, 1, MPI_INT, 1 - rank, 1, MPI_COMM_WORLD, MPI_STATUS_IGNORE) == MPI_SUCCESS;
    CHECK(!is_well || in == 1 - rank);
    if (!is_well) MPIX_Comm_revoke(MPI_COMM_WORLD);
    int code = MPIX_Comm_agree(MPI_COMM_WORLD, &is_well);
    if (code != MPI_SUCCESS || !is_well) {
        CHECK(MPIX_Comm_shrink(MPI_COMM_WORLD, &rest) == MPI_SUCCESS);
        MPI_Comm_size(rest, &size);
    }
    CHECK(size == 1 || in == 1 - rank);
    MPI_Finalize();
    return faults != 0;
}
