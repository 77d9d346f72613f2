/* What profilers have (MPI 4.0, 15.2). */
#include "mpi/calls.h"

/* A profiler's own call says what this does; by itself it does nothing (15.2.4). */
int MPI_Pcontrol(const int level, ...) {
    (void)level;
    ENTER_LOOK(0, MPI_UNDEFINED, MPI_UNDEFINED);
    return MPI_SUCCESS;
}
