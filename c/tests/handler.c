/* The tutorial's way: a handler that revokes, shrinks, and jumps back to where the work begins again. Rank 2 stops by plan. */
#include "check.h"
#include <mpi-ext.h>
#include <setjmp.h>

static jmp_buf again;
static MPI_Comm comm;
static int met;

static void handle(MPI_Comm *failed, int *code, ...) {
    MPI_Comm made;
    met = class_of(*code);
    MPIX_Comm_revoke(*failed);
    MPIX_Comm_shrink(*failed, &made);
    comm = made;
    longjmp(again, 1);
}

int main(int argc, char **argv) {
    int rank, size, sum = 0, one = 1, flag;
    MPI_Errhandler handler;
    MPI_Init(&argc, &argv);
    MPI_Comm_dup(MPI_COMM_WORLD, &comm);
    MPI_Comm_create_errhandler(handle, &handler);
    MPI_Comm_set_errhandler(comm, handler);
    setjmp(again);
    MPI_Comm_size(comm, &size);
    for (int k = 0; k < 5; k++) MPI_Allreduce(&one, &sum, 1, MPI_INT, MPI_SUM, comm);
    flag = 1;
    MPIX_Comm_agree(comm, &flag);
    CHECK(sum == size);
    MPI_Comm_rank(comm, &rank);
    if (rank == 0) printf("%d ranks, class %d\n", size, met);
    MPI_Errhandler_free(&handler);
    MPI_Finalize();
    return faults != 0;
}
