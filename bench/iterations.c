#include <mpi.h>
#include <mpi-ext.h>
#include <stdio.h>
#include <stdlib.h>
/* Iterations of an exchange and a sum, by --every-stop a run of many places: the members shrink where one fails, and go on. The last sum has no agreement behind it, so a few
   places hang. */
int main(int argc, char **argv) {
    int rank, size, rounds = argc > 1 ? atoi(argv[1]) : 250, done = 0;
    MPI_Comm world, made;
    MPI_Init(&argc, &argv);
    world = MPI_COMM_WORLD;
    MPI_Comm_set_errhandler(MPI_COMM_WORLD, MPI_ERRORS_RETURN);
    MPI_Comm_rank(world, &rank);
    MPI_Comm_size(world, &size);
    while (done < rounds) {
        double own = rank, got, sum;
        int code = MPI_Sendrecv(&own, 1, MPI_DOUBLE, (rank + 1) % size, 1, &got, 1, MPI_DOUBLE, (rank + size - 1) % size, 1, world, MPI_STATUS_IGNORE);
        if (!code) code = MPI_Allreduce(&own, &sum, 1, MPI_DOUBLE, MPI_SUM, world);
        if (code) {
            MPIX_Comm_revoke(world);
            if (MPIX_Comm_shrink(world, &made)) return 3;
            world = made;
            MPI_Comm_set_errhandler(world, MPI_ERRORS_RETURN);
            MPI_Comm_rank(world, &rank);
            MPI_Comm_size(world, &size);
            int least = done;
            if (MPI_Allreduce(&done, &least, 1, MPI_INT, MPI_MIN, world)) return 4;
            done = least;
        } else done++;
    }
    MPI_Finalize();
    return 0;
}
