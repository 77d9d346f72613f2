/* Rank 0 adds up what the others send, by steps. Its room is for five steps at a time: if one rank sends its sixth row before the other one's first row
   is there, both are added up as one step. Few schedules do that. */
#include <mpi.h>
#include <stdio.h>

enum { STEPS = 6, ROOM = 5, WORKERS = 2 };

static int add_up(void) {
    int sums[ROOM] = {0}, counts[ROOM] = {0}, wrong = 0;
    for (int k = 0; k < STEPS * WORKERS; k++) {
        int row;
        MPI_Status status;
        MPI_Recv(&row, 1, MPI_INT, MPI_ANY_SOURCE, MPI_ANY_TAG, MPI_COMM_WORLD, &status);
        int step = status.MPI_TAG, at = step % ROOM;
        sums[at] += row;
        if (++counts[at] < WORKERS) continue;
        wrong += sums[at] != 20 * step + 3;
        sums[at] = counts[at] = 0;
    }
    if (wrong) fprintf(stderr, "%d steps are wrong\n", wrong);
    return wrong != 0;
}

int main(int count, char **words) {
    int me, code = 0;
    MPI_Init(&count, &words);
    MPI_Comm_rank(MPI_COMM_WORLD, &me);
    if (me == 0) code = add_up();
    for (int step = 0; me > 0 && step < STEPS; step++) {
        int row = 10 * step + me;
        MPI_Send(&row, 1, MPI_INT, 0, step, MPI_COMM_WORLD);
    }
    MPI_Finalize();
    return code;
}
