/* Duplicates that one rank made and another one did not, since a rank stopped inside of the call: later ones have to meet again. A program that the first
   rank's stop leaves with other counts at its ranks, by a stop of the first rank at any place. Who goes on by an error handler makes communicators of
   those that are left, by messages alone, until the last: without a shrink. For 3 or more ranks. */
#include "check.h"

static int rank, size, errors;

static void handle(MPI_Comm *comm, int *code, ...) {
    (void)comm;
    CHECK(class_of(*code) == MPIX_ERR_PROC_FAILED);
    errors++;
}

/* Each of those that are left gets a message of the one before it, and all a sum. */
static void use(MPI_Comm comm, int word) {
    int place, count, got = -1, sum = 0;
    MPI_Comm_rank(comm, &place);
    MPI_Comm_size(comm, &count);
    MPI_Sendrecv(&word, 1, MPI_INT, (place + 1) % count, 1, &got, 1, MPI_INT, MPI_ANY_SOURCE, MPI_ANY_TAG, comm, MPI_STATUS_IGNORE);
    MPI_Allreduce(&word, &sum, 1, MPI_INT, MPI_SUM, comm);
    CHECK(got == word && sum == count * word);
}

/* All but the first rank. */
static MPI_Group others(void) {
    MPI_Group all, left;
    MPI_Comm_group(MPI_COMM_WORLD, &all);
    MPI_Group_excl(all, 1, (int[]){0}, &left);
    MPI_Group_free(&all);
    return left;
}

int main(int argc, char **argv) {
    enum { TRIES = 3 };
    MPI_Comm made[TRIES], left[TRIES];
    MPI_Errhandler handler;
    MPI_Init(&argc, &argv);
    MPI_Comm_rank(MPI_COMM_WORLD, &rank);
    MPI_Comm_size(MPI_COMM_WORLD, &size);
    MPI_Comm_create_errhandler(handle, &handler);
    MPI_Comm_set_errhandler(MPI_COMM_WORLD, handler);
    for (int k = 0; k < TRIES; k++) MPI_Comm_dup(MPI_COMM_WORLD, &made[k]);
    if (rank == 0) {
        MPI_Finalize();
        return 0;
    }
    MPI_Group rest = others();
    for (int k = 0; k < TRIES; k++) {
        MPI_Comm_create_group(MPI_COMM_WORLD, rest, k, &left[k]);
        use(left[k], k + 1);
    }
    for (int k = TRIES - 1; k >= 0; k--) use(left[k], k + 5);
    MPI_Comm_dup(left[0], &made[0]);
    use(made[0], 9);
    printf("%d errors\n", errors);
    MPI_Finalize();
    return faults != 0;
}
