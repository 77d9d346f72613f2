/* Communicators without a small end. Words: what is tried, and how many. For 2 or more ranks.
     freed N    duplicates that are made, used and freed; the memory of the whole process stays as it was after a hundredth of them
     late N     so too, where the last rank frees each when seven more were made
     alive N    duplicates at the same time, each of them used
     row N      duplicates, each of the one before
     shrunk N   communicators that come of the world by further shrinks, with a duplicate each */
#include "check.h"
#include <sys/resource.h>

enum { SOME = 1024, LATE = 8 };

static int rank, size;

/* The greatest resident size so far, in kilobytes. */
static long peak(void) {
    struct rusage usage;
    getrusage(RUSAGE_SELF, &usage);
    return usage.ru_maxrss;
}

/* A message to the next rank, and a sum: each communicator has messages and collectives of its own. */
static void use(MPI_Comm comm, int word) {
    int got = -1, sum = 0;
    MPI_Sendrecv(&word, 1, MPI_INT, (rank + 1) % size, 1, &got, 1, MPI_INT, MPI_ANY_SOURCE, MPI_ANY_TAG, comm, MPI_STATUS_IGNORE);
    CHECK(got == word);
    CHECK(MPI_Allreduce(&word, &sum, 1, MPI_INT, MPI_SUM, comm) == MPI_SUCCESS && sum == word * size);
}

/* Each is freed when so many more were made. */
static void make_and_free(long times, int behind) {
    MPI_Comm made[LATE];
    for (long k = 0; k < times + behind; k++) {
        if (k < times) CHECK(MPI_Comm_dup(MPI_COMM_WORLD, &made[k % LATE]) == MPI_SUCCESS);
        if (k < times && k % 16 == 0) use(made[k % LATE], (int)k);
        if (k >= behind) MPI_Comm_free(&made[(k - behind) % LATE]);
    }
}

/* Makes them, and looks how much memory is taken after the first ones. */
static void stay_flat(long times, int behind) {
    make_and_free(times / 100, behind);
    MPI_Barrier(MPI_COMM_WORLD);
    long settled = peak();
    make_and_free(times - times / 100, behind);
    MPI_Barrier(MPI_COMM_WORLD);
    long grew = peak() - settled;
    CHECK(grew <= SOME);
    if (rank == 0) printf("%ld duplicates: %ld KB more\n", times, grew);
}

/* The last is used first. */
static void all_at_once(int count) {
    MPI_Comm *made = calloc((size_t)count, sizeof *made);
    for (int k = 0; k < count; k++) CHECK(MPI_Comm_dup(MPI_COMM_WORLD, &made[k]) == MPI_SUCCESS);
    for (int k = 0; k < count; k++) MPI_Send(&k, 1, MPI_INT, (rank + 1) % size, 2, made[k]);
    for (int k = count - 1; k >= 0; k--) {
        int got = -1;
        MPI_Recv(&got, 1, MPI_INT, MPI_ANY_SOURCE, MPI_ANY_TAG, made[k], MPI_STATUS_IGNORE);
        CHECK(got == k);
        use(made[k], k);
    }
    for (int k = 0; k < count; k++) MPI_Comm_free(&made[k]);
    free(made);
}

static void in_a_row(int count) {
    MPI_Comm last = MPI_COMM_WORLD, next;
    for (int k = 0; k < count; k++) {
        CHECK(MPI_Comm_dup(last, &next) == MPI_SUCCESS);
        if (last != MPI_COMM_WORLD) MPI_Comm_free(&last);
        use(last = next, k);
    }
}

static void shrunk_again(int count) {
    for (int k = 0; k < count; k++) {
        MPI_Comm made, copy;
        CHECK(MPIX_Comm_shrink(MPI_COMM_WORLD, &made) == MPI_SUCCESS && MPI_Comm_dup(made, &copy) == MPI_SUCCESS);
        use(made, k);
        use(copy, k + 1);
        MPI_Comm_free(&made);
        MPI_Comm_free(&copy);
    }
}

int main(int argc, char **argv) {
    MPI_Init(&argc, &argv);
    MPI_Comm_rank(MPI_COMM_WORLD, &rank);
    MPI_Comm_size(MPI_COMM_WORLD, &size);
    const char *what = argc > 2 ? argv[1] : "";
    int count = argc > 2 ? atoi(argv[2]) : 0;
    if (!strcmp(what, "freed")) stay_flat(count, 0);
    if (!strcmp(what, "late")) stay_flat(count, rank == size - 1 ? LATE - 1 : 0);
    if (!strcmp(what, "alive")) all_at_once(count);
    if (!strcmp(what, "row")) in_a_row(count);
    if (!strcmp(what, "shrunk")) shrunk_again(count);
    if (rank == 0) printf("faults: %d\n", faults);
    MPI_Finalize();
    return faults != 0;
}
