/* Messages and collectives by MPI calls alone, so that one program serves each library: on standard error, in nanoseconds.
 *   mpiexec -n 2 pingpong NAME [MESSAGES]    NAME stands before each line
 * Two ranks send there and back, and one way in windows of 64. Ranks of each number make reductions and barriers. */
#include <mpi.h>
#include <stdio.h>
#include <stdlib.h>
#include <string.h>

enum { MOST = 65536, WINDOW = 64, TAG = 1 };

static char filled[MOST], room[WINDOW][MOST];

static void check(int is_well, const char *what) {
    if (is_well) return;
    fprintf(stderr, "pingpong: wrong: %s\n", what);
    MPI_Abort(MPI_COMM_WORLD, 1);
}

static void there_and_back(int me, int bytes, long count) {
    for (long k = 0; k < count; k++)
        if (me == 0) {
            MPI_Send(filled, bytes, MPI_BYTE, 1, TAG, MPI_COMM_WORLD);
            MPI_Recv(room[0], bytes, MPI_BYTE, 1, TAG, MPI_COMM_WORLD, MPI_STATUS_IGNORE);
        } else {
            MPI_Recv(room[0], bytes, MPI_BYTE, 0, TAG, MPI_COMM_WORLD, MPI_STATUS_IGNORE);
            MPI_Send(filled, bytes, MPI_BYTE, 0, TAG, MPI_COMM_WORLD);
        }
    check(memcmp(room[0], filled, (size_t)bytes) == 0, "there and back");
}

/* From 0 to 1, which answers each window. */
static void one_way(int me, int bytes, long count) {
    MPI_Request requests[WINDOW];
    MPI_Status statuses[WINDOW];
    for (long k = 0; k < count; k += WINDOW) {
        for (int w = 0; w < WINDOW; w++)
            if (me == 0) MPI_Isend(filled, bytes, MPI_BYTE, 1, TAG, MPI_COMM_WORLD, &requests[w]);
            else MPI_Irecv(room[w], bytes, MPI_BYTE, 0, TAG, MPI_COMM_WORLD, &requests[w]);
        MPI_Waitall(WINDOW, requests, statuses);
        if (me == 0) MPI_Recv(room[0], 1, MPI_BYTE, 1, TAG, MPI_COMM_WORLD, MPI_STATUS_IGNORE);
        else MPI_Send(filled, 1, MPI_BYTE, 0, TAG, MPI_COMM_WORLD);
    }
    check(me == 0 || memcmp(room[WINDOW - 1], filled, (size_t)bytes) == 0, "one way");
}

static void reductions(int me, int size, long count) {
    double own = me + 1, sum = 0;
    for (long k = 0; k < count; k++) MPI_Allreduce(&own, &sum, 1, MPI_DOUBLE, MPI_SUM, MPI_COMM_WORLD);
    check(sum == size * (size + 1) / 2.0, "MPI_Allreduce");
}

static void barriers(int me, int size, long count) {
    (void)me;
    (void)size;
    for (long k = 0; k < count; k++) MPI_Barrier(MPI_COMM_WORLD);
}

/* Does it so many times, and a tenth as many before. */
static void measure(const char *name, const char *what, void (*make)(int, int, long), int of, const char *unit, const char *each, long count) {
    int me;
    MPI_Comm_rank(MPI_COMM_WORLD, &me);
    make(me, of, count / 10 + 1);
    MPI_Barrier(MPI_COMM_WORLD);
    double start = MPI_Wtime();
    make(me, of, count);
    double end = MPI_Wtime();
    if (me == 0) fprintf(stderr, "%s, %s, %d %s: %.1f ns %s\n", name, what, of, unit, (end - start) * 1e9 / (double)count, each);
}

int main(int argc, char **argv) {
    static const int sizes[] = {8, 64, 1024, MOST};
    int size;
    MPI_Init(&argc, &argv);
    MPI_Comm_size(MPI_COMM_WORLD, &size);
    const char *name = argc > 1 ? argv[1] : "mpi";
    long count = argc > 2 ? atol(argv[2]) / WINDOW * WINDOW : 32000;
    check(count >= WINDOW, "it takes at least 64 messages");
    memset(filled, 'x', MOST);
    for (int k = 0; size == 2 && k < 4; k++) {
        long some = sizes[k] == MOST ? (count / 8 + WINDOW - 1) / WINDOW * WINDOW : count;
        measure(name, "there and back", there_and_back, sizes[k], "bytes", "a trip", some);
        measure(name, "one way", one_way, sizes[k], "bytes", "a message", some);
    }
    measure(name, "MPI_Allreduce of 8 bytes", reductions, size, "ranks", "a call", count);
    measure(name, "MPI_Barrier", barriers, size, "ranks", "a call", count);
    MPI_Finalize();
    return 0;
}
