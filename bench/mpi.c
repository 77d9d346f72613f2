/* The letters of `ulfm_bench rank` by MPI, between two processes: on standard error, in nanoseconds a letter.
 *   mpiexec -n 2 mpi NAME [LETTERS]    NAME stands before each line
 * Each side tries by MPI_Test and yields after each try in vain, as the ranks' threads do. */
#include <mpi.h>
#include <sched.h>
#include <stdio.h>
#include <stdlib.h>
#include <string.h>

enum { MOST = 1024, TAG = 1 };

static char filled[MOST], room[MOST];

static void finish(MPI_Request *request, MPI_Status *status) {
    int done = 0;
    for (;;) {
        MPI_Test(request, &done, status);
        if (done)
            return;
        sched_yield();
    }
}

static void send_letter(const char *bytes, int length, int other) {
    MPI_Request request;
    MPI_Isend(bytes, length, MPI_BYTE, other, TAG, MPI_COMM_WORLD, &request);
    finish(&request, MPI_STATUS_IGNORE);
}

static void receive_letter(int length, int other) {
    MPI_Request request;
    MPI_Status status;
    int came;
    MPI_Irecv(room, MOST, MPI_BYTE, other, TAG, MPI_COMM_WORLD, &request);
    finish(&request, &status);
    MPI_Get_count(&status, MPI_BYTE, &came);
    if (came != length)
        MPI_Abort(MPI_COMM_WORLD, 1);
}

/* All letters go from 0 to 1, which answers the last. */
static void one_way(int me, int length, long count) {
    for (long k = 0; k < count; k++)
        if (me == 0)
            send_letter(filled, length, 1);
        else
            receive_letter(length, 0);
    if (me == 0)
        receive_letter(length, 1);
    else
        send_letter(room, length, 0);
}

static void there_and_back(int me, int length, long count) {
    for (long k = 0; k < count; k++)
        if (me == 0) {
            send_letter(filled, length, 1);
            receive_letter(length, 1);
        } else {
            receive_letter(length, 0);
            send_letter(room, length, 0);
        }
}

static void measure(const char *name, const char *trip, void (*make)(int, int, long), int me, int length, long count) {
    MPI_Barrier(MPI_COMM_WORLD);
    double start = MPI_Wtime();
    make(me, length, count);
    if (me == 0)
        fprintf(stderr, "%s, %s, %d bytes: %.1f ns a letter\n", name, trip, length, (MPI_Wtime() - start) * 1e9 / count);
}

int main(int argc, char **argv) {
    static const int sizes[] = {8, 64, 1024};
    int me, size;
    MPI_Init(&argc, &argv);
    MPI_Comm_rank(MPI_COMM_WORLD, &me);
    MPI_Comm_size(MPI_COMM_WORLD, &size);
    const char *name = argc > 1 ? argv[1] : "mpi";
    long count = argc > 2 ? atol(argv[2]) : 20000;
    if (size != 2 || count < 1) {
        fprintf(stderr, "mpi: it takes two processes, and at least one letter\n");
        MPI_Abort(MPI_COMM_WORLD, 2);
    }
    memset(filled, 'x', MOST);
    for (int k = 0; k < 3; k++) {
        measure(name, "one way", one_way, me, sizes[k], count);
        measure(name, "there and back", there_and_back, me, sizes[k], count);
    }
    MPI_Finalize();
    return 0;
}
