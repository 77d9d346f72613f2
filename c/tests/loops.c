/* What loops of calls that look take of a processor: seconds of its own, so that other work doesn't matter. For 4 ranks. With a word it looks at no clock. */
#define _GNU_SOURCE
#include "check.h"
#include <sched.h>
#include <time.h>
#include <unistd.h>

enum { MANY = 4000 };
static int rank, size, is_timed;
static MPI_Comm world = MPI_COMM_WORLD;

static double spent(clockid_t clock) {
    struct timespec time = {0};
    if (is_timed) clock_gettime(clock, &time);
    return (double)time.tv_sec + 1e-9 * (double)time.tv_nsec;
}

/* Many receives, each of which has its message, and what calls that find their ends take; beside it so many calls that find nothing to wait for. */
static void many(void) {
    static int x[MANY], at[MANY];
    static MPI_Request requests[MANY], none[MANY];
    double took[3];
    int count, flag, index;
    for (int way = 0; way < 2; way++) {
        for (int k = 0; rank == 0 && k < MANY; k++) MPI_Irecv(&x[k], 1, MPI_INT, 1, k, world, &requests[k]);
        MPI_Barrier(world);
        for (int k = 0; rank == 1 && k < MANY; k++) MPI_Send(&k, 1, MPI_INT, 0, k, world);
        if (rank == 0) usleep(50000);
        double begin = spent(CLOCK_THREAD_CPUTIME_ID);
        for (int left = rank ? 0 : MANY; left > 0; left -= count) {
            count = 1;
            if (way) MPI_Waitsome(MANY, requests, &count, at, MPI_STATUSES_IGNORE);
            else MPI_Waitany(MANY, requests, &index, MPI_STATUS_IGNORE);
        }
        took[way] = spent(CLOCK_THREAD_CPUTIME_ID) - begin;
        for (int k = 0; rank == 0 && k < MANY; k++) CHECK(x[k] == k && requests[k] == MPI_REQUEST_NULL);
    }
    double begin = spent(CLOCK_THREAD_CPUTIME_ID);
    for (int k = 0; rank == 0 && k < MANY; k++) MPI_Testany(MANY, none, &index, &flag, MPI_STATUS_IGNORE);
    took[2] = spent(CLOCK_THREAD_CPUTIME_ID) - begin;
    CHECK(rank || !is_timed || (took[0] < 6 * took[2] && took[1] < 8 * took[2]));
}

/* A number goes round from rank to rank, each of which looks for it in a loop. All of them share one processor, which each that finds nothing gives away. */
static void ring(void) {
    enum { ROUNDS = 100, WAYS = 3 };
    int next = (rank + 1) % size, before = (rank + size - 1) % size;
    MPI_Barrier(world);
    double begin = spent(CLOCK_PROCESS_CPUTIME_ID);
    for (int k = 0; k < WAYS * ROUNDS; k++) {
        int x = k, flag = 0;
        MPI_Request request;
        if (rank == 0) MPI_Send(&x, 1, MPI_INT, next, 1, world);
        if (k % WAYS == 0) while (!flag) MPI_Iprobe(before, 1, world, &flag, MPI_STATUS_IGNORE);
        MPI_Irecv(&x, 1, MPI_INT, before, 1, world, &request);
        if (k % WAYS == 1) while (!flag) MPI_Test(&request, &flag, MPI_STATUS_IGNORE);
        if (k % WAYS == 2) while (!flag) MPI_Testall(1, &request, &flag, MPI_STATUSES_IGNORE);
        MPI_Wait(&request, MPI_STATUS_IGNORE);
        if (rank) MPI_Send(&x, 1, MPI_INT, next, 1, world);
        CHECK(x == k);
    }
    MPI_Barrier(world);
    CHECK(spent(CLOCK_PROCESS_CPUTIME_ID) - begin < 0.5);
}

static void share_processor(void) {
    cpu_set_t set;
    sched_getaffinity(0, sizeof set, &set);
    int first = 0;
    while (!CPU_ISSET(first, &set)) first++;
    CPU_ZERO(&set);
    CPU_SET(first, &set);
    sched_setaffinity(0, sizeof set, &set);
}

int main(int argc, char **argv) {
    int all = 0;
    is_timed = argc == 1;
    MPI_Init(&argc, &argv);
    MPI_Comm_rank(world, &rank);
    MPI_Comm_size(world, &size);
    many();
    share_processor();
    ring();
    MPI_Reduce(&faults, &all, 1, MPI_INT, MPI_SUM, 0, world);
    if (rank == 0) printf("faults: %d\n", all);
    MPI_Finalize();
    return faults != 0;
}
