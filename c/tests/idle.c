/* Four ranks on one processor: three wait for a second, in a receive, a probe and an agreement, and burn less than a tenth of it. */
#define _GNU_SOURCE
#include <mpi.h>
#include <sched.h>
#include <stdio.h>
#include <sys/resource.h>
#include <unistd.h>

/* All threads of the process, in seconds. */
static double processor_time(void) {
    struct rusage usage;
    getrusage(RUSAGE_SELF, &usage);
    return (double)(usage.ru_utime.tv_sec + usage.ru_stime.tv_sec) + 1e-6 * (double)(usage.ru_utime.tv_usec + usage.ru_stime.tv_usec);
}

static void stay_on_one(void) {
    cpu_set_t all, one;
    int first = 0;
    sched_getaffinity(0, sizeof all, &all);
    while (!CPU_ISSET(first, &all)) first++;
    CPU_ZERO(&one);
    CPU_SET(first, &one);
    sched_setaffinity(0, sizeof one, &one);
}

int main(int argc, char **argv) {
    int rank, flag = 1, letter = 0;
    stay_on_one();
    MPI_Init(&argc, &argv);
    MPI_Comm_rank(MPI_COMM_WORLD, &rank);
    MPI_Barrier(MPI_COMM_WORLD);
    double before = processor_time();
    if (rank == 0) {
        sleep(1);
        double burnt = processor_time() - before;
        printf("three waited for a second and burnt %s\n", burnt < 0.1 ? "less than a tenth of it" : "more than a tenth of it");
        for (int to = 1; to < 3; to++) MPI_Send(&letter, 1, MPI_INT, to, 1, MPI_COMM_WORLD);
    }
    if (rank == 2) MPI_Probe(MPI_ANY_SOURCE, 1, MPI_COMM_WORLD, MPI_STATUS_IGNORE);
    if (rank == 1 || rank == 2) MPI_Recv(&letter, 1, MPI_INT, 0, 1, MPI_COMM_WORLD, MPI_STATUS_IGNORE);
    MPIX_Comm_agree(MPI_COMM_WORLD, &flag);
    MPI_Finalize();
    return 0;
}
