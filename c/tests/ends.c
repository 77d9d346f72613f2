/* The ends of a rank: each of these is its failure, as the others see it. The first word says which; the last rank makes it. */
#include "check.h"
#include <assert.h>
#include <err.h>
#include <errno.h>
#include <error.h>
#include <pthread.h>
#include <signal.h>
#include <unistd.h>

static volatile int handled;
static void handle(int number) { handled = number; }

/* What a further thread of the rank does. */
static void *beside(void *how) {
    int x = 0;
    if (!strcmp(how, "thread_exits")) exit(3);
    if (!strcmp(how, "thread_crashes")) *(volatile int *)8 = 0;
    if (!strcmp(how, "thread_sends")) MPI_Send(&x, 1, MPI_INT, 0, 0, MPI_COMM_WORLD);
    return 0;
}

static int overflow(int depth) {
    volatile char room[4096];
    room[0] = (char)depth;
    return depth == 1 << 30 ? 0 : room[0] + overflow(depth + 1) + room[0];
}

static void end(const char *how) {
    if (!strcmp(how, "exit")) exit(3);
    if (!strcmp(how, "_exit")) _exit(3);
    if (!strcmp(how, "abort")) abort();
    if (!strcmp(how, "assert")) assert(how == 0);
    if (!strcmp(how, "err")) err(3, "no %s", "input");
    if (!strcmp(how, "errx")) errx(3, "no %s", "input");
    if (!strcmp(how, "error")) error(3, ENOENT, "no %s", "input");
    if (!strcmp(how, "raise")) raise(SIGTERM);
    if (!strcmp(how, "kill")) kill(getpid(), SIGKILL);
    if (!strcmp(how, "crash")) *(volatile int *)8 = 0;
    if (!strcmp(how, "heap")) {
        void *volatile memory = malloc(10);
        for (int k = 0; k < 2; k++) free(memory);
    }
    if (!strcmp(how, "alarm")) {
        ualarm(1000, 0);
        for (;;) pause();
    }
    if (!strcmp(how, "pthread_exit")) pthread_exit(0);
    if (!strcmp(how, "overflow")) overflow(0);
    if (!strcmp(how, "memcpy")) memcpy((void *)(intptr_t)how[0], how, (size_t)(1 << 20));
    if (!strncmp(how, "thread", 6)) {
        pthread_t thread;
        pthread_create(&thread, 0, beside, (void *)(uintptr_t)how);
        pthread_join(thread, 0);
    }
    if (!strcmp(how, "MPI_Abort")) MPI_Abort(MPI_COMM_WORLD, 7);
}

/* Of rank 1 the standard output ends, and of no other one. */
static void close_output(int rank, int size) {
    printf("%d of %d\n", rank, size);
    if (rank == 1) fclose(stdout);
    MPI_Barrier(MPI_COMM_WORLD);
    if (rank != 1) printf("%d of %d again\n", rank, size);
    MPI_Finalize();
}

int main(int argc, char **argv) {
    int rank, size, x = 0;
    MPI_Init(&argc, &argv);
    MPI_Comm_rank(MPI_COMM_WORLD, &rank);
    MPI_Comm_size(MPI_COMM_WORLD, &size);
    MPI_Comm_set_errhandler(MPI_COMM_WORLD, MPI_ERRORS_RETURN);
    if (rank == 0) {   /* handlers are the whole process', so one rank has one */
        signal(SIGUSR1, handle);
        raise(SIGUSR1);
        CHECK(handled == SIGUSR1);
    }
    if (!strcmp(argv[1], "fclose")) {
        close_output(rank, size);
        return 0;
    }
    if (rank == size - 1) {
        end(argv[1]);
        return 0;   /* without MPI_Finalize */
    }
    CHECK(class_of(MPI_Recv(&x, 1, MPI_INT, size - 1, 0, MPI_COMM_WORLD, MPI_STATUS_IGNORE)) == MPIX_ERR_PROC_FAILED);
    if (rank == 0) printf("seen\n");
    MPI_Finalize();
    return faults != 0;
}
