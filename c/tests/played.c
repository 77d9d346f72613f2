/* What a run that is played by a controller has to show: the first word says what is done. */
#include "check.h"
#include <fcntl.h>
#include <pthread.h>
#include <sys/mman.h>
#include <sys/time.h>
#include <unistd.h>

enum { LARGE = 1 << 20 };
static int rank, size;
static int begun;   /* each schedule begins with memory as it was */
static unsigned char *large;

/* Who of the others is received first. */
static int first(void) {
    int x = 0;
    MPI_Status status = {.MPI_SOURCE = 0};
    for (int k = 1; rank == 0 && k < size; k++) MPI_Recv(&x, 1, MPI_INT, MPI_ANY_SOURCE, 1, MPI_COMM_WORLD, k == 1 ? &status : MPI_STATUS_IGNORE);
    if (rank) MPI_Send(&rank, 1, MPI_INT, 0, 1, MPI_COMM_WORLD);
    return status.MPI_SOURCE;
}

/* Memory that was given and written before, and during the schedule. */
static int memory(void) {
    unsigned char *more = calloc(LARGE, 1);
    CHECK(begun++ == 0 && more);
    for (int k = 0; k < LARGE; k += 997) {
        CHECK(large[k] == (unsigned char)k && more[k] == 0);
        large[k] = more[k] = 77;
    }
    int x = first();
    free(more);
    return x == 2 ? 5 : 0;
}

/* A loop over looks that nobody ends. */
static void look(const char *how) {
    int flag = 0, x;
    MPI_Request request;
    if (rank) return;
    MPI_Irecv(&x, 1, MPI_INT, 1, 9, MPI_COMM_WORLD, &request);
    while (!flag) {
        MPI_Group failed;
        if (!strcmp(how, "test")) MPI_Test(&request, &flag, MPI_STATUS_IGNORE);
        if (!strcmp(how, "revoked")) MPIX_Comm_is_revoked(MPI_COMM_WORLD, &flag);
        if (strcmp(how, "failed")) continue;
        MPIX_Comm_get_failed(MPI_COMM_WORLD, &failed);
        MPI_Group_size(failed, &flag);
        MPI_Group_free(&failed);
    }
}

/* It goes by the clock, or by the process, so that it doesn't do the same again. */
static int other(const char *how) {
    struct timeval now = {0};
    if (!strcmp(how, "clock")) gettimeofday(&now, 0);
    int x = 0, differs = !strcmp(how, "clock") ? now.tv_usec % 2 : getpid() % 2;
    if (rank == 1) MPI_Send(&rank, 1, MPI_INT, 0, 1 + differs, MPI_COMM_WORLD);
    if (rank == 0) MPI_Recv(&x, 1, MPI_INT, 1, MPI_ANY_TAG, MPI_COMM_WORLD, MPI_STATUS_IGNORE);
    return 0;
}

/* A file and a mapping that stay. */
static void leave(void) {
    if (rank == 0) CHECK(open("/dev/null", O_RDONLY) >= 0 && mmap(0, LARGE, PROT_READ, MAP_PRIVATE | MAP_ANONYMOUS, -1, 0) != MAP_FAILED);
}

static void *nothing(void *of) { return of; }

static void thread(void) {
    pthread_t thread;
    if (rank == 0 && pthread_create(&thread, 0, nothing, 0) == 0) pthread_join(thread, 0);
}

int main(int argc, char **argv) {
    const char *how = argc > 1 ? argv[1] : "";
    int status = 0;
    large = malloc(LARGE);
    for (int k = 0; k < LARGE; k++) large[k] = (unsigned char)k;
    MPI_Init(&argc, &argv);
    MPI_Comm_rank(MPI_COMM_WORLD, &rank);
    MPI_Comm_size(MPI_COMM_WORLD, &size);
    if (!strcmp(how, "memory")) status = memory();
    else if (!strcmp(how, "crash")) status = first() == 2 ? *(volatile int *)0 : 0;
    else if (!strcmp(how, "clock") || !strcmp(how, "process")) status = other(how);
    else if (!strcmp(how, "files")) first(), leave();
    else if (!strcmp(how, "thread")) first(), thread();
    else look(how);
    MPI_Finalize();
    return status ? status : faults != 0;
}
