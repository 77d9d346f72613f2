/* Start and end: the level of threads, and the attributes that MPI_Finalize deletes. With a word: by MPI_Init, which gives the lowest level. */
#include "check.h"
#include <stdint.h>

static int rank;

static int told(MPI_Comm comm, int key, void *value, void *extra) {
    (void)comm, (void)key;
    if (rank == 0) printf("%s %d\n", (const char *)extra, (int)(intptr_t)value);
    return MPI_SUCCESS;
}

static void set(MPI_Comm comm, const char *name, int value) {
    int key;
    MPI_Comm_create_keyval(MPI_COMM_NULL_COPY_FN, told, &key, (void *)(uintptr_t)name);
    MPI_Comm_set_attr(comm, key, (void *)(intptr_t)value);
}

int main(int argc, char **argv) {
    int provided = MPI_THREAD_SINGLE, asked = -1;
    if (argc > 1) MPI_Init(&argc, &argv);
    else MPI_Init_thread(&argc, &argv, MPI_THREAD_FUNNELED, &provided);
    MPI_Query_thread(&asked);
    CHECK(asked == provided);
    MPI_Comm_rank(MPI_COMM_WORLD, &rank);
    set(MPI_COMM_SELF, "self", 1);
    set(MPI_COMM_WORLD, "world", 3);
    set(MPI_COMM_SELF, "self", 2);
    MPI_Finalize();
    if (rank == 0) printf("faults: %d\n", faults);
    return faults != 0;
}
