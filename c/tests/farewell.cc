// What a program leaves for its end: each rank does it itself, where it isn't stopped before. The first word says how the last rank ends.
#include "check.h"
#include <csignal>
#include <pthread.h>
#include <string>

struct Environment {
    ~Environment() {
        int begun = 0, finalized = 0;
        MPI_Initialized(&begun);
        MPI_Finalized(&finalized);
        if (begun && !finalized) MPI_Finalize();
        printf("destroyed\n");
    }
} environment;

static void leave() {
    int finalized = -1;
    MPI_Finalized(&finalized);
    printf("finalized: %d\n", finalized);
}

// A further thread of the program asks.
static void *ask(void *) {
    int begun = -1, finalized = -1;
    MPI_Initialized(&begun);
    MPI_Finalized(&finalized);
    CHECK(begun == 1 && finalized == 0);
    return nullptr;
}

int main(int argc, char **argv) {
    std::string how = argc > 1 ? argv[1] : "return";
    int rank, size;
    pthread_t thread;
    MPI_Init(&argc, &argv);
    atexit(leave);
    MPI_Comm_rank(MPI_COMM_WORLD, &rank);
    MPI_Comm_size(MPI_COMM_WORLD, &size);
    pthread_create(&thread, nullptr, ask, nullptr);
    pthread_join(thread, nullptr);
    if (rank == size - 1 && how == "kill") raise(SIGKILL);
    if (how == "exit") exit(faults != 0);
    if (how == "finalize") MPI_Finalize();
    return faults != 0;
}
