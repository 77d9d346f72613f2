/* What a rank forks is a process, and ends as one. */
#include "check.h"
#include <signal.h>
#include <sys/wait.h>
#include <unistd.h>

/* How a child ended that ends so. */
static int ended(int how) {
    int status = -1;
    pid_t child = fork();
    if (child == 0) {
        if (how == 0) _exit(6);
        if (how == 1) raise(SIGTERM);
        if (how == 2) abort();
        printf("ended\n");
        exit(7);
    }
    waitpid(child, &status, 0);
    return status;
}

int main(int argc, char **argv) {
    int rank, status;
    MPI_Init(&argc, &argv);
    MPI_Comm_rank(MPI_COMM_WORLD, &rank);
    if (rank == 0) {
        status = ended(0);
        CHECK(WIFEXITED(status) && WEXITSTATUS(status) == 6);
        status = ended(1);
        CHECK(WIFSIGNALED(status) && WTERMSIG(status) == SIGTERM);
        status = ended(2);
        CHECK(WIFSIGNALED(status) && WTERMSIG(status) == SIGABRT);
        printf("begun and ");
        fflush(stdout);
#ifdef __SANITIZE_ADDRESS__   /* which looks for leaks at exit, and for the threads that the child hasn't */
        printf("ended\n");
#else
        status = ended(3);
        CHECK(WIFEXITED(status) && WEXITSTATUS(status) == 7);
#endif
    }
    MPI_Barrier(MPI_COMM_WORLD);
    if (rank == 0) printf("faults: %d\n", faults);
    MPI_Finalize();
    return faults != 0;
}
