/* A program that a plain compiler links, by the words that ulfm-mpicc tells. With COPY it has a copy of a variable of the C library that may change, with
   THREAD a variable of a thread: such a one is refused. */
#include <mpi.h>
#include <stdio.h>

static int count;
#ifdef COPY
extern char **environ;
#endif
#ifdef THREAD
static __thread int own;
#endif

int main(int words, char **word) {
    int rank, size;
    MPI_Init(&words, &word);
    MPI_Comm_rank(MPI_COMM_WORLD, &rank);
    MPI_Comm_size(MPI_COMM_WORLD, &size);
    count += rank;
#ifdef COPY
    count += environ == 0;
#endif
#ifdef THREAD
    count += own++;
#endif
    fprintf(stdout, "%d of %d\n", count, size);
    MPI_Finalize();
    return count != rank;
}
