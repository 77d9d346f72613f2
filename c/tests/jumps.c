/* A solver with a handler that jumps out of the step in which an error is met, as Fenix does: behind the jump all agree, roll back and go on. */
#include <mpi.h>
#include <setjmp.h>
#include <stdio.h>
#include <stdlib.h>
#if defined OPEN_MPI
#include <mpi-ext.h>
#endif

enum { STEPS = 3, PARTS = 12 };

static MPI_Comm comm;
static MPI_Errhandler handler;
static int rank, size, step;
static long long value = 1, next; /* the state of the last step that all made, and of this one */
static jmp_buf restart;
static int may_jump;

/* In the middle of whatever met the error. */
static void jump(MPI_Comm *of, int *code, ...) {
    (void)of, (void)code;
    if (!may_jump) return;
    may_jump = 0;
    MPIX_Comm_revoke(comm);
    longjmp(restart, 1);
}

static void use(MPI_Comm made) {
    comm = made;
    MPI_Comm_set_errhandler(comm, handler);
    MPI_Comm_rank(comm, &rank);
    MPI_Comm_size(comm, &size);
}

static long long work_of(int part, long long of) { return (of * (part + 3) + part) % 1009; }

/* Looks at no error: those jump. */
static void make_step(void) {
    long long own = 0, left = 0;
    for (int part = rank; part < PARTS; part += size) own += work_of(part, value);
    MPI_Allreduce(&own, &next, 1, MPI_LONG_LONG, MPI_SUM, comm);
    MPI_Sendrecv(&next, 1, MPI_LONG_LONG, (rank + 1) % size, 1, &left, 1, MPI_LONG_LONG, (rank + size - 1) % size, 1, comm, MPI_STATUS_IGNORE);
    if (left != next) exit(5);
}

/* Whether all made the step. */
static int have_all(int ok) {
    may_jump = 0;
    return MPIX_Comm_agree(comm, &ok) == MPI_SUCCESS && ok;
}

static void recover(void) {
    MPI_Comm made;
    if (MPIX_Comm_shrink(comm, &made)) exit(4);
    use(made);
}

/* Before the last agreement, so that somebody tells it. */
static void tell(void) {
    long long alone = 1;
    if (step + 1 < STEPS) return;
    for (int k = 0; k < STEPS; k++) {
        long long sum = 0;
        for (int part = 0; part < PARTS; part++) sum += work_of(part, alone);
        alone = sum;
    }
    if (next != alone) exit(1);
    if (rank == 0) printf("value %lld\n", next);
}

int main(int count, char **words) {
    MPI_Init(&count, &words);
    MPI_Comm_create_errhandler(jump, &handler);
    use(MPI_COMM_WORLD);
    while (step < STEPS) {
        volatile int ok = 0;
        if (setjmp(restart) == 0) {
            may_jump = 1;
            make_step();
            tell();
            ok = 1;
        }
        if (!have_all(ok)) {
            recover();
            continue;
        }
        value = next;
        step++;
    }
    MPI_Finalize();
    return 0;
}
