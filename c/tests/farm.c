/* A task farm: a manager waits for any of its workers by a request for each. Where a worker stops, another one gets its task, and nobody else is told; where
   the manager stops, the others shrink, and the first of them begins anew. */
#include <mpi.h>
#include <stdio.h>
#include <stdlib.h>
#if defined OPEN_MPI
#include <mpi-ext.h>
#endif

enum { TASKS = 4, MOST = 8, STOP = -1, NONE = -2, TASK = 1, ANSWER = 2 };

static MPI_Comm comm;
static int rank, size;
static MPI_Request answers[MOST];
static int answer[MOST], task_of[MOST], results[TASKS], is_done[TASKS];

static void use(MPI_Comm made) {
    comm = made;
    MPI_Comm_set_errhandler(comm, MPI_ERRORS_RETURN);
    MPI_Comm_rank(comm, &rank);
    MPI_Comm_size(comm, &size);
}

static int work_on(int task) { return task * task + 1; }

/* A task that nobody has and that isn't done. */
static int next_task(void) {
    for (int task = 0; task < TASKS; task++) {
        int is_taken = is_done[task];
        for (int worker = 1; worker < size; worker++) is_taken = is_taken || task_of[worker] == task;
        if (!is_taken) return task;
    }
    return STOP;
}

/* Gives a worker a task, if there is one, and waits for its answer beside the others'. */
static void give(int worker) {
    int task = next_task();
    if (task == STOP) return;
    if (MPI_Send(&task, 1, MPI_INT, worker, TASK, comm)) return;
    if (MPI_Irecv(&answer[worker], 1, MPI_INT, worker, ANSWER, comm, &answers[worker])) return;
    task_of[worker] = task;
}

/* The manager. Who failed has no request any more; what it had is given to those that wait for work. */
static void manage(void) {
    for (int task = 0; task < TASKS; task++) is_done[task] = 0;
    for (int worker = 0; worker < size; worker++) answers[worker] = MPI_REQUEST_NULL, task_of[worker] = NONE;
    for (int worker = 1; worker < size; worker++) give(worker);
    for (int which; MPI_Waitany(size, answers, &which, MPI_STATUS_IGNORE) == MPI_SUCCESS || which != MPI_UNDEFINED;) {
        if (which == MPI_UNDEFINED) break;
        int task = task_of[which], failed = answers[which] != MPI_REQUEST_NULL || answer[which] != work_on(task);
        task_of[which] = NONE;
        if (!failed) results[task] = answer[which], is_done[task] = 1;
        answer[which] = 0;
        for (int worker = 1; worker < size; worker++)
            if (task_of[worker] == NONE) give(worker);
    }
    for (int task = next_task(); task != STOP; task = next_task()) results[task] = work_on(task), is_done[task] = 1; /* no worker is left */
}

/* All agree that the tasks are done. The result is told before, and the workers are let go. */
static int end(void) {
    int sum = 0, stop = STOP;
    for (int task = 0; task < TASKS; task++) sum += results[task];
    printf("the sum of %d results: %d\n", TASKS, sum);
    fflush(stdout);
    for (int worker = 1; worker < size; worker++) MPI_Send(&stop, 1, MPI_INT, worker, TASK, comm);
    return MPI_SUCCESS;
}

static int work(void) {
    for (;;) {
        int task, code = MPI_Recv(&task, 1, MPI_INT, 0, TASK, comm, MPI_STATUS_IGNORE);
        if (code || task == STOP) return code;
        int result = work_on(task);
        if ((code = MPI_Send(&result, 1, MPI_INT, 0, ANSWER, comm))) return code;
    }
}

int main(int count, char **words) {
    MPI_Init(&count, &words);
    use(MPI_COMM_WORLD);
    for (;;) {
        if (rank == 0) manage();
        int ok = (rank == 0 ? end() : work()) == MPI_SUCCESS;
        MPIX_Comm_agree(comm, &ok); /* a worker that failed is no matter */
        if (ok) break;
        MPI_Comm made;
        if (MPIX_Comm_shrink(comm, &made)) exit(4);
        use(made);
    }
    MPI_Finalize();
    return 0;
}
