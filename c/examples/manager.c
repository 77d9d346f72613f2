/* A manager and its workers. Where a worker stops, the manager gives its task to another one and goes on; where the manager stops, the others
   shrink, and the first of them is the manager of all tasks anew.

   The manager waits for answers of any worker. A failure makes that receive pend: the manager looks who failed, gives the lost tasks back,
   acknowledges, and waits on with the same request. Nobody leaves before all have agreed that the tasks are done.

     ulfm-mpicc -g manager.c -o manager
     ulfm-mpirun -n 4 --every-stop --same-output ./manager */
#include <mpi.h>
#include <stdio.h>
#include <stdlib.h>
#if defined OPEN_MPI
#include <mpi-ext.h>
#endif

enum { TASKS = 6, STOP = -1, TASK = 1, ANSWER = 2, MOST = 64 };

static MPI_Comm comm;
static int rank, size;
static int results[TASKS], is_given[TASKS], is_done[TASKS];
static int task_of[MOST], is_gone[MOST];   /* what each worker has, STOP: nothing; who failed */

static void use(MPI_Comm made) {
    comm = made;
    MPI_Comm_set_errhandler(comm, MPI_ERRORS_RETURN);
    MPI_Comm_rank(comm, &rank);
    MPI_Comm_size(comm, &size);
}

static int is_failure(int code) {
    int class;
    MPI_Error_class(code, &class);
    return class == MPIX_ERR_PROC_FAILED || class == MPIX_ERR_PROC_FAILED_PENDING;
}

static int work_on(int task) { return task * task + 1; }

/* Takes the tasks of those that failed back, and acknowledges their failures. */
static int look_who_failed(void) {
    MPI_Group failed, all;
    int count, total, code = MPIX_Comm_get_failed(comm, &failed);
    if (code) return code;
    MPI_Comm_group(comm, &all);
    MPI_Group_size(failed, &count);
    for (int k = 0; k < count; k++) {
        int who;
        MPI_Group_translate_ranks(failed, 1, &k, all, &who);
        if (!is_gone[who] && task_of[who] != STOP) is_given[task_of[who]] = 0;
        is_gone[who] = 1;
    }
    MPI_Group_free(&all);
    MPI_Group_free(&failed);
    return MPIX_Comm_ack_failed(comm, count, &total);
}

static int next_task(void) {
    for (int k = 0; k < TASKS; k++)
        if (!is_given[k] && !is_done[k]) return k;
    return STOP;
}

/* Gives each worker that has nothing a task. A worker that fails meanwhile is found by the next look. */
static int give_tasks(void) {
    for (int who = 1; who < size; who++) {
        int task = next_task();
        if (task == STOP || is_gone[who] || task_of[who] != STOP) continue;
        int code = MPI_Send(&task, 1, MPI_INT, who, TASK, comm);
        if (code && !is_failure(code)) return code;
        if (code) continue;
        task_of[who] = task;
        is_given[task] = 1;
    }
    return MPI_SUCCESS;
}

static int count_workers(void) {
    int count = 0;
    for (int who = 1; who < size; who++) count += !is_gone[who];
    return count;
}

/* Waits for an answer, through failures of workers: 1 where one came, 0 where the request was withdrawn since nobody works any more. */
static int wait_for_answer(int answer[2], int *who, int *came) {
    MPI_Request request;
    MPI_Status status;
    int code = MPI_Irecv(answer, 2, MPI_INT, MPI_ANY_SOURCE, ANSWER, comm, &request);
    while (code == MPI_SUCCESS) {
        code = MPI_Wait(&request, &status);
        if (!is_failure(code)) break;
        if ((code = look_who_failed())) break;
        if (!(code = give_tasks()) && count_workers() > 0) continue;
        MPI_Cancel(&request);
        MPI_Wait(&request, &status);
        break;
    }
    int cancelled = 0;
    if (code == MPI_SUCCESS) MPI_Test_cancelled(&status, &cancelled);
    *came = code == MPI_SUCCESS && !cancelled;
    *who = status.MPI_SOURCE;
    return code;
}

static int count_done(void) {
    int count = 0;
    for (int k = 0; k < TASKS; k++) count += is_done[k];
    return count;
}

/* All tasks are done, by workers as long as there are some. Then the workers are told to stop. */
static int manage(void) {
    for (int who = 0; who < size; who++) task_of[who] = STOP, is_gone[who] = 0;
    for (int k = 0; k < TASKS; k++) is_given[k] = 0;
    while (count_done() < TASKS) {
        int answer[2], who, came = 0, code = give_tasks();
        if (code) return code;
        if (count_workers() > 0 && (code = wait_for_answer(answer, &who, &came))) return code;
        if (!came) answer[0] = next_task(), answer[1] = work_on(answer[0]);
        else task_of[who] = STOP;
        is_done[answer[0]] = 1;
        results[answer[0]] = answer[1];
    }
    int stop = STOP;
    for (int who = 1; who < size; who++) {
        int code = MPI_Send(&stop, 1, MPI_INT, who, TASK, comm);
        if (code && !is_failure(code)) return code;
    }
    return MPI_SUCCESS;
}

/* Works on what the manager gives, until it says stop. */
static int work(void) {
    for (;;) {
        int answer[2], code = MPI_Recv(&answer[0], 1, MPI_INT, 0, TASK, comm, MPI_STATUS_IGNORE);
        if (code || answer[0] == STOP) return code;
        answer[1] = work_on(answer[0]);
        if ((code = MPI_Send(answer, 2, MPI_INT, 0, ANSWER, comm))) return code;
    }
}

int main(int argc, char **argv) {
    int sum = 0;
    MPI_Init(&argc, &argv);
    use(MPI_COMM_WORLD);
    for (;;) {
        int code = rank == 0 ? manage() : work(), ok = code == MPI_SUCCESS;
        if (code) MPIX_Comm_revoke(comm);
        if (rank == 0 && ok) {
            sum = 0;
            for (int k = 0; k < TASKS; k++) sum += results[k];
            printf("the sum of %d results: %d\n", TASKS, sum);
        }
        if (MPIX_Comm_agree(comm, &ok) == MPI_SUCCESS && ok) break;
        MPI_Comm made;
        if (MPIX_Comm_shrink(comm, &made)) return 4;
        use(made);
    }
    MPI_Finalize();
    return rank == 0 && sum != 61;
}
