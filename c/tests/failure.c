/* What calls answer after failures and revocations. Rank 1 fails at once, then rank 3. For 4 ranks. */
#include "check.h"
#include <unistd.h>

static int rank, size;
static MPI_Comm world;

/* Waits until so many failures are known. */
static void until_known(MPI_Comm comm, int wanted) {
    MPI_Group failed;
    int count = 0;
    while (count < wanted) {
        MPIX_Comm_get_failed(comm, &failed);
        MPI_Group_size(failed, &count);
        MPI_Group_free(&failed);
        if (count < wanted) usleep(100);
    }
}

static void named(void) {
    int x = 0, flag = -1;
    MPI_Request request, two[2];
    MPI_Status status, statuses[2];
    status.MPI_ERROR = 77;
    CHECK(class_of(MPI_Recv(&x, 1, MPI_INT, 1, 1, world, &status)) == MPIX_ERR_PROC_FAILED);
    CHECK(status.MPI_ERROR == 77);
    CHECK(class_of(MPI_Send(&x, 1, MPI_INT, 1, 1, world)) == MPIX_ERR_PROC_FAILED);
    CHECK(class_of(MPI_Ssend(&x, 1, MPI_INT, 1, 1, world)) == MPIX_ERR_PROC_FAILED);
    CHECK(MPI_Isend(&x, 1, MPI_INT, 1, 1, world, &request) == MPI_SUCCESS);
    CHECK(class_of(MPI_Wait(&request, &status)) == MPIX_ERR_PROC_FAILED && request == MPI_REQUEST_NULL);
    CHECK(MPI_Irecv(&x, 1, MPI_INT, 1, 1, world, &request) == MPI_SUCCESS);
    CHECK(class_of(MPI_Test(&request, &flag, &status)) == MPIX_ERR_PROC_FAILED && flag == 1);
    CHECK(MPI_Isendrecv(&x, 1, MPI_INT, rank, 9, &x, 1, MPI_INT, 1, 1, world, &request) == MPI_SUCCESS);
    CHECK(MPI_Recv(&x, 1, MPI_INT, rank, 9, world, &status) == MPI_SUCCESS);
    CHECK(class_of(MPI_Wait(&request, &status)) == MPIX_ERR_PROC_FAILED && request == MPI_REQUEST_NULL);
    CHECK(class_of(MPI_Probe(1, 1, world, &status)) == MPIX_ERR_PROC_FAILED);
    CHECK(class_of(MPI_Iprobe(1, 1, world, &flag, &status)) == MPIX_ERR_PROC_FAILED && flag == 0);
    MPI_Irecv(&x, 1, MPI_INT, 1, 1, world, &two[0]);
    MPI_Irecv(&x, 1, MPI_INT, 0, 999, world, &two[1]);
    CHECK(class_of(MPI_Waitall(2, two, statuses)) == MPI_ERR_IN_STATUS);
    CHECK(statuses[0].MPI_ERROR == MPIX_ERR_PROC_FAILED && statuses[1].MPI_ERROR == MPI_ERR_PENDING);
    CHECK(two[0] == MPI_REQUEST_NULL && two[1] != MPI_REQUEST_NULL);
    MPI_Cancel(&two[1]);
    MPI_Wait(&two[1], MPI_STATUS_IGNORE);
}

static void wild(void) {
    int x = 0, y, flag, count;
    MPI_Request request, both;
    MPI_Status status;
    CHECK(class_of(MPI_Recv(&x, 1, MPI_INT, MPI_ANY_SOURCE, 2, world, &status)) == MPIX_ERR_PROC_FAILED);
    CHECK(MPI_Isendrecv(&x, 1, MPI_INT, MPI_PROC_NULL, 3, &y, 1, MPI_INT, MPI_ANY_SOURCE, 3, world, &both) == MPI_SUCCESS);
    CHECK(class_of(MPI_Wait(&both, &status)) == MPIX_ERR_PROC_FAILED_PENDING && both != MPI_REQUEST_NULL);
    CHECK(class_of(MPI_Iprobe(MPI_ANY_SOURCE, 2, world, &flag, &status)) == MPIX_ERR_PROC_FAILED_PENDING);
    CHECK(MPI_Irecv(&x, 1, MPI_INT, MPI_ANY_SOURCE, 2, world, &request) == MPI_SUCCESS);
    CHECK(class_of(MPI_Wait(&request, &status)) == MPIX_ERR_PROC_FAILED_PENDING && request != MPI_REQUEST_NULL);
    CHECK(class_of(MPI_Test(&request, &flag, &status)) == MPIX_ERR_PROC_FAILED_PENDING && flag == 0);
    CHECK(class_of(MPIX_Comm_ack_failed(world, 2, &count)) == MPI_ERR_ARG);
    CHECK(MPIX_Comm_ack_failed(world, 0, &count) == MPI_SUCCESS && count == 0);
    CHECK(MPIX_Comm_ack_failed(world, 1, &count) == MPI_SUCCESS && count == 1);
    CHECK(MPI_Test(&request, &flag, &status) == MPI_SUCCESS && !flag);
    CHECK(MPI_Test(&both, &flag, &status) == MPI_SUCCESS && !flag && MPI_Request_free(&both) == MPI_SUCCESS);
    CHECK(MPIX_Comm_agree(world, &count) == MPI_SUCCESS);   /* nobody sends before all have come here */
    if (rank == 2) x = 5, MPI_Send(&x, 1, MPI_INT, 0, 2, world), x = 0, MPI_Send(&x, 1, MPI_INT, 2, 2, world);
    if (rank == 0) MPI_Send(&x, 1, MPI_INT, 3, 2, world);
    CHECK(MPI_Wait(&request, &status) == MPI_SUCCESS && (rank || x == 5) && status.MPI_SOURCE == (rank == 3 ? 0 : 2));
}

/* What all agree on: the AND of the flags, and one error. */
static void agreement(void) {
    int flag = rank == 0 ? 6 : 7, code;
    if (rank == 2) MPIX_Comm_failure_ack(world);
    code = MPIX_Comm_agree(world, &flag);
    CHECK(class_of(code) == MPI_SUCCESS && flag == 6);   /* all have acknowledged */
    flag = rank == 2 ? -2 : -1;
    CHECK(MPIX_Comm_agree(world, &flag) == MPI_SUCCESS && flag == -2);
    flag = rank == 2 ? 0x40000001 : 0x7fffff01;          /* more bits than one agreement of the engine carries */
    CHECK(MPIX_Comm_agree(world, &flag) == MPI_SUCCESS && flag == 0x40000001);
    MPI_Comm dup;
    CHECK(class_of(MPI_Comm_dup(world, &dup)) == MPIX_ERR_PROC_FAILED);
    CHECK(class_of(MPI_Barrier(world)) == MPIX_ERR_PROC_FAILED);
}

/* Rank 3 fails inside; the failure isn't acknowledged by all, so all have the same error. */
static void agreement_with_failure(void) {
    int flag = rank + 8, code;
    if (rank == 3) abort();
    if (rank == 0) until_known(world, 2), MPIX_Comm_failure_ack(world);
    code = MPIX_Comm_agree(world, &flag);
    CHECK(class_of(code) == MPIX_ERR_PROC_FAILED && flag == (8 & 10));
}

static void recovery(void) {
    MPI_Comm made, again;
    MPI_Group group, whole;
    int members, x = 0, code, one = 1, flag = 0;
    if (rank == 0) MPIX_Comm_revoke(world);
    do MPIX_Comm_is_revoked(world, &flag); while (!flag);
    CHECK(class_of(MPI_Send(&x, 1, MPI_INT, 0, 1, world)) == MPIX_ERR_REVOKED);
    CHECK(class_of(MPI_Recv(&x, 1, MPI_INT, 0, 1, world, MPI_STATUS_IGNORE)) == MPIX_ERR_REVOKED);
    CHECK(class_of(MPI_Barrier(world)) == MPIX_ERR_REVOKED);
    flag = 1;
    MPIX_Comm_failure_ack(world);
    code = MPIX_Comm_agree(world, &flag);
    CHECK(code == MPI_SUCCESS && flag == 1);
    CHECK(MPIX_Comm_shrink(world, &made) == MPI_SUCCESS);
    MPI_Comm_size(made, &members);
    CHECK(members == 2);
    CHECK(MPI_Allreduce(&one, &x, 1, MPI_INT, MPI_SUM, made) == MPI_SUCCESS && x == 2);
    CHECK(MPIX_Comm_shrink(world, &again) == MPI_SUCCESS);   /* the same one once more */
    CHECK(MPI_Allreduce(&one, &x, 1, MPI_INT, MPI_SUM, again) == MPI_SUCCESS && x == 2);
    MPI_Comm_group(again, &group);
    MPI_Comm_group(MPI_COMM_WORLD, &whole);
    MPI_Group_translate_ranks(group, 2, (int[]){0, 1}, whole, (int[2]){0});
    MPI_Comm_compare(made, again, &x);
    CHECK(x == MPI_CONGRUENT);
    MPI_Group_free(&group);
    MPI_Group_free(&whole);
    MPI_Comm_free(&made);
    MPI_Comm_free(&again);
}

int main(int argc, char **argv) {
    MPI_Init(&argc, &argv);
    MPI_Comm_rank(MPI_COMM_WORLD, &rank);
    MPI_Comm_size(MPI_COMM_WORLD, &size);
    MPI_Comm_dup(MPI_COMM_WORLD, &world);
    MPI_Comm_set_errhandler(world, MPI_ERRORS_RETURN);
    MPI_Comm_set_errhandler(MPI_COMM_WORLD, MPI_ERRORS_RETURN);
    if (rank == 1) exit(0);
    until_known(world, 1);
    named();
    wild();
    agreement();
    agreement_with_failure();
    recovery();
    if (rank == 0) printf("faults: %d\n", faults);
    MPI_Finalize();
    return faults != 0;
}
