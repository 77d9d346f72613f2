/* Collectives that don't block, after failures and revocations, and what they answer to wrong arguments. Rank 1 fails at once. For 4 ranks. */
#include "check.h"
#include <unistd.h>

static int rank, size;
static MPI_Comm world;

static void until_known(void) {
    MPI_Group failed;
    int count = 0;
    while (!count) {
        MPIX_Comm_get_failed(world, &failed);
        MPI_Group_size(failed, &count);
        if (count) MPI_Group_free(&failed);
    }
}

static int end(MPI_Request *request) {
    MPI_Status status = {.MPI_ERROR = 77};
    int code = MPI_Wait(request, &status);
    CHECK(*request == MPI_REQUEST_NULL && status.MPI_ERROR == 77);
    return class_of(code);
}

/* Who can't have what it asked for, or tell who should have it, has an error; it is told where the request ends. */
static void failed(void) {
    int x = rank, y = -1, all[4], more[4], from = rank == 0 ? 5 : -1;
    MPI_Request request;
    CHECK(MPI_Iallreduce(&x, &y, 1, MPI_INT, MPI_SUM, world, &request) == MPI_SUCCESS);
    CHECK(end(&request) == MPIX_ERR_PROC_FAILED && y == -1);
    CHECK(MPI_Ibarrier(world, &request) == MPI_SUCCESS && end(&request) == MPIX_ERR_PROC_FAILED);
    CHECK(MPI_Ibcast(&from, 1, MPI_INT, 0, world, &request) == MPI_SUCCESS);
    CHECK(end(&request) == (rank ? MPI_SUCCESS : MPIX_ERR_PROC_FAILED) && from == 5);
    CHECK(MPI_Ibcast(&x, 1, MPI_INT, 1, world, &request) == MPI_SUCCESS);
    CHECK(end(&request) == MPIX_ERR_PROC_FAILED);
    CHECK(MPI_Igather(&x, 1, MPI_INT, all, 1, MPI_INT, 3, world, &request) == MPI_SUCCESS);
    CHECK(end(&request) == (rank == 3 ? MPIX_ERR_PROC_FAILED : MPI_SUCCESS) && (rank != 3 || (all[0] == 0 && all[2] == 2 && all[3] == 3)));
    CHECK(MPI_Ireduce(&x, &y, 1, MPI_INT, MPI_SUM, 1, world, &request) == MPI_SUCCESS);
    CHECK(end(&request) == MPIX_ERR_PROC_FAILED);
    CHECK(MPI_Ialltoall(all, 1, MPI_INT, more, 1, MPI_INT, world, &request) == MPI_SUCCESS);
    CHECK(end(&request) == MPIX_ERR_PROC_FAILED);
    CHECK(class_of(MPI_Allgather(&x, 1, MPI_INT, all, 1, MPI_INT, world)) == MPIX_ERR_PROC_FAILED);
}

/* What others of a list of requests are, where one has an error. */
static void several(void) {
    int x = rank, y, z;
    MPI_Request two[2];
    MPI_Status statuses[2];
    MPI_Ireduce(&x, &y, 1, MPI_INT, MPI_SUM, 1, world, &two[0]);
    MPI_Irecv(&z, 1, MPI_INT, MPI_PROC_NULL, 0, world, &two[1]);
    CHECK(class_of(MPI_Waitall(2, two, statuses)) == MPI_ERR_IN_STATUS);
    CHECK(statuses[0].MPI_ERROR == MPIX_ERR_PROC_FAILED && statuses[1].MPI_ERROR == MPI_SUCCESS);
    CHECK(two[0] == MPI_REQUEST_NULL && two[1] == MPI_REQUEST_NULL);
}

static MPI_Comm told;
static void note(MPI_Comm *comm, int *code, ...) { told = *comm, (void)code; }

/* The handler that is called is that of the request with the error, not that of one before it that isn't over. */
static void handled(void) {
    int x = rank, z, count, at[2];
    MPI_Request two[2];
    MPI_Status statuses[2];
    MPI_Errhandler handler;
    MPI_Comm_create_errhandler(note, &handler);
    MPI_Comm_set_errhandler(world, handler);
    MPI_Comm_set_errhandler(MPI_COMM_SELF, handler);
    MPI_Irecv(&z, 1, MPI_INT, 0, 0, MPI_COMM_SELF, &two[0]);
    for (int how = 0; how < 2; how++) {
        MPI_Ireduce(&x, &z, 1, MPI_INT, MPI_SUM, 1, world, &two[1]);
        told = MPI_COMM_NULL;
        CHECK(class_of(how ? MPI_Waitsome(2, two, &count, at, statuses) : MPI_Waitall(2, two, statuses)) == MPI_ERR_IN_STATUS);
        CHECK(told == world && two[0] != MPI_REQUEST_NULL && two[1] == MPI_REQUEST_NULL);
        CHECK(how ? count == 1 && at[0] == 1 : statuses[0].MPI_ERROR == MPI_ERR_PENDING);
    }
    MPI_Cancel(&two[0]);
    MPI_Wait(&two[0], MPI_STATUS_IGNORE);
    MPI_Comm_set_errhandler(MPI_COMM_SELF, MPI_ERRORS_ARE_FATAL);
    MPI_Comm_set_errhandler(world, MPI_ERRORS_RETURN);
    MPI_Errhandler_free(&handler);
}

/* Rank 0 is alone in a barrier, a scatter and a sum, until rank 2 revokes; rank 3 has the communicator only after that. */
static void revoked(void) {
    MPI_Request requests[3];
    MPI_Status statuses[3];
    MPI_Comm part;
    int x = 0, y = 7, flag = 0, code;
    if (rank != 3) usleep(50000);
    MPIX_Comm_ishrink(world, &part, &requests[0]);
    if (rank == 3) usleep(200000);
    while (!flag) CHECK(MPI_Test(&requests[0], &flag, MPI_STATUS_IGNORE) == MPI_SUCCESS);
    flag = 0;
    MPI_Comm_set_errhandler(part, MPI_ERRORS_RETURN);
    if (rank == 0) {
        MPI_Ibarrier(part, &requests[0]);
        MPI_Iscatter(NULL, 0, MPI_DATATYPE_NULL, &x, 1, MPI_INT, 1, part, &requests[1]);
        MPI_Iallreduce(&x, &y, 1, MPI_INT, MPI_SUM, part, &requests[2]);
        MPI_Testall(3, requests, &flag, statuses);
        CHECK(!flag && class_of(MPI_Cancel(&requests[0])) == MPI_ERR_REQUEST && class_of(MPI_Request_free(&requests[1])) == MPI_ERR_REQUEST);
        MPI_Send(&x, 1, MPI_INT, 2, 1, world);
        code = MPI_Waitall(3, requests, statuses);
        CHECK(class_of(code) == MPI_ERR_IN_STATUS && statuses[0].MPI_ERROR == MPIX_ERR_REVOKED);
        for (int k = 0; k < 3; k++) CHECK(requests[k] == MPI_REQUEST_NULL || class_of(MPI_Wait(&requests[k], MPI_STATUS_IGNORE)) == MPIX_ERR_REVOKED);
        CHECK(y == 7);
    }
    if (rank == 2) MPI_Recv(&x, 1, MPI_INT, 0, 1, world, MPI_STATUS_IGNORE), MPIX_Comm_revoke(part);
    do MPIX_Comm_is_revoked(part, &flag); while (!flag);
    CHECK(MPI_Iallreduce(&x, &y, 1, MPI_INT, MPI_SUM, part, &requests[0]) == MPI_SUCCESS && end(&requests[0]) == MPIX_ERR_REVOKED);
    CHECK(class_of(MPI_Gather(&x, 1, MPI_INT, (int[4]){0}, 1, MPI_INT, 0, part)) == MPIX_ERR_REVOKED);
    MPI_Comm_free(&part);
}

/* Requests go on while other calls wait, and end in another order. */
static void overlapping(void) {
    MPI_Comm part, freed;
    MPI_Request requests[4];
    int sum = 0, most = 0, own, token = rank, members, at, sent[3], got[3] = {0}, flag = 0;
    MPIX_Comm_shrink(world, &part);
    MPI_Comm_rank(part, &own);
    MPI_Comm_size(part, &members);
    MPI_Comm_dup(part, &freed);
    for (int k = 0; k < 3; k++) sent[k] = 10 * own + k;
    MPI_Iallreduce(&own, &sum, 1, MPI_INT, MPI_SUM, part, &requests[0]);
    MPI_Ialltoall(sent, 1, MPI_INT, got, 1, MPI_INT, part, &requests[1]);
    MPI_Ibcast(&token, 1, MPI_INT, 2, part, &requests[2]);
    MPI_Iallreduce(&own, &most, 1, MPI_INT, MPI_MAX, freed, &requests[3]);
    MPI_Comm_free(&freed);
    MPI_Barrier(part);
    CHECK(MPI_Wait(&requests[3], MPI_STATUS_IGNORE) == MPI_SUCCESS && most == 2);
    CHECK(MPI_Wait(&requests[2], MPI_STATUS_IGNORE) == MPI_SUCCESS && token == 3);
    CHECK(MPI_Waitany(2, requests, &at, MPI_STATUS_IGNORE) == MPI_SUCCESS && requests[at] == MPI_REQUEST_NULL);
    while (!flag) MPI_Testall(2, requests, &flag, MPI_STATUSES_IGNORE);
    CHECK(members == 3 && sum == 3 && got[0] == own && got[1] == 10 + own && got[2] == 20 + own);
    MPI_Comm_free(&part);
}

/* A request that stands is in the way at each rank, also where it was decided before the next one is asked for. */
static void one_at_a_time(void) {
    int flag = 3, other = 1;
    MPI_Comm made, more;
    MPI_Request request, second;
    CHECK(MPIX_Comm_iagree(world, &flag, &request) == MPI_SUCCESS);
    usleep(rank * 2000);
    CHECK(class_of(MPIX_Comm_iagree(world, &other, &second)) == MPI_ERR_OTHER && second == MPI_REQUEST_NULL);
    CHECK(class_of(MPIX_Comm_agree(world, &other)) == MPI_ERR_OTHER && other == 1);
    CHECK(end(&request) == MPI_SUCCESS && flag == 3);
    CHECK(MPIX_Comm_ishrink(world, &made, &request) == MPI_SUCCESS);
    usleep(rank * 2000);
    CHECK(class_of(MPIX_Comm_ishrink(world, &more, &second)) == MPI_ERR_OTHER && second == MPI_REQUEST_NULL);
    CHECK(end(&request) == MPI_SUCCESS && MPI_Comm_free(&made) == MPI_SUCCESS);
}

/* Agreements and shrinks that don't block; one of each of a communicator at a time. */
static void recoveries(void) {
    int flag = rank == 0 ? 6 : 7, other = 1, x = 0, members, sum;
    MPI_Comm made = MPI_COMM_NULL, more;
    MPI_Request request, second;
    CHECK(MPIX_Comm_iagree(world, &flag, &request) == MPI_SUCCESS);
    CHECK(end(&request) == MPIX_ERR_PROC_FAILED && flag == 6);
    MPIX_Comm_failure_ack(world);
    flag = rank == 2 ? 0x40000001 : 0x7fffff01;   /* takes two agreements of the engine: ranks 0 and 3 enter the second while they wait for rank 2 */
    CHECK(MPIX_Comm_iagree(world, &flag, &request) == MPI_SUCCESS);
    if (rank == 2) CHECK(end(&request) == MPI_SUCCESS);
    for (int to = 0; rank == 2 && to < 4; to += 3) MPI_Send(&rank, 1, MPI_INT, to, 9, world);
    if (rank != 2) MPI_Recv(&x, 1, MPI_INT, 2, 9, world, MPI_STATUS_IGNORE);
    CHECK(rank == 2 || (x == 2 && end(&request) == MPI_SUCCESS));
    CHECK(flag == 0x40000001);
    if (rank == 0) {
        CHECK(MPIX_Comm_iagree(world, &flag, &request) == MPI_SUCCESS);
        CHECK(class_of(MPIX_Comm_iagree(world, &other, &second)) == MPI_ERR_OTHER && second == MPI_REQUEST_NULL);
        CHECK(class_of(MPI_Cancel(&request)) == MPI_ERR_REQUEST);
        MPI_Send(&x, 1, MPI_INT, 2, 9, world), MPI_Send(&x, 1, MPI_INT, 3, 9, world);
        CHECK(end(&request) == MPI_SUCCESS);
    } else {
        MPI_Recv(&x, 1, MPI_INT, 0, 9, world, MPI_STATUS_IGNORE);
        CHECK(MPIX_Comm_agree(world, &flag) == MPI_SUCCESS);
    }
    CHECK(flag == 0x40000001);
    one_at_a_time();
    CHECK(MPIX_Comm_ishrink(world, &made, &request) == MPI_SUCCESS);
    MPI_Comm_size(world, &members);
    CHECK(end(&request) == MPI_SUCCESS && made != MPI_COMM_NULL);
    MPI_Comm_size(made, &members);
    CHECK(members == 3 && MPI_Allreduce(&rank, &sum, 1, MPI_INT, MPI_SUM, made) == MPI_SUCCESS && sum == 5);
    CHECK(MPI_Comm_split(made, 0, 0, &more) == MPI_SUCCESS);
    CHECK(class_of(MPIX_Comm_ishrink(MPI_COMM_NULL, &made, &request)) == MPI_ERR_COMM);
    MPI_Comm_free(&more);
    MPI_Comm_free(&made);
}

int main(int argc, char **argv) {
    MPI_Init(&argc, &argv);
    MPI_Comm_rank(MPI_COMM_WORLD, &rank);
    MPI_Comm_size(MPI_COMM_WORLD, &size);
    world = MPI_COMM_WORLD;
    MPI_Comm_set_errhandler(world, MPI_ERRORS_RETURN);
    if (rank == 1) exit(0);
    until_known();
    failed();
    several();
    handled();
    revoked();
    overlapping();
    recoveries();
    printf("faults: %d\n", faults);
    MPI_Finalize();
    return faults != 0;
}
