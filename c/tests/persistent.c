/* Persistent requests; what it prints is the same with each MPI. For 2 or more ranks. */
#include "check.h"

static int rank, size, next, before;
static MPI_Comm world = MPI_COMM_WORLD;

/* A ring that is started again and again, with a type that was freed. */
static void ring(void) {
    int out[6], in[6] = {0}, flag, index;
    MPI_Datatype apart;
    MPI_Request requests[2], copies[2];
    MPI_Status statuses[2];
    MPI_Type_vector(3, 1, 2, MPI_INT, &apart);
    MPI_Type_commit(&apart);
    MPI_Send_init(out, 1, apart, next, 4, world, &requests[0]);
    MPI_Recv_init(in, 3, MPI_INT, before, MPI_ANY_TAG, world, &requests[1]);
    MPI_Type_free(&apart);
    MPI_Type_vector(2, 1, 5, MPI_INT, &apart);
    memcpy(copies, requests, sizeof copies);
    for (int round = 0; round < 6; round++) {
        for (int k = 0; k < 6; k++) out[k] = 100 * round + 10 * rank + k;
        if (round % 2) MPI_Startall(2, requests);
        else MPI_Start(&requests[1]), MPI_Start(&requests[0]);
        if (round < 3) MPI_Waitall(2, requests, statuses);
        else if (round < 5) MPI_Wait(&requests[1], &statuses[1]), MPI_Wait(&requests[0], MPI_STATUS_IGNORE);
        for (int done = 0; round == 5 && done < 2; done++) {
            MPI_Waitany(2, requests, &index, MPI_STATUS_IGNORE);
            CHECK(index == 0 || index == 1);
        }
        for (int k = 0; k < 3; k++) CHECK(in[k] == 100 * round + 10 * before + 2 * k);
        CHECK(!memcmp(copies, requests, sizeof copies));
        CHECK(round == 5 || (statuses[1].MPI_SOURCE == before && statuses[1].MPI_TAG == 4));
    }
    MPI_Waitany(2, requests, &index, &statuses[0]);
    MPI_Test(&requests[0], &flag, &statuses[1]);
    CHECK(index == MPI_UNDEFINED && flag && statuses[1].MPI_SOURCE == MPI_ANY_SOURCE && statuses[1].MPI_TAG == MPI_ANY_TAG);
    MPI_Waitall(2, requests, statuses);
    MPI_Request_free(&requests[0]);
    MPI_Request_free(&requests[1]);
    CHECK(requests[0] == MPI_REQUEST_NULL);
    MPI_Type_free(&apart);
}

static void others(void) {
    int x = rank, y = -1, flag;
    MPI_Request send, receive, none = MPI_REQUEST_NULL;
    MPI_Status status;
    MPI_Ssend_init(&x, 1, MPI_INT, next, 5, world, &send);
    MPI_Recv_init(&y, 1, MPI_INT, MPI_PROC_NULL, 5, world, &receive);
    MPI_Start(&receive);
    MPI_Wait(&receive, &status);
    CHECK(receive != MPI_REQUEST_NULL);
    MPI_Request_free(&receive);
    MPI_Recv_init(&y, 1, MPI_INT, before, 5, world, &receive);
    MPI_Start(&receive);
    MPI_Start(&send);
    MPI_Waitall(2, (MPI_Request[]){send, receive}, MPI_STATUSES_IGNORE);
    CHECK(y == before);
    MPI_Start(&receive);
    MPI_Cancel(&receive);
    MPI_Wait(&receive, &status);
    MPI_Test_cancelled(&status, &flag);
    CHECK(flag && receive != MPI_REQUEST_NULL);
    MPI_Request_free(&receive);
    MPI_Request_free(&send);
    CHECK(class_of(MPI_Start(&none)) == MPI_ERR_REQUEST);
    CHECK(class_of(MPI_Send_init(&x, -1, MPI_INT, 0, 0, world, &send)) == MPI_ERR_COUNT);
    CHECK(class_of(MPI_Recv_init(&x, 1, MPI_INT, size, 0, world, &send)) == MPI_ERR_RANK);
}

int main(int argc, char **argv) {
    int all = 0;
    MPI_Init(&argc, &argv);
    MPI_Comm_rank(world, &rank);
    MPI_Comm_size(world, &size);
    MPI_Comm_set_errhandler(world, MPI_ERRORS_RETURN);
    next = (rank + 1) % size;
    before = (rank + size - 1) % size;
    ring();
    others();
    MPI_Reduce(&faults, &all, 1, MPI_INT, MPI_SUM, 0, world);
    if (rank == 0) printf("faults: %d\n", all);
    MPI_Finalize();
    return faults != 0;
}
