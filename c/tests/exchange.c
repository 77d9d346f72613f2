/* Sends and receives as one request, and what a program writes into a status. For 2 or more ranks. */
#include "check.h"

enum { LONG = 3000 };
static int rank, size, next, before;
static MPI_Comm world = MPI_COMM_WORLD;

/* Round a ring, short and long, each rank beginning before it waits. */
static void ring(void) {
    static int out[LONG], in[LONG];
    for (int length = 1; length <= LONG; length += LONG - 1)
        for (int way = 0; way < 3; way++) {
            MPI_Request request;
            MPI_Status status;
            int flag = 0, count, index;
            for (int k = 0; k < LONG; k++) out[k] = 10 * rank + k + way, in[k] = -1;
            MPI_Isendrecv(out, length, MPI_INT, next, 5, in, LONG, MPI_INT, way ? before : MPI_ANY_SOURCE, way == 1 ? MPI_ANY_TAG : 5, world, &request);
            if (way == 0) MPI_Wait(&request, &status);
            while (way == 1 && !flag) MPI_Test(&request, &flag, &status);
            if (way == 2) MPI_Waitany(1, &request, &index, &status);
            MPI_Get_count(&status, MPI_INT, &count);
            CHECK(request == MPI_REQUEST_NULL && status.MPI_SOURCE == before && status.MPI_TAG == 5 && count == length);
            for (int k = 0; k < length; k++) CHECK(in[k] == 10 * before + k + way);
            CHECK(length == LONG || in[length] == -1);
        }
}

/* In one buffer, with a type that has gaps, and several at the same time. */
static void replaced(void) {
    int x[3][6];
    MPI_Datatype apart;
    MPI_Request requests[3];
    MPI_Status statuses[3];
    MPI_Type_vector(3, 1, 2, MPI_INT, &apart);
    MPI_Type_commit(&apart);
    for (int k = 0; k < 18; k++) x[k / 6][k % 6] = 100 * rank + k;
    for (int k = 0; k < 3; k++) MPI_Isendrecv_replace(x[k], 1, apart, next, k, before, k, world, &requests[k]);
    MPI_Type_free(&apart);
    MPI_Waitall(3, requests, statuses);
    for (int k = 0; k < 18; k++) CHECK(x[k / 6][k % 6] == (k % 2 ? 100 * rank + k : 100 * before + k));
    for (int k = 0; k < 3; k++) CHECK(requests[k] == MPI_REQUEST_NULL && statuses[k].MPI_SOURCE == before && statuses[k].MPI_TAG == k);
    MPI_Isendrecv_replace(x, 1, MPI_INT, MPI_PROC_NULL, 1, MPI_PROC_NULL, 1, world, &requests[0]);
    MPI_Wait(&requests[0], &statuses[0]);
    CHECK(statuses[0].MPI_SOURCE == MPI_PROC_NULL && x[0][0] == 100 * before);
}

/* One that isn't over, one that is freed, and those that are wrong. */
static void others(void) {
    int x = rank, y = -1, z = 0, flag = 1;
    MPI_Request request, send, wrong;
    MPI_Status status;
    MPI_Isendrecv(&x, 1, MPI_INT, next, 7, &y, 1, MPI_INT, before, 8, world, &request);
    MPI_Recv(&z, 1, MPI_INT, before, 7, world, &status);
    CHECK(z == before);
    MPI_Test(&request, &flag, &status);
    CHECK(!flag && request != MPI_REQUEST_NULL);
    MPI_Barrier(world);
    MPI_Isend(&x, 1, MPI_INT, next, 8, world, &send);
    MPI_Wait(&request, &status);
    CHECK(y == before && status.MPI_TAG == 8);
    MPI_Wait(&send, MPI_STATUS_IGNORE);
    y = -1;
    MPI_Isendrecv(&x, 1, MPI_INT, next, 9, &y, 1, MPI_INT, before, 9, world, &request);
    MPI_Request_free(&request);
    MPI_Isendrecv(&x, 1, MPI_INT, next, 10, &z, 1, MPI_INT, before, 10, world, &request);
    MPI_Wait(&request, &status);
    CHECK(y == before && z == before);
    CHECK(class_of(MPI_Isendrecv(&x, 1, MPI_INT, size, 1, &y, 1, MPI_INT, 0, 1, world, &wrong)) == MPI_ERR_RANK);
    CHECK(class_of(MPI_Isendrecv(&x, 1, MPI_INT, 0, 1, &y, -1, MPI_INT, 0, 1, world, &wrong)) == MPI_ERR_COUNT);
    CHECK(class_of(MPI_Isendrecv_replace(&x, 1, MPI_INT, 0, -7, 0, 1, world, &wrong)) == MPI_ERR_TAG && wrong == MPI_REQUEST_NULL);
}

/* Elements of a type of one int and one double. */
static void written(void) {
    MPI_Datatype pair;
    MPI_Status status;
    MPI_Count many;
    int elements, count, flag;
    memset(&status, 0, sizeof status);
    MPI_Type_create_struct(2, (int[]){1, 1}, (MPI_Aint[]){0, 8}, (MPI_Datatype[]){MPI_INT, MPI_DOUBLE}, &pair);
    MPI_Type_commit(&pair);
    for (int k = 0; k < 8; k++) {
        if (k % 2) MPI_Status_set_elements(&status, pair, k);
        else MPI_Status_set_elements_x(&status, pair, k);
        MPI_Get_elements(&status, pair, &elements);
        MPI_Get_elements_x(&status, pair, &many);
        MPI_Get_count(&status, pair, &count);
        CHECK(elements == k && many == k && count == (k % 2 ? MPI_UNDEFINED : k / 2));
    }
    MPI_Status_set_elements_x(&status, MPI_DOUBLE, (MPI_Count)1 << 33);
    MPI_Get_elements_x(&status, MPI_DOUBLE, &many);
    MPI_Get_elements(&status, MPI_DOUBLE, &elements);
    CHECK(many == (MPI_Count)1 << 33 && elements == MPI_UNDEFINED);
    MPI_Get_elements_x(&status, MPI_BYTE, &many);
    CHECK(many == (MPI_Count)1 << 36);
    for (int k = 1; k >= 0; k--) {
        MPI_Status_set_cancelled(&status, k);
        MPI_Test_cancelled(&status, &flag);
        CHECK(flag == k);
    }
    MPI_Type_free(&pair);
}

int main(int argc, char **argv) {
    int all = 0;
    MPI_Init(&argc, &argv);
    MPI_Comm_rank(world, &rank);
    MPI_Comm_size(world, &size);
    MPI_Comm_set_errhandler(world, MPI_ERRORS_RETURN);
    next = (rank + 1) % size;
    before = (rank + size - 1) % size;
    ring();
    replaced();
    MPI_Barrier(world);
    others();
    written();
    MPI_Reduce(&faults, &all, 1, MPI_INT, MPI_SUM, 0, world);
    if (rank == 0) printf("faults: %d\n", all);
    MPI_Finalize();
    return faults != 0;
}
