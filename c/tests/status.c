/* What calls write into statuses, and when a test of all tells an error. For 2 or more ranks. */
#include "check.h"
#include <stdbool.h>

static int rank;
static MPI_Comm world = MPI_COMM_WORLD;

/* A message that was cut doesn't end a test of all while another one isn't there (3.7.5). */
static void truncated_of_two(void) {
    int x[4] = {0, 1, 2, 3}, y[2] = {-1, -1}, flag = 1;
    MPI_Request two[2];
    MPI_Status statuses[2];
    if (rank == 1) {
        MPI_Send(x, 4, MPI_INT, 0, 41, world);
        MPI_Send(x, 1, MPI_INT, 0, 44, world);
        MPI_Recv(x, 1, MPI_INT, 0, 43, world, MPI_STATUS_IGNORE);
        MPI_Send(&x[3], 1, MPI_INT, 0, 42, world);
    }
    if (rank) return;
    MPI_Irecv(&y[0], 1, MPI_INT, 1, 41, world, &two[0]);
    MPI_Irecv(&y[1], 1, MPI_INT, 1, 42, world, &two[1]);
    MPI_Recv(x, 1, MPI_INT, 1, 44, world, MPI_STATUS_IGNORE);
    CHECK(MPI_Testall(2, two, &flag, statuses) == MPI_SUCCESS && !flag && two[0] != MPI_REQUEST_NULL && two[1] != MPI_REQUEST_NULL);
    MPI_Send(x, 1, MPI_INT, 1, 43, world);
    int code = MPI_SUCCESS;
    for (flag = 0; !flag;) code = MPI_Testall(2, two, &flag, statuses);
    CHECK(class_of(code) == MPI_ERR_IN_STATUS && two[0] == MPI_REQUEST_NULL && two[1] == MPI_REQUEST_NULL && y[1] == 3);
    CHECK(class_of(statuses[0].MPI_ERROR) == MPI_ERR_TRUNCATE && statuses[1].MPI_ERROR == MPI_SUCCESS);
}

/* A call of several requests hands the error of one to the handler of its communicator, and returns that it is in the statuses (9.3.1). */
static int handed;
static void hand(MPI_Comm *comm, int *code, ...) { handed = class_of(*code) * (*comm != MPI_COMM_NULL); }

static void handed_of_several(void) {
    int x[3] = {1, 2, 3}, y[3], count = 0, at[2], flag = 0;
    MPI_Errhandler handler;
    MPI_Comm_create_errhandler(hand, &handler);
    MPI_Comm_set_errhandler(MPI_COMM_SELF, handler);
    for (int how = 0; how < 4; how++) {
        MPI_Request two[2];
        MPI_Status told[2];
        handed = 0;
        for (int k = 0; k < 2; k++) MPI_Irecv(&y[k], k, MPI_INT, 0, 60, MPI_COMM_SELF, &two[k]);
        for (int k = 0; k < 2; k++) MPI_Send(x, 1, MPI_INT, 0, 60, MPI_COMM_SELF);
        int code = how == 0 ? MPI_Waitall(2, two, told) : how == 1 ? MPI_Waitsome(2, two, &count, at, told)
                 : how == 2 ? MPI_Testsome(2, two, &count, at, told) : MPI_Testall(2, two, &flag, told);
        CHECK(class_of(code) == MPI_ERR_IN_STATUS && handed == MPI_ERR_TRUNCATE && class_of(told[0].MPI_ERROR) == MPI_ERR_TRUNCATE);
        CHECK(two[0] == MPI_REQUEST_NULL && two[1] == MPI_REQUEST_NULL && told[1].MPI_ERROR == MPI_SUCCESS);
    }
    MPI_Comm_set_errhandler(MPI_COMM_SELF, MPI_ERRORS_RETURN);
    MPI_Errhandler_free(&handler);
}

/* Calls leave the error code of a status as it was, but for those that return MPI_ERR_IN_STATUS (3.2.5). */
enum { KEPT = 77, MESSAGES = 18 };
static MPI_Status status, statuses[3];

/* Whether each status has it. It does, after that. */
static int is_kept(void) {
    int is_well = status.MPI_ERROR == KEPT;
    for (int k = 0; k < 3; k++) is_well = is_well && statuses[k].MPI_ERROR == KEPT;
    status.MPI_ERROR = KEPT;
    for (int k = 0; k < 3; k++) statuses[k].MPI_ERROR = KEPT;
    return is_well;
}

static void kept_by_one(void) {
    int x = 0, flag = 0, at;
    MPI_Request request = MPI_REQUEST_NULL;
    MPI_Message message;
    is_kept();
    CHECK(MPI_Recv(&x, 1, MPI_INT, MPI_PROC_NULL, 0, world, &status) == MPI_SUCCESS && status.MPI_SOURCE == MPI_PROC_NULL && is_kept());
    CHECK(MPI_Sendrecv(&x, 1, MPI_INT, 0, 50, &x, 1, MPI_INT, 0, 50, MPI_COMM_SELF, &status) == MPI_SUCCESS && status.MPI_TAG == 50 && is_kept());
    CHECK(MPI_Recv(&x, 1, MPI_INT, 1, 0, world, &status) == MPI_SUCCESS && status.MPI_SOURCE == 1 && is_kept());
    MPI_Irecv(&x, 1, MPI_INT, 1, 1, world, &request);
    CHECK(MPI_Wait(&request, &status) == MPI_SUCCESS && status.MPI_TAG == 1 && is_kept());
    MPI_Irecv(&x, 1, MPI_INT, 1, 2, world, &request);
    while (!flag) MPI_Request_get_status(request, &flag, &status);
    CHECK(status.MPI_TAG == 2 && is_kept());
    CHECK(MPI_Test(&request, &flag, &status) == MPI_SUCCESS && status.MPI_TAG == 2 && is_kept());
    CHECK(MPI_Probe(1, 3, world, &status) == MPI_SUCCESS && status.MPI_TAG == 3 && is_kept());
    CHECK(MPI_Iprobe(1, 3, world, &flag, &status) == MPI_SUCCESS && flag && status.MPI_TAG == 3 && is_kept());
    CHECK(MPI_Mprobe(1, 3, world, &message, &status) == MPI_SUCCESS && status.MPI_TAG == 3 && is_kept());
    CHECK(MPI_Mrecv(&x, 1, MPI_INT, &message, &status) == MPI_SUCCESS && status.MPI_TAG == 3 && is_kept());
    MPI_Irecv(&x, 1, MPI_INT, 1, 4, world, &request);
    CHECK(MPI_Waitany(1, &request, &at, &status) == MPI_SUCCESS && status.MPI_TAG == 4 && is_kept());
    CHECK(class_of(MPI_Recv(&x, 0, MPI_INT, 1, 5, world, &status)) == MPI_ERR_TRUNCATE && status.MPI_TAG == 5 && is_kept());
}

static void kept_by_several(void) {
    int x[3], count, at[3], flag = 0;
    MPI_Request requests[3];
    for (int way = 0; way < 4; way++) {
        for (int k = 0; k < 3; k++) MPI_Irecv(&x[k], 1, MPI_INT, 1, 6 + 3 * way + k, world, &requests[k]);
        if (way == 0) CHECK(MPI_Waitall(3, requests, statuses) == MPI_SUCCESS);
        while (way == 1 && !flag) CHECK(MPI_Testall(3, requests, &flag, statuses) == MPI_SUCCESS);
        for (int left = 3; way >= 2 && left > 0; left -= count) {
            if (way == 2) CHECK(MPI_Waitsome(3, requests, &count, at, statuses) == MPI_SUCCESS);
            else CHECK(MPI_Testsome(3, requests, &count, at, statuses) == MPI_SUCCESS);
            CHECK(is_kept());
        }
        CHECK(is_kept() && x[0] == 6 + 3 * way && x[2] == 8 + 3 * way);
    }
}

static void kept(void) {
    for (int k = 0; rank == 1 && k < MESSAGES; k++) MPI_Send(&k, 1, MPI_INT, 0, k, world);
    if (rank) return;
    kept_by_one();
    kept_by_several();
}

/* Of no request, and of one that isn't active, a status is empty, with its error (3.7.3). */
static bool is_empty(int code) {
    int length = -1;
    bool is_well = code == MPI_SUCCESS && status.MPI_ERROR == MPI_SUCCESS && status.MPI_SOURCE == MPI_ANY_SOURCE && status.MPI_TAG == MPI_ANY_TAG;
    MPI_Get_count(&status, MPI_INT, &length);
    memset(&status, 77, sizeof status);
    return is_well && length == 0;
}

static void empty(void) {
    MPI_Request none = MPI_REQUEST_NULL, idle;
    int x, at, flag = 0;
    memset(&status, 77, sizeof status);
    MPI_Recv_init(&x, 1, MPI_INT, 0, 99, world, &idle);
    CHECK(is_empty(MPI_Wait(&none, &status)) && is_empty(MPI_Wait(&idle, &status)));
    CHECK(is_empty(MPI_Test(&none, &flag, &status)) && flag && is_empty(MPI_Test(&idle, &flag, &status)));
    CHECK(is_empty(MPI_Waitany(1, &none, &at, &status)) && at == MPI_UNDEFINED && is_empty(MPI_Testany(1, &idle, &at, &flag, &status)));
    CHECK(is_empty(MPI_Waitall(1, &none, &status)) && is_empty(MPI_Testall(1, &idle, &flag, &status)));
    CHECK(is_empty(MPI_Request_get_status(none, &flag, &status)) && flag);
    MPI_Request_free(&idle);
}

int main(int argc, char **argv) {
    int all = 0;
    MPI_Init(&argc, &argv);
    MPI_Comm_rank(world, &rank);
    MPI_Comm_set_errhandler(world, MPI_ERRORS_RETURN);
    truncated_of_two();
    handed_of_several();
    kept();
    empty();
    MPI_Reduce(&faults, &all, 1, MPI_INT, MPI_SUM, 0, world);
    if (rank == 0) printf("faults: %d\n", all);
    MPI_Finalize();
    return faults != 0;
}
