/* Point to point without failures: what it prints is the same with each MPI. For 2 or more ranks. */
#include "check.h"

enum { LONG = 100000 };
static int rank, size;
static MPI_Comm world;

static void say(const char *what, const MPI_Status *status, MPI_Datatype type) {
    int count;
    MPI_Get_count(status, type, &count);
    printf("%s: from %d tag %d count %d\n", what, status->MPI_SOURCE, status->MPI_TAG, count);
}

static void order_and_tags(void) {
    int x[4] = {1, 2, 3, 4}, y = 0;
    MPI_Status status;
    MPI_Request requests[4];
    if (rank == 1) {
        for (int k = 0; k < 4; k++) MPI_Isend(&x[k], 1, MPI_INT, 0, k % 2, world, &requests[k]);
        MPI_Waitall(4, requests, MPI_STATUSES_IGNORE);
    }
    if (rank) return;
    MPI_Recv(&y, 1, MPI_INT, 1, 1, world, &status);
    printf("tag 1 first: %d\n", y);
    MPI_Recv(&y, 1, MPI_INT, 1, MPI_ANY_TAG, world, &status);
    printf("then any: %d tag %d\n", y, status.MPI_TAG);
    MPI_Recv(&y, 1, MPI_INT, MPI_ANY_SOURCE, MPI_ANY_TAG, world, &status);
    say("then any of any", &status, MPI_INT);
    MPI_Recv(&y, 1, MPI_INT, 1, MPI_ANY_TAG, world, &status);
    printf("last: %d tag %d\n", y, status.MPI_TAG);
}

static void long_and_probed(void) {
    double *x = calloc(LONG, sizeof *x);
    MPI_Status status;
    MPI_Message message;
    MPI_Request requests[4];
    int flag = 0;
    for (int k = 0; k < LONG; k++) x[k] = rank == 1 ? k : 0;
    if (rank == 1) {
        MPI_Isend(x, LONG, MPI_DOUBLE, 0, 7, world, &requests[0]);
        MPI_Isend(x, 300, MPI_DOUBLE, 0, 7, world, &requests[1]);
        MPI_Isend(x, 0, MPI_DOUBLE, 0, 8, world, &requests[2]);
        MPI_Isend("abc", 3, MPI_CHAR, 0, 9, world, &requests[3]);
        MPI_Waitall(4, requests, MPI_STATUSES_IGNORE);
    }
    if (rank == 0) {
        MPI_Probe(1, 9, world, &status);
        say("probe", &status, MPI_CHAR);
        MPI_Probe(1, 7, world, &status);
        say("probe of a long one", &status, MPI_DOUBLE);
        while (!flag) MPI_Iprobe(MPI_ANY_SOURCE, 8, world, &flag, &status);
        say("iprobe", &status, MPI_DOUBLE);
        MPI_Mprobe(1, 7, world, &message, &status);
        say("mprobe", &status, MPI_DOUBLE);
        double *y = calloc(LONG, sizeof *y);
        MPI_Recv(y, 300, MPI_DOUBLE, 1, 7, world, &status);
        say("received before it", &status, MPI_DOUBLE);
        MPI_Mrecv(y, LONG, MPI_DOUBLE, &message, &status);
        say("mrecv", &status, MPI_DOUBLE);
        printf("its last: %g, message null: %d\n", y[LONG - 1], message == MPI_MESSAGE_NULL);
        MPI_Recv(y, 5, MPI_DOUBLE, 1, 8, world, &status);
        say("empty", &status, MPI_DOUBLE);
        MPI_Recv(y, 100, MPI_CHAR, MPI_ANY_SOURCE, MPI_ANY_TAG, world, &status);
        say("chars", &status, MPI_CHAR);
        free(y);
    }
    free(x);
}

/* A probe tells of the message behind one that a matched probe took, and that isn't received yet (3.8.2). The messages are of each way to go. */
static void behind_found(void) {
    static const int lengths[] = {4000, 2800, 7, 7, 1, 1024, 5000, 15, 15, 16, 0, 0, 14, 1023, 8, 8, 1023, 14};
    enum { N = sizeof lengths / sizeof *lengths, MOST = 5000 };
    static char sent[N][MOST], came[MOST];
    MPI_Request requests[N];
    MPI_Message messages[N];
    MPI_Status status;
    int count, flag, last = -1;
    for (int k = 0; k < N; k++) memset(sent[k], k + 1, MOST);
    for (int k = 0; rank == 1 && k < N; k++) {
        if (k % 2) MPI_Isend(sent[k], lengths[k], MPI_BYTE, 0, 4, world, &requests[k]);
        else MPI_Issend(sent[k], lengths[k], MPI_BYTE, 0, 4, world, &requests[k]);
    }
    if (rank == 1) MPI_Waitall(N, requests, MPI_STATUSES_IGNORE);
    if (rank) return;
    for (int k = 0; k < N; k++) {
        MPI_Probe(1, 4, world, &status);
        MPI_Get_count(&status, MPI_BYTE, &count);
        for (flag = 0; !flag;) MPI_Iprobe(MPI_ANY_SOURCE, MPI_ANY_TAG, world, &flag, &status);
        MPI_Get_count(&status, MPI_BYTE, &last);
        CHECK(count == lengths[k] && last == lengths[k]);
        MPI_Mprobe(1, 4, world, &messages[k], &status);
        MPI_Get_count(&status, MPI_BYTE, &count);
        CHECK(count == lengths[k]);
    }
    for (int k = N - 1; k >= 0; k--) {
        MPI_Mrecv(came, MOST, MPI_BYTE, &messages[k], &status);
        MPI_Get_count(&status, MPI_BYTE, &count);
        CHECK(count == lengths[k] && !memcmp(came, sent[k], (size_t)count));
    }
}

static void several(void) {
    enum { N = 6 };
    int x[N] = {0}, index, flag, count, indices[N];
    MPI_Request requests[N];
    MPI_Status statuses[N], status;
    if (rank == 1) for (int k = 0; k < N; k++) x[k] = 10 * k, MPI_Ssend(&x[k], 1, MPI_INT, 0, 100 + k, world);
    if (rank) return;
    for (int k = 0; k < N; k++) MPI_Irecv(&x[k], 1, MPI_INT, k == 2 ? MPI_ANY_SOURCE : 1, 100 + k, world, &requests[k]);
    MPI_Wait(&requests[3], &status);
    printf("wait: %d, null %d\n", x[3], requests[3] == MPI_REQUEST_NULL);
    MPI_Waitany(2, requests, &index, &status);
    printf("waitany: %d of tag %d\n", index, status.MPI_TAG);
    MPI_Waitall(N, requests, statuses);
    printf("waitall:");
    for (int k = 0; k < N; k++) printf(" %d", x[k]);
    printf("\nstatus of none: %d %d, of one: %d\n", statuses[3].MPI_SOURCE == MPI_ANY_SOURCE, statuses[3].MPI_TAG == MPI_ANY_TAG, statuses[5].MPI_TAG);
    MPI_Waitany(N, requests, &index, &status);
    printf("waitany of none: %d\n", index == MPI_UNDEFINED);
    MPI_Testall(N, requests, &flag, statuses);
    MPI_Waitsome(N, requests, &count, indices, statuses);
    printf("testall of none: %d, waitsome: %d\n", flag, count == MPI_UNDEFINED);
}

static void exchanges(void) {
    int to = (rank + 1) % size, from = (rank + size - 1) % size, x = rank, y = -1, flag, count;
    MPI_Status status;
    MPI_Request request;
    MPI_Sendrecv(&x, 1, MPI_INT, to, 5, &y, 1, MPI_INT, from, 5, world, &status);
    CHECK(y == from && status.MPI_SOURCE == from);
    MPI_Sendrecv_replace(&x, 1, MPI_INT, to, 6, from, 6, world, &status);
    CHECK(x == from);
    y = 77;
    MPI_Sendrecv(&x, 1, MPI_INT, MPI_PROC_NULL, 5, &y, 1, MPI_INT, MPI_PROC_NULL, 5, world, &status);
    MPI_Get_count(&status, MPI_INT, &count);
    CHECK(y == 77 && status.MPI_SOURCE == MPI_PROC_NULL && status.MPI_TAG == MPI_ANY_TAG && count == 0);
    MPI_Irecv(&y, 1, MPI_INT, from, 999, world, &request);
    MPI_Test(&request, &flag, &status);
    CHECK(!flag && request != MPI_REQUEST_NULL);
    MPI_Cancel(&request);
    MPI_Wait(&request, &status);
    MPI_Test_cancelled(&status, &flag);
    CHECK(flag);
    MPI_Isend(&x, 1, MPI_INT, to, 12, world, &request);
    MPI_Request_free(&request);
    CHECK(request == MPI_REQUEST_NULL);
    MPI_Recv(&y, 1, MPI_INT, from, 12, world, MPI_STATUS_IGNORE);
    MPI_Issend(&rank, 1, MPI_INT, 0, 3, MPI_COMM_SELF, &request);
    MPI_Recv(&y, 1, MPI_INT, MPI_ANY_SOURCE, MPI_ANY_TAG, MPI_COMM_SELF, &status);
    MPI_Wait(&request, MPI_STATUS_IGNORE);
    CHECK(y == rank && status.MPI_SOURCE == 0 && status.MPI_TAG == 3);
}

/* A receive that is freed gets its message all the same (3.7.3): one that came before, and one that comes later, short or long. */
static void freed(void) {
    int sent[2000], came[4][2000] = {{0}}, token = 0;
    MPI_Request request;
    for (int k = 0; k < 2000; k++) sent[k] = 7 * k + 1;
    for (int k = 0; k < 4; k++) {
        int count = k % 2 ? 2000 : 1, is_later = k / 2;
        if (rank == 1 && is_later) MPI_Recv(&token, 1, MPI_INT, 0, 31, world, MPI_STATUS_IGNORE);
        if (rank == 1) {
            MPI_Isend(sent, count, MPI_INT, 0, 30, world, &request);
            MPI_Send(&token, 1, MPI_INT, 0, 32, world);
            MPI_Wait(&request, MPI_STATUS_IGNORE);
        }
        if (rank) continue;
        if (!is_later) MPI_Probe(1, 32, world, MPI_STATUS_IGNORE);   /* nothing comes behind it */
        MPI_Irecv(came[k], 2000, MPI_INT, 1, 30, world, &request);
        MPI_Request_free(&request);
        if (is_later) MPI_Send(&token, 1, MPI_INT, 1, 31, world);
        MPI_Recv(&token, 1, MPI_INT, 1, 32, world, MPI_STATUS_IGNORE);
        CHECK(request == MPI_REQUEST_NULL && came[k][0] == 1 && memcmp(came[k], sent, (size_t)count * sizeof *sent) == 0);
    }
}

/* Messages of each length where the layer might send them another way, every third one by MPI_Ssend; every second one is probed first. */
static void lengths(void) {
    unsigned char sent[1100], came[1100];
    for (int length = 0; length < 1100; length = length == 40 ? 1000 : length + 1) {
        MPI_Status status;
        int count = -1, next = length;
        for (int k = 0; k < length; k++) sent[k] = (unsigned char)(length + 3 * k);
        if (rank == 1 && length % 3) MPI_Send(sent, length, MPI_BYTE, 0, 8, world);
        else if (rank == 1) MPI_Ssend(sent, length, MPI_BYTE, 0, 8, world);
        if (rank) continue;
        if (length % 2) MPI_Probe(1, 8, world, &status), MPI_Get_count(&status, MPI_BYTE, &next);
        memset(came, 1, sizeof came);
        MPI_Recv(came, 1100, MPI_BYTE, 1, MPI_ANY_TAG, world, &status);
        MPI_Get_count(&status, MPI_BYTE, &count);
        CHECK(count == length && next == length && memcmp(came, sent, (size_t)length) == 0 && came[length] == 1);
    }
}

static void errors(void) {
    int x[4] = {0}, y = 0;
    MPI_Status status;
    MPI_Comm_set_errhandler(world, MPI_ERRORS_RETURN);
    if (rank == 1) MPI_Send(x, 4, MPI_INT, 0, 1, world);
    if (rank == 0) {
        printf("truncated: %d\n", class_of(MPI_Recv(&y, 1, MPI_INT, 1, 1, world, &status)) == MPI_ERR_TRUNCATE);
        printf("bad rank: %d\n", class_of(MPI_Send(x, 1, MPI_INT, size, 1, world)) == MPI_ERR_RANK);
        printf("bad tag: %d\n", class_of(MPI_Send(x, 1, MPI_INT, 1, -5, world)) == MPI_ERR_TAG);
        printf("bad count: %d\n", class_of(MPI_Send(x, -1, MPI_INT, 1, 5, world)) == MPI_ERR_COUNT);
    }
    MPI_Comm_set_errhandler(world, MPI_ERRORS_ARE_FATAL);
}

int main(int argc, char **argv) {
    int all = 0;
    MPI_Init(&argc, &argv);
    MPI_Comm_rank(MPI_COMM_WORLD, &rank);
    MPI_Comm_size(MPI_COMM_WORLD, &size);
    MPI_Comm_dup(MPI_COMM_WORLD, &world);
    void (*parts[])(void) = {order_and_tags, long_and_probed, behind_found, several, exchanges, freed, lengths, errors};
    for (int k = 0; k < (int)(sizeof parts / sizeof *parts); k++) {
        parts[k]();
        MPI_Barrier(world);
    }
    MPI_Reduce(&faults, &all, 1, MPI_INT, MPI_SUM, 0, world);
    if (rank == 0) printf("faults: %d\n", all);
    MPI_Comm_free(&world);
    MPI_Finalize();
    return faults != 0;
}
