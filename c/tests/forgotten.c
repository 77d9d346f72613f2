/* What comes to a communicator that was freed reaches no later one, and what was open there goes on. For 4 ranks. */
#include "check.h"
#include <stdbool.h>

enum { ROUNDS = 60, MESSAGES = 50 };
static int rank, size;

static void duplicate(MPI_Comm *made, bool blocks) {
    MPI_Request request;
    if (blocks) CHECK(MPI_Comm_dup(MPI_COMM_WORLD, made) == MPI_SUCCESS);
    else CHECK(MPI_Comm_idup(MPI_COMM_WORLD, made, &request) == MPI_SUCCESS && MPI_Wait(&request, MPI_STATUS_IGNORE) == MPI_SUCCESS);
}

/* Messages that nobody received. The rank that gets them takes the word of a further rank that a new one is made, and may not have taken them before. */
static void messages(bool blocks) {
    for (int k = 0; k < ROUNDS; k++) {
        MPI_Comm first, second;
        int old = -1, got = -1;
        duplicate(&first, blocks);
        for (int m = 0; m < MESSAGES && rank == 1; m++) MPI_Send(&old, 1, MPI_INT, 2, 1, first);
        MPI_Comm_free(&first);
        duplicate(&second, blocks);
        if (rank == 1) MPI_Send(&k, 1, MPI_INT, 2, 1, second);
        if (rank == 2) MPI_Recv(&got, 1, MPI_INT, MPI_ANY_SOURCE, MPI_ANY_TAG, second, MPI_STATUS_IGNORE);
        CHECK(rank != 2 || got == k);
        MPI_Comm_free(&second);
    }
}

/* Two that freed it make one of their own, and another rank revokes it then. */
static void revoked(void) {
    MPI_Comm world, own;
    MPI_Group all, two;
    int place = -1, got = -1, flag = -1;
    MPI_Comm_dup(MPI_COMM_WORLD, &world);
    if (rank == 1 || rank == 2) {
        MPI_Comm_free(&world);
        MPI_Comm_group(MPI_COMM_WORLD, &all);
        MPI_Group_incl(all, 2, (int[]){1, 2}, &two);
        CHECK(MPI_Comm_create_group(MPI_COMM_WORLD, two, 3, &own) == MPI_SUCCESS);
        MPI_Comm_set_errhandler(own, MPI_ERRORS_RETURN);
        MPI_Comm_rank(own, &place);
        MPI_Group_free(&all);
        MPI_Group_free(&two);
    }
    MPI_Barrier(MPI_COMM_WORLD);
    if (rank == 0) MPIX_Comm_revoke(world);
    if (place < 0) MPI_Comm_free(&world);
    MPI_Barrier(MPI_COMM_WORLD);
    for (int k = 0; k < MESSAGES && place >= 0; k++)
        CHECK(MPI_Sendrecv(&rank, 1, MPI_INT, 1 - place, 1, &got, 1, MPI_INT, 1 - place, 1, own, MPI_STATUS_IGNORE) == MPI_SUCCESS && got == 3 - rank);
    CHECK(place < 0 || (MPIX_Comm_is_revoked(own, &flag) == MPI_SUCCESS && !flag));
    if (place >= 0) MPI_Comm_free(&own);
}

/* A new communicator, with messages and a sum of its own. */
static void use_another(int word) {
    MPI_Comm made;
    int got = -1, sum = 0;
    duplicate(&made, true);
    MPI_Sendrecv(&word, 1, MPI_INT, (rank + 1) % size, 1, &got, 1, MPI_INT, MPI_ANY_SOURCE, MPI_ANY_TAG, made, MPI_STATUS_IGNORE);
    MPI_Allreduce(&word, &sum, 1, MPI_INT, MPI_SUM, made);
    CHECK(got == word && sum == word * size);
    MPI_Comm_free(&made);
}

/* A receive, and a message that was probed. */
static void open_messages(void) {
    MPI_Comm comm;
    MPI_Request request;
    MPI_Message message;
    int before = (rank + size - 1) % size, got[2] = {-1, -1};
    duplicate(&comm, true);
    MPI_Irecv(&got[0], 1, MPI_INT, before, 1, comm, &request);
    MPI_Send(&rank, 1, MPI_INT, (rank + 1) % size, 2, comm);
    MPI_Mprobe(MPI_ANY_SOURCE, 2, comm, &message, MPI_STATUS_IGNORE);
    MPI_Send(&rank, 1, MPI_INT, (rank + 1) % size, 1, comm);
    MPI_Comm_free(&comm);
    use_another(5);
    CHECK(MPI_Wait(&request, MPI_STATUS_IGNORE) == MPI_SUCCESS && got[0] == before);
    CHECK(MPI_Mrecv(&got[1], 1, MPI_INT, &message, MPI_STATUS_IGNORE) == MPI_SUCCESS && got[1] == before);
    use_another(6);
}

/* An agreement, and a shrink. */
static void open_recoveries(void) {
    MPI_Comm comm, made;
    MPI_Request request;
    int flag = rank == 1 ? 6 : 7, count = 0;
    duplicate(&comm, true);
    CHECK(MPIX_Comm_iagree(comm, &flag, &request) == MPI_SUCCESS);
    MPI_Comm_free(&comm);
    use_another(7);
    CHECK(MPI_Wait(&request, MPI_STATUS_IGNORE) == MPI_SUCCESS && flag == 6);
    duplicate(&comm, true);
    CHECK(MPIX_Comm_ishrink(comm, &made, &request) == MPI_SUCCESS);
    MPI_Comm_free(&comm);
    use_another(8);
    CHECK(MPI_Wait(&request, MPI_STATUS_IGNORE) == MPI_SUCCESS && MPI_Comm_size(made, &count) == MPI_SUCCESS && count == size);
    MPI_Comm_free(&made);
}

int main(int argc, char **argv) {
    MPI_Init(&argc, &argv);
    MPI_Comm_rank(MPI_COMM_WORLD, &rank);
    MPI_Comm_size(MPI_COMM_WORLD, &size);
    messages(true);
    messages(false);
    for (int k = 0; k < 3; k++) {
        open_messages();
        open_recoveries();
    }
    revoked();
    use_another(9);
    if (rank == 0) printf("faults: %d\n", faults);
    MPI_Finalize();
    return faults != 0;
}
