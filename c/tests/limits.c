/* What is past the engine's limits, and what is wrong, is an error class with a message. For 2 ranks. */
#include "check.h"

static int rank;

static void dups(void) {
    enum { MORE = 1030 };
    MPI_Comm made[MORE];
    int count = 0, code = MPI_SUCCESS, length, x = 0;
    char text[MPI_MAX_ERROR_STRING];
    while (count < MORE && (code = MPI_Comm_dup(MPI_COMM_WORLD, &made[count])) == MPI_SUCCESS) {
        MPI_Comm_set_errhandler(made[count], MPI_ERRORS_RETURN);
        CHECK(MPI_Allreduce(&rank, &x, 1, MPI_INT, MPI_SUM, made[count]) == MPI_SUCCESS && x == 1);
        count++;
    }
    MPI_Error_string(code, text, &length);
    if (rank == 0) printf("%d duplicates, then %d: %s\n", count, class_of(code) == MPI_ERR_OTHER, text);
    MPI_Comm_free(&made[1]);
    CHECK(MPI_Comm_dup(made[0], &made[1]) == MPI_SUCCESS);   /* one that was freed */
    for (int k = 0; k < count; k++) MPI_Comm_free(&made[k]);
}

/* Shrinks as often as contexts last. */
static void shrinks(void) {
    MPI_Comm comm = MPI_COMM_WORLD, made;
    int count = 0, code, x;
    while ((code = MPIX_Comm_shrink(comm, &made)) == MPI_SUCCESS) {
        comm = made;
        count++;
        int collective = MPI_Allreduce(&rank, &x, 1, MPI_INT, MPI_SUM, comm);
        if (collective && rank == 0) printf("shrink %d: class %d\n", count, class_of(collective));
    }
    if (rank == 0) printf("%d shrinks, then %d\n", count, class_of(code) == MPI_ERR_OTHER);
}

static void wrong(void) {
    int x = 0, flag;
    MPI_Request stale, request;
    MPI_Status status;
    MPI_Comm bad = (MPI_Comm)(uintptr_t)777;
    CHECK(class_of(MPI_Send(&x, 1, MPI_INT, 0, 40000, MPI_COMM_WORLD)) == MPI_ERR_TAG);
    CHECK(class_of(MPI_Send(&x, 1, MPI_INT, 9, 0, MPI_COMM_WORLD)) == MPI_ERR_RANK);
    CHECK(class_of(MPI_Send(&x, -1, MPI_INT, 0, 0, MPI_COMM_WORLD)) == MPI_ERR_COUNT);
    CHECK(class_of(MPI_Send(&x, 1, MPI_DATATYPE_NULL, 0, 0, MPI_COMM_WORLD)) == MPI_ERR_TYPE);
    CHECK(class_of(MPI_Send(0, 1, MPI_INT, 0, 0, MPI_COMM_WORLD)) == MPI_ERR_BUFFER);
    CHECK(class_of(MPI_Send(&x, 1, MPI_INT, 0, 0, bad)) == MPI_ERR_COMM);
    CHECK(class_of(MPI_Bcast(&x, 1, MPI_INT, 5, MPI_COMM_WORLD)) == MPI_ERR_ROOT);
    CHECK(class_of(MPI_Allreduce(&x, &x, 1, MPI_INT, MPI_OP_NULL, MPI_COMM_WORLD)) == MPI_ERR_OP);
    CHECK(class_of(MPIX_Comm_is_revoked(MPI_COMM_WORLD, 0)) == MPI_ERR_ARG && class_of(MPIX_Comm_get_failed(MPI_COMM_WORLD, 0)) == MPI_ERR_ARG);
    CHECK(class_of(MPIX_Comm_failure_get_acked(MPI_COMM_WORLD, 0)) == MPI_ERR_ARG && class_of(MPIX_Comm_ack_failed(MPI_COMM_WORLD, 0, 0)) == MPI_ERR_ARG);
    CHECK(MPI_Get_library_version(0, 0) == MPI_ERR_ARG);
    MPI_Irecv(&x, 1, MPI_INT, rank, 1, MPI_COMM_WORLD, &request);
    stale = request;
    MPI_Send(&x, 1, MPI_INT, rank, 1, MPI_COMM_WORLD);
    CHECK(MPI_Wait(&request, &status) == MPI_SUCCESS);
    CHECK(class_of(MPI_Wait(&stale, &status)) == MPI_ERR_REQUEST);
    CHECK(class_of(MPI_Test(&stale, &flag, &status)) == MPI_ERR_REQUEST);
}

static void texts(void) {
    static const int codes[] = {MPI_SUCCESS, MPI_ERR_RANK, MPIX_ERR_PROC_FAILED, MPIX_ERR_REVOKED, MPIX_ERR_PROC_FAILED_PENDING, MPI_ERR_IN_STATUS};
    char text[MPI_MAX_ERROR_STRING];
    int length;
    for (size_t k = 0; k < sizeof codes / sizeof *codes; k++) {
        MPI_Error_string(codes[k], text, &length);
        CHECK(length == (int)strlen(text) && length > 10);
    }
}

int main(int argc, char **argv) {
    MPI_Init(&argc, &argv);
    MPI_Comm_rank(MPI_COMM_WORLD, &rank);
    MPI_Comm_set_errhandler(MPI_COMM_WORLD, MPI_ERRORS_RETURN);
    MPI_Comm_set_errhandler(MPI_COMM_SELF, MPI_ERRORS_RETURN);
    wrong();
    texts();
    dups();
    shrinks();
    if (rank == 0) printf("faults: %d\n", faults);
    MPI_Finalize();
    return faults != 0;
}
