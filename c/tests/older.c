/* Handles as numbers, and calls by names of MPI-1; what it prints is the same with MPICH, which still has these. For 2 or more ranks. */
#include "check.h"
#include <stddef.h>

static int rank, size;
static MPI_Comm world = MPI_COMM_WORLD;

/* A handle as a number stands for the same object. */
static void numbers(void) {
    MPI_Fint words[MPI_F_STATUS_SIZE];
    MPI_Request request;
    MPI_Status status, again;
    MPI_Group group;
    MPI_Comm own;
    int value = rank, got = -1, count = 0;
    CHECK(MPI_Comm_f2c(MPI_Comm_c2f(world)) == world && MPI_Type_f2c(MPI_Type_c2f(MPI_INT)) == MPI_INT && MPI_Op_f2c(MPI_Op_c2f(MPI_SUM)) == MPI_SUM);
    CHECK(MPI_Comm_f2c(MPI_Comm_c2f(MPI_COMM_NULL)) == MPI_COMM_NULL && MPI_Info_f2c(MPI_Info_c2f(MPI_INFO_NULL)) == MPI_INFO_NULL);
    CHECK(MPI_Errhandler_f2c(MPI_Errhandler_c2f(MPI_ERRORS_RETURN)) == MPI_ERRORS_RETURN && MPI_Message_f2c(MPI_Message_c2f(MPI_MESSAGE_NO_PROC)) == MPI_MESSAGE_NO_PROC);
    MPI_Comm_dup(MPI_Comm_f2c(MPI_Comm_c2f(world)), &own);
    MPI_Comm_group(own, &group);
    MPI_Group_size(MPI_Group_f2c(MPI_Group_c2f(group)), &count);
    CHECK(count == size);
    MPI_Irecv(&got, 1, MPI_INT, (rank + size - 1) % size, 3, MPI_Comm_f2c(MPI_Comm_c2f(own)), &request);
    MPI_Send(&value, 1, MPI_INT, (rank + 1) % size, 3, own);
    request = MPI_Request_f2c(MPI_Request_c2f(request));
    MPI_Wait(&request, &status);
    CHECK(got == (rank + size - 1) % size && request == MPI_REQUEST_NULL && MPI_Request_f2c(MPI_Request_c2f(request)) == MPI_REQUEST_NULL);
    CHECK(MPI_Status_c2f(&status, words) == MPI_SUCCESS && MPI_Status_f2c(words, &again) == MPI_SUCCESS);
    MPI_Get_count(&again, MPI_INT, &count);
    CHECK(again.MPI_SOURCE == got && again.MPI_TAG == 3 && count == 1);
    MPI_Group_free(&group);
    MPI_Comm_free(&own);
}

struct record {
    double value;
    char kind;
};

/* A structure with a mark of its upper bound, and its vectors in bytes. */
static void types(void) {
    struct record records[4] = {{0, 0}}, got[4];
    MPI_Aint at[3], base, lower, upper, extent;
    MPI_Datatype types[3] = {MPI_DOUBLE, MPI_CHAR, MPI_UB}, made, every, listed;
    int lengths[3] = {1, 1, 1}, bytes;
    MPI_Address(&records[0], &base);
    MPI_Address(&records[0].value, &at[0]);
    MPI_Address(&records[0].kind, &at[1]);
    MPI_Address(&records[1], &at[2]);
    for (int k = 0; k < 3; k++) at[k] -= base;
    MPI_Type_struct(3, lengths, at, types, &made);
    MPI_Type_commit(&made);
    MPI_Type_lb(made, &lower);
    MPI_Type_ub(made, &upper);
    MPI_Type_extent(made, &extent);
    MPI_Type_size(made, &bytes);
    CHECK(lower == 0 && upper == sizeof(struct record) && extent == upper && bytes == sizeof(double) + 1);
    for (int k = 0; k < 4; k++) records[k] = (struct record){10 * rank + k, (char)('a' + k)}, got[k] = (struct record){-1, '-'};
    MPI_Sendrecv(records, 4, made, (rank + 1) % size, 1, got, 4, made, (rank + size - 1) % size, 1, world, MPI_STATUS_IGNORE);
    for (int k = 0; k < 4; k++) CHECK(got[k].value == 10 * ((rank + size - 1) % size) + k && got[k].kind == 'a' + k);
    MPI_Type_hvector(2, 1, 2 * sizeof(struct record), made, &every);
    MPI_Type_extent(every, &extent);
    CHECK(extent == 3 * sizeof(struct record));
    MPI_Type_hindexed(2, (int[]){1, 1}, (MPI_Aint[]){sizeof(struct record), 0}, made, &listed);
    MPI_Type_extent(listed, &extent);
    CHECK(extent == 2 * sizeof(struct record));
    MPI_Type_free(&made);
    MPI_Type_free(&every);
    MPI_Type_free(&listed);
}

/* A lower and an upper mark, before and behind the data; a type made of such a one has them too. */
static void marks(void) {
    MPI_Datatype made, twice;
    MPI_Aint lower, extent;
    MPI_Type_struct(3, (int[]){1, 1, 1}, (MPI_Aint[]){-8, 0, 24}, (MPI_Datatype[]){MPI_LB, MPI_INT, MPI_UB}, &made);
    MPI_Type_get_extent(made, &lower, &extent);
    CHECK(lower == -8 && extent == 32);
    MPI_Type_contiguous(2, made, &twice);
    MPI_Type_get_extent(twice, &lower, &extent);
    CHECK(lower == -8 && extent == 64);
    MPI_Type_get_true_extent(twice, &lower, &extent);
    CHECK(lower == 0 && extent == 36);
    MPI_Type_free(&made);
    MPI_Type_struct(2, (int[]){1, 1}, (MPI_Aint[]){4, 40}, (MPI_Datatype[]){MPI_INT, MPI_UB}, &made);
    MPI_Type_get_extent(made, &lower, &extent);
    CHECK(lower == 4 && extent == 36);
    MPI_Type_free(&made);
    MPI_Type_free(&twice);
}

static int called;

static void note(MPI_Comm *comm, int *code, ...) {
    (void)comm;
    called = class_of(*code);
}

static void handlers(void) {
    MPI_Errhandler own, found;
    MPI_Errhandler_create(note, &own);
    MPI_Errhandler_set(world, own);
    MPI_Errhandler_get(world, &found);
    MPI_Send(&called, 1, MPI_INT, size, 0, world);
    CHECK(called == MPI_ERR_RANK);
    MPI_Errhandler_set(world, MPI_ERRORS_RETURN);
    MPI_Errhandler_free(&own);
}

int main(int argc, char **argv) {
    int all = 0;
    MPI_Init(&argc, &argv);
    MPI_Comm_rank(world, &rank);
    MPI_Comm_size(world, &size);
    numbers();
    types();
    marks();
    handlers();
    MPI_Reduce(&faults, &all, 1, MPI_INT, MPI_SUM, 0, world);
    if (rank == 0) printf("faults: %d\n", all);
    MPI_Finalize();
    return faults != 0;
}
