/* Derived datatypes and packing; what it prints is the same with each MPI. For 2 or more ranks. */
#include "check.h"
#include <complex.h>
#include <stddef.h>

enum { ROWS = 6, COLUMNS = 5 };
struct particle {
    double place[3];
    int number;
    char kind;
};

static int rank, size, next, before;
static MPI_Comm world = MPI_COMM_WORLD;

/* A column to the next rank's first column; and as numbers in a row. */
static void columns(void) {
    double a[ROWS][COLUMNS], row[ROWS];
    MPI_Datatype column;
    MPI_Status status;
    int count, elements;
    for (int k = 0; k < ROWS * COLUMNS; k++) a[k / COLUMNS][k % COLUMNS] = 100 * rank + k;
    MPI_Type_vector(ROWS, 1, COLUMNS, MPI_DOUBLE, &column);
    CHECK(class_of(MPI_Send(a, 1, column, MPI_PROC_NULL, 0, world)) == MPI_ERR_TYPE);
    MPI_Type_commit(&column);
    MPI_Sendrecv(&a[0][COLUMNS - 1], 1, column, next, 1, &a[0][0], 1, column, before, 1, world, &status);
    MPI_Get_count(&status, column, &count);
    MPI_Get_elements(&status, column, &elements);
    for (int k = 0; k < ROWS; k++) CHECK(a[k][0] == 100 * before + k * COLUMNS + COLUMNS - 1 && a[k][1] == 100 * rank + k * COLUMNS + 1);
    MPI_Sendrecv(&a[0][1], 1, column, next, 2, row, ROWS, MPI_DOUBLE, before, 2, world, &status);
    for (int k = 0; k < ROWS; k++) CHECK(row[k] == 100 * before + k * COLUMNS + 1);
    CHECK(count == 1 && elements == ROWS);
    if (rank % 2 == 0 && next) MPI_Send(&a[0][2], 1, column, next, 4, world);
    if (rank % 2) MPI_Recv(row, ROWS, MPI_DOUBLE, before, 4, world, &status);
    for (int k = 0; k < ROWS; k++) CHECK(rank % 2 == 0 || row[k] == 100 * before + k * COLUMNS + 2);
    MPI_Type_free(&column);
}

/* Structures, with their gaps, to all. */
static void structures(void) {
    struct particle all[4] = {{{0}, 0, 0}};
    MPI_Datatype made, type, types[3] = {MPI_DOUBLE, MPI_INT, MPI_CHAR};
    MPI_Aint displs[3] = {offsetof(struct particle, place), offsetof(struct particle, number), offsetof(struct particle, kind)}, lower, extent;
    int lengths[3] = {3, 1, 1}, bytes, root = size - 1;
    MPI_Type_create_struct(3, lengths, displs, types, &made);
    MPI_Type_create_resized(made, 0, sizeof(struct particle), &type);
    MPI_Type_commit(&type);
    MPI_Type_size(type, &bytes);
    MPI_Type_get_extent(type, &lower, &extent);
    CHECK(bytes == 29 && lower == 0 && extent == sizeof(struct particle));
    if (rank == root) for (int k = 0; k < 4; k++) all[k] = (struct particle){{k, 2 * k, 3 * k}, k + 7, (char)('a' + k)};
    MPI_Bcast(all, 4, type, root, world);
    for (int k = 0; k < 4; k++) CHECK(all[k].place[2] == 3 * k && all[k].number == k + 7 && all[k].kind == 'a' + k);
    MPI_Type_free(&made);
    MPI_Type_free(&type);
}

/* Blocks of a matrix at the root to and from the ranks, which have them in one piece. */
static void blocks(void) {
    int sizes[2] = {4, 16}, part[2] = {4, 2}, starts[2] = {0, 0}, whole[4][16], own[8], again[4][16], counts[8], displs[8];
    MPI_Datatype made, block;
    MPI_Type_create_subarray(2, sizes, part, starts, MPI_ORDER_C, MPI_INT, &made);
    MPI_Type_create_resized(made, 0, 2 * sizeof(int), &block);
    MPI_Type_commit(&block);
    for (int k = 0; k < 64; k++) whole[k / 16][k % 16] = k, again[k / 16][k % 16] = -1;
    for (int k = 0; k < size; k++) counts[k] = 1, displs[k] = size - 1 - k;
    MPI_Scatter(whole, 1, block, own, 8, MPI_INT, 0, world);
    for (int k = 0; k < 8; k++) CHECK(own[k] == k / 2 * 16 + 2 * rank + k % 2);
    MPI_Allgatherv(own, 8, MPI_INT, again, counts, displs, block, world);
    for (int k = 0; k < 64; k++) {
        int at = k % 16 / 2;
        CHECK(again[k / 16][k % 16] == (at < size ? k + 2 * (size - 1 - 2 * at) : -1));
    }
    MPI_Type_free(&made);
    MPI_Type_free(&block);
}

static void packed(void) {
    char buffer[100], text[6] = "";
    int at = 0, room, x = rank, pairs[4] = {1, 2, 3, 4};
    MPI_Datatype every;
    MPI_Type_create_indexed_block(2, 1, (int[]){0, 2}, MPI_INT, &every);
    MPI_Type_commit(&every);
    MPI_Pack_size(2, MPI_INT, world, &room);
    CHECK(room >= 8);
    MPI_Pack(&x, 1, MPI_INT, buffer, 100, &at, world);
    MPI_Pack("hello", 6, MPI_CHAR, buffer, 100, &at, world);
    MPI_Pack(pairs, 1, every, buffer, 100, &at, world);
    MPI_Sendrecv_replace(buffer, 100, MPI_PACKED, next, 5, before, 5, world, MPI_STATUS_IGNORE);
    int from = 0, got[4] = {0};
    MPI_Unpack(buffer, 100, &from, &x, 1, MPI_INT, world);
    MPI_Unpack(buffer, 100, &from, text, 6, MPI_CHAR, world);
    MPI_Unpack(buffer, 100, &from, got, 1, every, world);
    CHECK(from == at && x == before && !strcmp(text, "hello") && got[0] == 1 && got[1] == 0 && got[2] == 3);
    MPI_Type_free(&every);
}

/* A receive that is open keeps the type that is freed. */
static void freed(void) {
    int in[4] = {-1, -1, -1, -1}, out[2] = {rank, rank + 1};
    MPI_Datatype apart;
    MPI_Request request;
    MPI_Type_vector(2, 1, 2, MPI_INT, &apart);
    MPI_Type_commit(&apart);
    MPI_Irecv(in, 1, apart, before, 6, world, &request);
    MPI_Type_free(&apart);
    MPI_Send(out, 2, MPI_INT, next, 6, world);
    MPI_Wait(&request, MPI_STATUS_IGNORE);
    CHECK(in[0] == before && in[1] == -1 && in[2] == before + 1 && in[3] == -1);
}

/* Each column of a matrix is summed for one rank: the extent of a column is less than its reach. */
static void add_columns(void *in, void *into, int *count, MPI_Datatype *type) {
    (void)type;
    for (int k = 0; k < *count; k++)
        for (int row = 0; row < 2; row++) ((int (*)[8])into)[row][k] += ((int (*)[8])in)[row][k];
}

static void interleaved(void) {
    int a[2][8], sum[2][8], ones[8] = {1, 1, 1, 1, 1, 1, 1, 1};
    MPI_Datatype made, column;
    MPI_Request request = MPI_REQUEST_NULL;
    MPI_Op add;
    MPI_Type_vector(2, 1, 8, MPI_INT, &made);
    MPI_Type_create_resized(made, 0, sizeof(int), &column);
    MPI_Type_commit(&column);
    MPI_Op_create(add_columns, 1, &add);
    for (int how = 0; how < 4; how++) {
        for (int k = 0; k < 16; k++) a[k / 8][k % 8] = k + rank, sum[k / 8][k % 8] = -1;
        if (how == 0) MPI_Reduce_scatter_block(a, sum, 1, column, add, world);
        else if (how == 1) MPI_Reduce_scatter(a, sum, ones, column, add, world);
        else if (how == 2) MPI_Ireduce_scatter_block(a, sum, 1, column, add, world, &request);
        else MPI_Ireduce_scatter(a, sum, ones, column, add, world, &request);
        MPI_Wait(&request, MPI_STATUS_IGNORE);
        for (int row = 0; row < 2; row++) CHECK(sum[row][0] == size * (8 * row + rank) + size * (size - 1) / 2 && sum[row][1] == -1);
    }
    MPI_Op_free(&add);
    MPI_Type_free(&made);
    MPI_Type_free(&column);
}

/* Complex numbers are summed and multiplied, and aligned as their parts are. */
struct wave {
    char kind;
    float complex low;
    double complex high[2];
};

static void complexes(void) {
    struct wave waves[2] = {{'a', 0, {0, 0}}, {'b', 0, {0, 0}}}, got[2];
    float complex turn = I, turned = 0;
    double complex own = rank + 1 - I * rank, sum = 0;
    long double complex one = 1 - I, all = 0, single = 0;
    MPI_Datatype type, types[3] = {MPI_CHAR, MPI_C_COMPLEX, MPI_C_DOUBLE_COMPLEX};
    MPI_Aint displs[3] = {offsetof(struct wave, kind), offsetof(struct wave, low), offsetof(struct wave, high)}, lower, extent;
    int lengths[3] = {1, 1, 2}, count;
    MPI_Status status;
    MPI_Allreduce(&own, &sum, 1, MPI_C_DOUBLE_COMPLEX, MPI_SUM, world);
    CHECK(creal(sum) == size * (size + 1) / 2 && cimag(sum) == -size * (size - 1) / 2);
    MPI_Scan(&turn, &turned, 1, MPI_C_FLOAT_COMPLEX, MPI_PROD, world);
    CHECK(turned == (rank % 4 == 0 ? I : rank % 4 == 1 ? -1 : rank % 4 == 2 ? -I : 1));
    MPI_Allreduce(&one, &all, 1, MPI_C_LONG_DOUBLE_COMPLEX, MPI_SUM, world);
    CHECK(all == size * one);
    CHECK(class_of(MPI_Allreduce(&one, &single, 1, MPI_C_LONG_DOUBLE_COMPLEX, MPI_MAX, world)) == MPI_ERR_OP);
    MPI_Type_create_struct(3, lengths, displs, types, &type);
    MPI_Type_commit(&type);
    MPI_Type_get_extent(type, &lower, &extent);
    CHECK(lower == 0 && extent == sizeof(struct wave));
    waves[1].low = rank + I, waves[1].high[1] = I * rank;
    MPI_Sendrecv(waves, 2, type, next, 7, got, 2, type, before, 7, world, &status);
    CHECK(got[0].kind == 'a' && got[1].kind == 'b' && got[1].low == before + I && got[1].high[1] == I * before);
    MPI_Get_elements(&status, type, &count);
    CHECK(count == 8);
    MPI_Get_elements(&status, MPI_C_DOUBLE_COMPLEX, &count);
    CHECK(count == MPI_UNDEFINED);
    MPI_Type_free(&type);
}

int main(int argc, char **argv) {
    int all = 0;
    MPI_Init(&argc, &argv);
    MPI_Comm_rank(world, &rank);
    MPI_Comm_size(world, &size);
    MPI_Comm_set_errhandler(world, MPI_ERRORS_RETURN);
    next = (rank + 1) % size;
    before = (rank + size - 1) % size;
    columns();
    structures();
    blocks();
    packed();
    freed();
    interleaved();
    complexes();
    MPI_Reduce(&faults, &all, 1, MPI_INT, MPI_SUM, 0, world);
    if (rank == 0) printf("faults: %d\n", all);
    MPI_Finalize();
    return faults != 0;
}
