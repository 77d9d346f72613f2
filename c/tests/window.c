/* Windows between fences: puts, gets and folds of plain, derived and paired types, swaps, wrong arguments, and a member that fails. For 3 or more ranks. */
#include "check.h"
#include <signal.h>

enum { MANY = 5000 };
static int rank, size, next, before;
static MPI_Comm world = MPI_COMM_WORLD;

static MPI_Win window_of(void *base, int count, int unit) {
    MPI_Win win;
    CHECK(MPI_Win_create(base, count * unit, unit, MPI_INFO_NULL, world, &win) == MPI_SUCCESS);
    MPI_Win_set_errhandler(win, MPI_ERRORS_RETURN);
    return win;
}

/* Each puts to the next one and gets of the one before, more than goes into a letter, too. */
static void moves(void) {
    static int own[MANY], got[MANY], put[MANY];
    MPI_Win win = window_of(own, MANY, sizeof(int));
    MPI_Datatype rows;
    for (int k = 0; k < MANY; k++) own[k] = -1, put[k] = 10000 * rank + k;
    MPI_Win_fence(MPI_MODE_NOPRECEDE, win);
    MPI_Put(put, MANY, MPI_INT, next, 0, MANY, MPI_INT, win);
    MPI_Win_fence(0, win);
    for (int k = 0; k < MANY; k++) CHECK(own[k] == 10000 * before + k);
    MPI_Get(got, MANY, MPI_INT, next, 0, MANY, MPI_INT, win);
    MPI_Get(put, 2, MPI_INT, rank, 7, 2, MPI_INT, win);
    CHECK(MPI_Put(put, 3, MPI_INT, MPI_PROC_NULL, 0, 3, MPI_INT, win) == MPI_SUCCESS);
    MPI_Win_fence(0, win);
    for (int k = 0; k < MANY; k++) CHECK(got[k] == 10000 * rank + k);
    CHECK(put[0] == own[7] && put[1] == own[8]);
    MPI_Type_vector(3, 2, 5, MPI_INT, &rows);
    MPI_Type_commit(&rows);
    MPI_Put(got, 1, rows, next, 100, 6, MPI_INT, win);
    MPI_Get_c(got + 200, 6, MPI_INT, before, 0, 1, rows, win);
    MPI_Type_free(&rows);
    MPI_Win_fence(MPI_MODE_NOSUCCEED, win);
    for (int k = 0; k < 6; k++) CHECK(own[100 + k] == 10000 * before + k / 2 * 5 + k % 2 && got[200 + k] == 10000 * ((before + size - 1) % size) + k / 2 * 5 + k % 2);
    CHECK(MPI_Win_free(&win) == MPI_SUCCESS && win == MPI_WIN_NULL);
}

struct pair {
    double value;
    int place;
};

/* All fold into rank 0, in the order of ranks. */
static void folds(void) {
    long sum[4] = {1, 2, 3, 4}, old[2] = {0, 0}, one[2] = {rank + 1, 10};
    struct pair most[2] = {{0, 0}, {0, 0}}, own[2] = {{rank, rank}, {-rank - 1, rank}}, was = {-5, -5};
    MPI_Win win = window_of(sum, 4, sizeof(long)), pairs = window_of(most, 2, sizeof(struct pair));
    int turn = rank * (rank + 1) / 2;
    MPI_Win_fence(0, win);
    MPI_Win_fence(0, pairs);
    MPI_Accumulate(one, 2, MPI_LONG, 0, 0, 2, MPI_LONG, MPI_SUM, win);
    MPI_Get_accumulate(one, 1, MPI_LONG, &old[0], 1, MPI_LONG, 0, 2, 1, MPI_LONG, MPI_SUM, win);
    MPI_Fetch_and_op(one, &old[1], MPI_LONG, 0, 3, MPI_REPLACE, win);
    MPI_Accumulate(own, 2, MPI_DOUBLE_INT, 0, 0, 2, MPI_DOUBLE_INT, MPI_MAXLOC, pairs);
    MPI_Get_accumulate(0, 0, MPI_BYTE, &was, 1, MPI_DOUBLE_INT, 0, 1, 1, MPI_DOUBLE_INT, MPI_NO_OP, pairs);
    MPI_Win_fence(0, win);
    MPI_Win_fence(0, pairs);
    CHECK(old[0] == 3 + turn && old[1] == (rank ? rank : 4) && was.value == 0 && was.place == 0);
    if (rank == 0) CHECK(sum[0] == 1 + size * (size + 1) / 2 && sum[1] == 2 + 10 * size && sum[2] == 3 + size * (size + 1) / 2 && sum[3] == size);
    if (rank == 0) CHECK(most[0].value == size - 1 && most[0].place == size - 1 && most[1].value == 0);
    MPI_Compare_and_swap(&(long){100 + rank}, &(long){rank ? 100 + rank - 1 : size}, &old[0], MPI_LONG, 0, 3, win);
    MPI_Win_fence(0, win);
    CHECK(old[0] == (rank ? 100 + rank - 1 : size) && (rank || sum[3] == 100 + size - 1));
    MPI_Win_free(&win);
    MPI_Win_free(&pairs);
}

static void errors(void) {
    int own[4] = {0}, flag, unit = 0, *values;
    MPI_Aint bytes = 0;
    char name[MPI_MAX_OBJECT_NAME];
    MPI_Win win;
    MPI_Datatype mixed;
    MPI_Group group;
    CHECK(MPI_Win_allocate(16, 4, MPI_INFO_NULL, world, &values, &win) == MPI_SUCCESS);
    MPI_Win_set_errhandler(win, MPI_ERRORS_RETURN);
    CHECK(class_of(MPI_Put(own, 1, MPI_INT, next, 0, 1, MPI_INT, win)) == MPI_ERR_RMA_SYNC);
    CHECK(class_of(MPI_Win_fence(1, win)) == MPI_ERR_ASSERT && class_of(MPI_Win_fence(0, MPI_WIN_NULL)) == MPI_ERR_WIN);
    MPI_Win_fence(0, win);
    CHECK(class_of(MPI_Put(own, 1, MPI_INT, size, 0, 1, MPI_INT, win)) == MPI_ERR_RANK && class_of(MPI_Put(own, 2, MPI_INT, next, 3, 2, MPI_INT, win)) == MPI_ERR_RMA_RANGE);
    CHECK(class_of(MPI_Get(own, 2, MPI_INT, next, 0, 1, MPI_INT, win)) == MPI_ERR_TRUNCATE && class_of(MPI_Get(own, 1, MPI_INT, next, -1, 1, MPI_INT, win)) == MPI_ERR_DISP);
    MPI_Type_create_struct(2, (int[]){1, 1}, (MPI_Aint[]){0, 4}, (MPI_Datatype[]){MPI_INT, MPI_FLOAT}, &mixed);
    MPI_Type_commit(&mixed);
    CHECK(class_of(MPI_Accumulate(own, 1, mixed, next, 0, 1, mixed, MPI_SUM, win)) == MPI_ERR_TYPE && class_of(MPI_Accumulate(own, 1, MPI_INT, next, 0, 1, MPI_INT, MPI_OP_NULL, win)) == MPI_ERR_OP);
    MPI_Type_free(&mixed);
    MPI_Type_contiguous(0, MPI_INT, &mixed);
    MPI_Type_commit(&mixed);
    CHECK(MPI_Accumulate(own, 2, mixed, next, 0, 1, mixed, MPI_SUM, win) == MPI_SUCCESS && MPI_Get_accumulate(own, 1, mixed, own, 0, MPI_INT, next, 0, 0, MPI_DOUBLE, MPI_MAX, win) == MPI_SUCCESS);
    MPI_Type_free(&mixed);
    CHECK(class_of(MPI_Put_c(own, 3000000000, MPI_INT, next, 0, 3000000000, MPI_INT, win)) == MPI_ERR_RMA_RANGE);
    void *value;
    CHECK(MPI_Win_get_attr(win, MPI_WIN_BASE, &value, &flag) == MPI_SUCCESS && flag && value == values);
    if (MPI_Win_get_attr(win, MPI_WIN_SIZE, &value, &flag) == MPI_SUCCESS && flag) bytes = *(MPI_Aint *)value;
    if (MPI_Win_get_attr(win, MPI_WIN_DISP_UNIT, &value, &flag) == MPI_SUCCESS && flag) unit = *(int *)value;
    CHECK(bytes == 16 && unit == 4 && MPI_Win_set_name(win, "w") == MPI_SUCCESS && MPI_Win_get_name(win, name, &flag) == MPI_SUCCESS && flag == 1);
    MPI_Win_get_group(win, &group);
    MPI_Group_size(group, &flag);
    CHECK(flag == size && MPI_Win_f2c(MPI_Win_c2f(win)) == win);
    MPI_Group_free(&group);
    MPI_Win_free(&win);
}

static int deleted;

static int delete(MPI_Win win, int key, void *value, void *more) {
    (void)win, (void)key, (void)more;
    deleted += *(int *)value;
    return MPI_SUCCESS;
}

static void attributes(void) {
    static int first = 1, second = 10;
    int key, flag, own;
    void *value;
    MPI_Win win = window_of(&own, 1, sizeof own);
    MPI_Win_create_keyval(MPI_WIN_NULL_COPY_FN, delete, &key, 0);
    MPI_Win_set_attr(win, key, &first);
    MPI_Win_set_attr(win, key, &second);
    CHECK(deleted == 1 && MPI_Win_get_attr(win, key, &value, &flag) == MPI_SUCCESS && flag && value == &second);
    MPI_Win_free_keyval(&key);
    MPI_Win_free(&win);
    CHECK(deleted == 11 && key == MPI_KEYVAL_INVALID && class_of(MPI_Comm_set_attr(world, 1000, 0)) == MPI_ERR_KEYVAL);
}

static int told;

static void tell(MPI_Win *win, int *code, ...) {
    (void)win;
    told = class_of(*code);
}

/* A window stays when its communicator is freed, and a failure is told by the fence at all. */
static void failure(void) {
    int own = rank, got = -1;
    MPI_Comm part;
    MPI_Win win;
    MPI_Errhandler handler;
    MPI_Comm_split(world, 0, rank, &part);
    MPI_Comm_set_errhandler(part, MPI_ERRORS_RETURN);
    MPI_Win_create(&own, sizeof own, 1, MPI_INFO_NULL, part, &win);
    MPI_Comm_free(&part);
    MPI_Win_create_errhandler(tell, &handler);
    MPI_Win_set_errhandler(win, handler);
    MPI_Win_fence(0, win);
    MPI_Get(&got, 1, MPI_INT, next, 0, 1, MPI_INT, win);
    MPI_Win_fence(0, win);
    CHECK(got == next);
    if (rank == 1) raise(SIGKILL);
    MPI_Get(&got, 1, MPI_INT, next, 0, 1, MPI_INT, win);
    CHECK(class_of(MPI_Win_fence(0, win)) == MPIX_ERR_PROC_FAILED && told == MPIX_ERR_PROC_FAILED);
    CHECK(class_of(MPI_Win_free(&win)) == MPIX_ERR_PROC_FAILED && win == MPI_WIN_NULL);
}

int main(int argc, char **argv) {
    MPI_Init(&argc, &argv);
    MPI_Comm_rank(world, &rank);
    MPI_Comm_size(world, &size);
    next = (rank + 1) % size, before = (rank + size - 1) % size;
    MPI_Comm_set_errhandler(world, MPI_ERRORS_RETURN);
    moves();
    folds();
    errors();
    attributes();
    failure();
    if (rank == 0) printf("faults: %d\n", faults);
    MPI_Finalize();
    return faults != 0;
}
