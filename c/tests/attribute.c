/* Attributes and buffered sends; what it prints is the same with each MPI. For 2 or more ranks. */
#include "check.h"

static int rank, size, copies, deletes, ends;
static MPI_Comm world = MPI_COMM_WORLD;

static int copy(MPI_Comm comm, int keyval, void *more, void *in, void *out, int *flag) {
    (void)comm, (void)keyval;
    copies++;
    *(void **)out = (char *)in + *(int *)more;
    *flag = 1;
    return MPI_SUCCESS;
}

static int delete(MPI_Comm comm, int keyval, void *value, void *more) {
    (void)comm, (void)keyval, (void)value, (void)more;
    deletes++;
    return MPI_SUCCESS;
}

static int end(MPI_Comm comm, int keyval, void *value, void *more) {
    (void)comm, (void)keyval, (void)more;
    ++*(int *)value;
    return MPI_SUCCESS;
}

static void attributes(void) {
    char text[] = "abcdef", *value;
    int *tags, flag, keys[3], by = 2, gone;
    MPI_Comm dup;
    MPI_Comm_get_attr(world, MPI_TAG_UB, &tags, &flag);
    CHECK(flag && *tags >= 32767);
    MPI_Comm_create_keyval(copy, delete, &keys[0], &by);
    MPI_Comm_create_keyval(MPI_COMM_DUP_FN, MPI_COMM_NULL_DELETE_FN, &keys[1], NULL);
    MPI_Comm_create_keyval(MPI_COMM_NULL_COPY_FN, delete, &keys[2], NULL);
    MPI_Comm_get_attr(world, keys[0], &value, &flag);
    CHECK(!flag);
    for (int k = 0; k < 3; k++) MPI_Comm_set_attr(world, keys[k], text);
    MPI_Comm_set_attr(world, keys[0], text + 1);
    CHECK(deletes == 1);
    MPI_Comm_dup(world, &dup);
    MPI_Comm_get_attr(dup, keys[0], &value, &flag);
    CHECK(flag && value == text + 3 && copies == 1);
    MPI_Comm_get_attr(dup, keys[1], &value, &flag);
    CHECK(flag && value == text);
    MPI_Comm_get_attr(dup, keys[2], &value, &flag);
    CHECK(!flag);
    MPI_Comm_free(&dup);
    CHECK(deletes == 2);
    for (int k = 0; k < 3; k++) MPI_Comm_delete_attr(world, keys[k]);
    CHECK(deletes == 4);
    CHECK(MPI_Comm_delete_attr(world, keys[0]) == MPI_SUCCESS && deletes == 4);
    CHECK(class_of(MPI_Comm_delete_attr(world, MPI_TAG_UB)) == MPI_ERR_KEYVAL);
    MPI_Comm_get_attr(world, keys[1], &value, &flag);
    CHECK(!flag);
    gone = keys[2];
    for (int k = 0; k < 3; k++) MPI_Comm_free_keyval(&keys[k]);
    CHECK(keys[0] == MPI_KEYVAL_INVALID && gone != MPI_KEYVAL_INVALID);
    CHECK(class_of(MPI_Comm_get_attr(world, MPI_KEYVAL_INVALID, &value, &flag)) == MPI_ERR_KEYVAL);
}

/* What is copied and deleted, in that order: the last one that was set is the first. */
static char order[64];

static int copy_in_order(MPI_Comm comm, int keyval, void *more, void *in, void *out, int *flag) {
    strcat(strcat(order, "+"), in);
    return MPI_COMM_DUP_FN(comm, keyval, more, in, out, flag);
}

static int delete_in_order(MPI_Comm comm, int keyval, void *value, void *more) {
    (void)comm, (void)keyval, (void)more;
    strcat(strcat(order, "-"), value);
    return MPI_SUCCESS;
}

/* Null is a function that copies nothing, and one that does nothing. */
static void without_functions(void) {
    int key = MPI_KEYVAL_INVALID, flag = 1, *value;
    MPI_Comm dup;
    CHECK(MPI_Comm_create_keyval(NULL, NULL, &key, NULL) == MPI_SUCCESS);
    MPI_Comm_set_attr(world, key, &flag);
    MPI_Comm_dup(world, &dup);
    MPI_Comm_get_attr(dup, key, &value, &flag);
    CHECK(!flag && MPI_Comm_delete_attr(world, key) == MPI_SUCCESS);
    MPI_Comm_free(&dup);
    MPI_Comm_free_keyval(&key);
}

static void by_older_names(void) {
    int key, flag = 1, *value;
    MPI_Comm dup;
    MPI_Keyval_create(MPI_DUP_FN, MPI_NULL_DELETE_FN, &key, NULL);
    MPI_Attr_put(world, key, &flag);
    MPI_Comm_dup(world, &dup);
    MPI_Attr_get(dup, key, &value, &flag);
    CHECK(flag && value == &flag);
    MPI_Attr_delete(world, key);
    MPI_Comm_free(&dup);
    MPI_Attr_get(world, key, &value, &flag);
    CHECK(!flag);
    MPI_Keyval_free(&key);
    MPI_Keyval_create(MPI_NULL_COPY_FN, MPI_NULL_DELETE_FN, &key, NULL);
    MPI_Keyval_free(&key);
    CHECK(key == MPI_KEYVAL_INVALID);
}

static int refuse_to_copy(MPI_Comm comm, int keyval, void *more, void *in, void *out, int *flag) {
    (void)comm, (void)keyval, (void)more, (void)in, (void)out, (void)flag;
    return MPI_ERR_OTHER;
}

/* Where a copy is refused there is no duplicate, and what was copied before is deleted. As many are made as there would be no contexts for. */
static void refused(void) {
    int keys[2], code;
    MPI_Comm dup;
    MPI_Comm_create_keyval(refuse_to_copy, MPI_COMM_NULL_DELETE_FN, &keys[0], NULL);
    MPI_Comm_create_keyval(copy_in_order, delete_in_order, &keys[1], NULL);
    MPI_Comm_set_attr(world, keys[0], "no");
    MPI_Comm_set_attr(world, keys[1], "yes");
    for (int k = 0; k < 12; k++) {
        dup = MPI_COMM_WORLD, order[0] = 0;
        code = MPI_Comm_dup(world, &dup);
        CHECK(class_of(code) == MPI_ERR_OTHER);
#ifdef ULFM_MPI
        CHECK(code == MPI_ERR_OTHER && dup == MPI_COMM_NULL && !strcmp(order, "+yes-yes"));
#endif
    }
    for (int k = 0; k < 2; k++) MPI_Comm_delete_attr(world, keys[k]), MPI_Comm_free_keyval(&keys[k]);
    order[0] = 0;
}

static void in_order(void) {
    char *values[3] = {"1", "2", "3"};
    int keys[3];
    MPI_Comm first, second, third;
    MPI_Comm_dup(world, &first);
    for (int k = 0; k < 3; k++) {
        MPI_Comm_create_keyval(copy_in_order, delete_in_order, &keys[k], NULL);
        MPI_Comm_set_attr(first, keys[k], values[k]);
    }
    MPI_Comm_dup(first, &second);
    MPI_Comm_dup(second, &third);
    CHECK(!strcmp(order, "+3+2+1+3+2+1"));
    order[0] = 0;
    MPI_Comm_free(&second);
    MPI_Comm_free(&third);
    MPI_Comm_free(&first);
    CHECK(!strcmp(order, "-3-2-1-3-2-1-3-2-1"));
    for (int k = 0; k < 3; k++) MPI_Comm_free_keyval(&keys[k]);
}

static void buffered(void) {
    char *room = malloc(2000 + MPI_BSEND_OVERHEAD * 2), *back;
    int x[250], y[250], bytes, next = (rank + 1) % size, before = (rank + size - 1) % size;
    MPI_Request request;
    for (int k = 0; k < 250; k++) x[k] = rank + k;
    CHECK(class_of(MPI_Bsend(x, 1, MPI_INT, next, 3, world)) == MPI_ERR_BUFFER);
    MPI_Buffer_attach(room, 2000 + MPI_BSEND_OVERHEAD * 2);
    MPI_Bsend(x, 250, MPI_INT, next, 3, world);
    MPI_Ibsend(x, 10, MPI_INT, next, 4, world, &request);
    x[0] = -5;
    MPI_Recv(y, 250, MPI_INT, before, 3, world, MPI_STATUS_IGNORE);
    CHECK(y[0] == before && y[249] == before + 249);
    MPI_Recv(y, 10, MPI_INT, before, 4, world, MPI_STATUS_IGNORE);
    CHECK(y[0] == before && y[9] == before + 9);
    MPI_Wait(&request, MPI_STATUS_IGNORE);
    MPI_Buffer_detach(&back, &bytes);
    CHECK(back == room && bytes == 2000 + MPI_BSEND_OVERHEAD * 2);
    free(room);
}

int main(int argc, char **argv) {
    int all = 0, key;
    MPI_Init(&argc, &argv);
    MPI_Comm_rank(world, &rank);
    MPI_Comm_size(world, &size);
    MPI_Comm_set_errhandler(world, MPI_ERRORS_RETURN);
    attributes();
    refused();
    in_order();
    without_functions();
    by_older_names();
    buffered();
    MPI_Comm_create_keyval(MPI_COMM_NULL_COPY_FN, end, &key, NULL);
    MPI_Comm_set_attr(MPI_COMM_SELF, key, &ends);
    MPI_Reduce(&faults, &all, 1, MPI_INT, MPI_SUM, 0, world);
    if (rank == 0) printf("faults: %d\n", all);
    MPI_Finalize();
    if (rank == 0) printf("ends: %d\n", ends);
    return faults != 0;
}
