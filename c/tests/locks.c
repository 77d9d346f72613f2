/* Windows under locks and between post and wait: what is done at once, a lock that is had alone, requests, memory in one piece, memory that is attached later, wrong
   arguments, and members that fail. For 3 or more ranks. */
#include "check.h"
#include <signal.h>

static int rank, size, next, before;
static MPI_Comm world = MPI_COMM_WORLD;

static MPI_Win window_of(void *base, MPI_Aint bytes, int unit) {
    MPI_Win win;
    CHECK(MPI_Win_create(base, bytes, unit, MPI_INFO_NULL, world, &win) == MPI_SUCCESS);
    MPI_Win_set_errhandler(win, MPI_ERRORS_RETURN);
    return win;
}

/* What is put under a lock is there when it is flushed, for the next call too. */
static void locked(void) {
    int own[8] = {0}, got[4] = {0}, put[4] = {rank, rank + 10, rank + 20, rank + 30};
    MPI_Win win = window_of(own, sizeof own, sizeof(int));
    MPI_Datatype rows;
    MPI_Win_lock(MPI_LOCK_SHARED, next, 0, win);
    CHECK(MPI_Put(put, 4, MPI_INT, next, 0, 4, MPI_INT, win) == MPI_SUCCESS);
    CHECK(MPI_Win_flush(next, win) == MPI_SUCCESS && MPI_Win_flush_local(next, win) == MPI_SUCCESS);
    MPI_Get(got, 4, MPI_INT, next, 0, 4, MPI_INT, win);
    CHECK(MPI_Win_flush_all(win) == MPI_SUCCESS && got[0] == rank && got[3] == rank + 30);
    CHECK(MPI_Win_unlock(next, win) == MPI_SUCCESS);
    MPI_Barrier(world);
    CHECK(own[0] == before && own[3] == before + 30);
    MPI_Type_vector(2, 1, 2, MPI_INT, &rows);
    MPI_Type_commit(&rows);
    CHECK(MPI_Win_lock_all(MPI_MODE_NOCHECK, win) == MPI_SUCCESS);
    MPI_Put(put, 1, rows, before, 4, 2, MPI_INT, win);
    MPI_Get(got, 2, MPI_INT, before, 4, 2, MPI_INT, win);
    CHECK(MPI_Win_flush_local_all(win) == MPI_SUCCESS && got[0] == rank && got[1] == rank + 20);
    CHECK(MPI_Win_unlock_all(win) == MPI_SUCCESS && MPI_Win_sync(win) == MPI_SUCCESS);
    MPI_Type_free(&rows);
    MPI_Barrier(world);
    CHECK(own[4] == next && own[5] == next + 20);
    CHECK(MPI_Win_lock(MPI_LOCK_EXCLUSIVE, MPI_PROC_NULL, 0, win) == MPI_SUCCESS && MPI_Put(put, 1, MPI_INT, MPI_PROC_NULL, 0, 1, MPI_INT, win) == MPI_SUCCESS);
    CHECK(MPI_Win_unlock(MPI_PROC_NULL, win) == MPI_SUCCESS && MPI_Win_free(&win) == MPI_SUCCESS);
}

/* Counters at rank 0: by a fold, by a swap, and by two calls under a lock that is had alone. */
static void counted(void) {
    enum { TIMES = 50 };
    long own[3] = {0}, one = 1, old = -1, was, wanted, last = -1;
    MPI_Win win = window_of(own, sizeof own, sizeof(long));
    for (int k = 0; k < TIMES; k++) {
        MPI_Win_lock(MPI_LOCK_SHARED, 0, 0, win);
        MPI_Fetch_and_op(&one, &old, MPI_LONG, 0, 0, MPI_SUM, win);
        CHECK(old > last);
        last = old;
        do {
            MPI_Get_accumulate(0, 0, MPI_LONG, &was, 1, MPI_LONG, 0, 1, 1, MPI_LONG, MPI_NO_OP, win);
            wanted = was + 1;
            MPI_Compare_and_swap(&wanted, &was, &old, MPI_LONG, 0, 1, win);
            MPI_Win_flush(0, win);
        } while (old != was);
        MPI_Win_unlock(0, win);
        MPI_Win_lock(MPI_LOCK_EXCLUSIVE, 0, 0, win);
        MPI_Get(&was, 1, MPI_LONG, 0, 2, 1, MPI_LONG, win);
        was++;
        MPI_Put(&was, 1, MPI_LONG, 0, 2, 1, MPI_LONG, win);
        MPI_Win_unlock(0, win);
    }
    MPI_Barrier(world);
    if (rank == 0) CHECK(own[0] == (long)TIMES * size && own[1] == own[0] && own[2] == own[0]);
    MPI_Win_free(&win);
}

/* Requests are over when they are given. */
static void requested(void) {
    double own[4] = {1, 2, 3, 4}, put = rank, got = -1, old = -1;
    MPI_Request requests[4];
    MPI_Status status;
    MPI_Win win = window_of(own, sizeof own, sizeof(double));
    MPI_Win_fence(0, win);
    CHECK(class_of(MPI_Rput(&put, 1, MPI_DOUBLE, next, 0, 1, MPI_DOUBLE, win, &requests[0])) == MPI_ERR_RMA_SYNC);
    MPI_Win_fence(MPI_MODE_NOSUCCEED, win);
    MPI_Win_lock_all(0, win);
    MPI_Rput(&put, 1, MPI_DOUBLE, next, 0, 1, MPI_DOUBLE, win, &requests[0]);
    MPI_Raccumulate(&put, 1, MPI_DOUBLE, next, 1, 1, MPI_DOUBLE, MPI_SUM, win, &requests[1]);
    MPI_Rget(&got, 1, MPI_DOUBLE, next, 0, 1, MPI_DOUBLE, win, &requests[2]);
    MPI_Rget_accumulate(&put, 1, MPI_DOUBLE, &old, 1, MPI_DOUBLE, next, 2, 1, MPI_DOUBLE, MPI_PROD, win, &requests[3]);
    CHECK(MPI_Wait(&requests[0], &status) == MPI_SUCCESS && requests[0] == MPI_REQUEST_NULL);
    CHECK(MPI_Waitall(3, requests + 1, MPI_STATUSES_IGNORE) == MPI_SUCCESS && got == rank && old == 3);
    MPI_Rput_c(&put, 1, MPI_DOUBLE, next, 3, 1, MPI_DOUBLE, win, &requests[0]);
    MPI_Wait(&requests[0], MPI_STATUS_IGNORE);
    MPI_Win_unlock_all(win);
    MPI_Barrier(world);
    CHECK(own[0] == before && own[1] == 2 + before && own[2] == 3 * before && own[3] == before);
    MPI_Win_free(&win);
}

/* Each posts to both neighbours, and starts with them. */
static void posted(void) {
    int own[2] = {-1, -1}, flag = 0;
    MPI_Group all, both;
    MPI_Win win = window_of(own, sizeof own, sizeof(int));
    MPI_Comm_group(world, &all);
    MPI_Group_incl(all, 2, (int[]){before, next}, &both);
    for (int k = 0; k < 3; k++) {
        int put = 10 * k + rank;
        MPI_Win_post(both, MPI_MODE_NOSTORE, win);
        CHECK(MPI_Win_start(both, 0, win) == MPI_SUCCESS);
        MPI_Put(&put, 1, MPI_INT, next, 0, 1, MPI_INT, win);
        MPI_Put(&put, 1, MPI_INT, before, 1, 1, MPI_INT, win);
        CHECK(MPI_Win_complete(win) == MPI_SUCCESS);
        if (k == 1)
            for (flag = 0; !flag;) CHECK(MPI_Win_test(win, &flag) == MPI_SUCCESS);
        else CHECK(MPI_Win_wait(win) == MPI_SUCCESS);
        CHECK(own[0] == 10 * k + before && own[1] == 10 * k + next);
    }
    MPI_Group_free(&both);
    MPI_Group_free(&all);
    MPI_Win_free(&win);
}

/* One piece, to which each writes by itself. */
static void shared(void) {
    int *own, *first, unit;
    MPI_Aint bytes;
    MPI_Win win;
    CHECK(MPI_Win_allocate_shared((rank + 1) * sizeof(int), sizeof(int), MPI_INFO_NULL, world, &own, &win) == MPI_SUCCESS);
    CHECK(MPI_Win_shared_query(win, MPI_PROC_NULL, &bytes, &unit, &first) == MPI_SUCCESS && bytes == sizeof(int) && unit == sizeof(int));
    CHECK(own == first + rank * (rank + 1) / 2);
    MPI_Win_lock_all(0, win);
    for (int k = 0; k <= rank; k++) own[k] = rank;
    MPI_Win_sync(win);
    MPI_Barrier(world);
    for (int k = 0, at = 0; k < size; k++)
        for (int m = 0; m <= k; m++) CHECK(first[at++] == k);
    MPI_Win_unlock_all(win);
    MPI_Win_free(&win);
}

/* Memory that is attached later, by its address. */
static void attached(void) {
    long *own = malloc(6 * sizeof *own), put = 100 + rank, pair[] = {100 + rank, 300 + rank}, got = 0;
    MPI_Aint at, there;
    MPI_Win win;
    CHECK(MPI_Win_create_dynamic(MPI_INFO_NULL, world, &win) == MPI_SUCCESS);
    MPI_Win_set_errhandler(win, MPI_ERRORS_RETURN);
    CHECK(MPI_Win_attach(win, own, 4 * sizeof *own) == MPI_SUCCESS && class_of(MPI_Win_attach(win, own + 1, sizeof *own)) == MPI_ERR_RMA_ATTACH);
    CHECK(MPI_Win_attach(win, own + 4, 2 * sizeof *own) == MPI_SUCCESS); /* right behind */
    MPI_Get_address(own, &at);
    MPI_Sendrecv(&at, 1, MPI_AINT, before, 1, &there, 1, MPI_AINT, next, 1, world, MPI_STATUS_IGNORE);
    MPI_Win_fence(0, win);
    MPI_Put(&put, 1, MPI_LONG, next, there, 1, MPI_LONG, win);
    CHECK(class_of(MPI_Put(pair, 2, MPI_LONG, next, there + 5 * sizeof *own, 2, MPI_LONG, win)) == MPI_ERR_RMA_RANGE);
    MPI_Win_fence(MPI_MODE_NOSUCCEED, win);
    CHECK(own[0] == 100 + before);
    MPI_Win_lock(MPI_LOCK_EXCLUSIVE, next, 0, win);
    MPI_Put(pair, 2, MPI_LONG, next, MPI_Aint_add(there, 3 * sizeof *own), 2, MPI_LONG, win);
    MPI_Get(&got, 1, MPI_LONG, next, there, 1, MPI_LONG, win);
    MPI_Win_unlock(next, win);
    MPI_Barrier(world);
    CHECK(own[3] == 100 + before && own[4] == 300 + before && got == 100 + rank);
    CHECK(MPI_Win_detach(win, own) == MPI_SUCCESS && class_of(MPI_Win_detach(win, own)) == MPI_ERR_ARG && MPI_Win_detach(win, own + 4) == MPI_SUCCESS);
    MPI_Win_free(&win);
    free(own);
}

static void errors(void) {
    int own = 0, unit;
    MPI_Aint bytes;
    void *at;
    MPI_Group none = MPI_GROUP_EMPTY;
    MPI_Win win = window_of(&own, sizeof own, 1);
    CHECK(class_of(MPI_Win_lock(7, next, 0, win)) == MPI_ERR_LOCKTYPE && class_of(MPI_Win_lock(MPI_LOCK_SHARED, size, 0, win)) == MPI_ERR_RANK);
    CHECK(class_of(MPI_Win_lock(MPI_LOCK_SHARED, next, 1, win)) == MPI_ERR_ASSERT && class_of(MPI_Win_unlock(next, win)) == MPI_ERR_RMA_SYNC);
    CHECK(class_of(MPI_Win_flush(next, win)) == MPI_ERR_RMA_SYNC && class_of(MPI_Win_flush_all(win)) == MPI_ERR_RMA_SYNC);
    CHECK(class_of(MPI_Put(&own, 1, MPI_INT, next, 0, 1, MPI_INT, win)) == MPI_ERR_RMA_SYNC && class_of(MPI_Win_complete(win)) == MPI_ERR_RMA_SYNC);
    CHECK(class_of(MPI_Win_wait(win)) == MPI_ERR_RMA_SYNC && class_of(MPI_Win_post(MPI_GROUP_NULL, 0, win)) == MPI_ERR_GROUP);
    MPI_Win_lock(MPI_LOCK_SHARED, next, 0, win);
    CHECK(class_of(MPI_Win_lock(MPI_LOCK_SHARED, next, 0, win)) == MPI_ERR_RMA_SYNC && class_of(MPI_Win_lock_all(0, win)) == MPI_ERR_RMA_SYNC);
    CHECK(class_of(MPI_Put(&own, 1, MPI_INT, before, 0, 1, MPI_INT, win)) == MPI_ERR_RMA_SYNC && class_of(MPI_Win_free(&win)) == MPI_ERR_RMA_SYNC);
    CHECK(class_of(MPI_Rput(&own, 1, MPI_INT, next, 0, 1, MPI_INT, win, 0)) == MPI_ERR_ARG && class_of(MPI_Win_start(none, 0, win)) == MPI_ERR_RMA_SYNC);
    MPI_Win_unlock(next, win);
    CHECK(class_of(MPI_Win_attach(win, &own, 4)) == MPI_ERR_RMA_FLAVOR && class_of(MPI_Win_shared_query(win, 0, &bytes, &unit, &at)) == MPI_ERR_RMA_FLAVOR);
    MPI_Win_post(none, 0, win);
    CHECK(class_of(MPI_Win_post(none, 0, win)) == MPI_ERR_RMA_SYNC && MPI_Win_start(none, 0, win) == MPI_SUCCESS && MPI_Win_complete(win) == MPI_SUCCESS && MPI_Win_wait(win) == MPI_SUCCESS);
    MPI_Win_free(&win);
}

/* Rank 1 stops while it holds the lock of rank 0, and is awaited. */
static void failure(void) {
    int own = 0, put = 1, code;
    MPI_Group all, one;
    MPI_Win win = window_of(&own, sizeof own, 1);
    MPI_Comm_group(world, &all);
    MPI_Group_incl(all, 1, (int[]){1}, &one);
    if (rank == 1) {
        MPI_Win_lock(MPI_LOCK_EXCLUSIVE, 0, 0, win);
        MPI_Barrier(world);
        raise(SIGKILL);
    }
    MPI_Barrier(world);
    if (rank == 0) MPI_Win_post(one, 0, win);
    CHECK(MPI_Win_lock(MPI_LOCK_EXCLUSIVE, 0, 0, win) == MPI_SUCCESS);
    CHECK(MPI_Put(&put, 1, MPI_INT, 0, 0, 1, MPI_INT, win) == MPI_SUCCESS && MPI_Win_unlock(0, win) == MPI_SUCCESS);
    CHECK(class_of(MPI_Win_start(one, 0, win)) == MPIX_ERR_PROC_FAILED);
    CHECK(class_of(MPI_Win_complete(win)) == MPIX_ERR_PROC_FAILED);
    code = MPI_Win_lock(MPI_LOCK_SHARED, 1, 0, win);
    CHECK(class_of(code) == MPIX_ERR_PROC_FAILED);
    if (rank == 0) CHECK(class_of(MPI_Win_wait(win)) == MPIX_ERR_PROC_FAILED);
    CHECK(class_of(MPI_Win_lock_all(0, win)) == MPIX_ERR_PROC_FAILED && class_of(MPI_Win_free(&win)) == MPIX_ERR_PROC_FAILED);
    MPI_Group_free(&one);
    MPI_Group_free(&all);
}

int main(int argc, char **argv) {
    MPI_Init(&argc, &argv);
    MPI_Comm_rank(world, &rank);
    MPI_Comm_size(world, &size);
    next = (rank + 1) % size, before = (rank + size - 1) % size;
    MPI_Comm_set_errhandler(world, MPI_ERRORS_RETURN);
    locked();
    counted();
    requested();
    posted();
    shared();
    attached();
    errors();
    failure();
    if (rank == 0) printf("faults: %d\n", faults);
    MPI_Finalize();
    return faults != 0;
}
