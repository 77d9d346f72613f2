/* A matrix product that survives a failure without copies (ABFT, Huang and Abraham 1984): C = A B by rows of blocks, and one rank more that has the sums of
   all blocks. What a rank loses is the sum less what the others have. The rank of the sums takes its part; a second failure ends the run.

   Each step adds the product with one block of B, which its holder gives to all, and ends by one agreement. For 3 or more ranks. */
#include <mpi.h>
#include <stdio.h>
#include <stdlib.h>
#include <string.h>
#if defined OPEN_MPI
#include <mpi-ext.h>
#endif

enum { SIDE = 2, MOST = 7, SUMS = -1, NONE = -2, LONGS = 2 * SIDE * MOST * SIDE };

/* A row of blocks of A and of C, and a block of B: SIDE rows of all columns. */
struct rows {
    long long a[SIDE][MOST * SIDE], b[SIDE][MOST * SIDE], c[SIDE][MOST * SIDE];
};

static MPI_Comm comm;
static int rank, size, parts, part; /* part: the number of the rank's rows, or SUMS */
static int step;
static struct rows own, next;

static void use(MPI_Comm made) {
    comm = made;
    MPI_Comm_set_errhandler(comm, MPI_ERRORS_RETURN);
    MPI_Comm_rank(comm, &rank);
    MPI_Comm_size(comm, &size);
}

static long long a_at(int row, int column) { return 3 * row + column + 1; }
static long long b_at(int row, int column) { return row - 2 * column; }

/* The rows of a part, or the sums of all. */
static void fill(void) {
    memset(&own, 0, sizeof own);
    for (int of = 0; of < parts; of++)
        for (int row = 0; row < SIDE && (part == of || part == SUMS); row++)
            for (int k = 0; k < parts * SIDE; k++) {
                own.a[row][k] += a_at(of * SIDE + row, k);
                own.b[row][k] += b_at(of * SIDE + row, k);
            }
    next = own;
}

/* Who has a part; NONE: nobody. */
static int holder_of(int wanted, int *code) {
    int all[MOST + 1], found = NONE;
    *code = MPI_Allgather(&part, 1, MPI_INT, all, 1, MPI_INT, comm);
    for (int k = 0; k < size && *code == MPI_SUCCESS; k++)
        if (all[k] == wanted) found = k;
    return found;
}

static int make_step(void) {
    long long block[SIDE][MOST * SIDE];
    int code, holder = holder_of(step, &code);
    if (code) return code;
    if (rank == holder) memcpy(block, own.b, sizeof block);
    if ((code = MPI_Bcast(block, SIDE * MOST * SIDE, MPI_LONG_LONG, holder, comm))) return code;
    for (int row = 0; row < SIDE; row++)
        for (int column = 0; column < parts * SIDE; column++)
            for (int k = 0; k < SIDE; k++) next.c[row][column] += own.a[row][step * SIDE + k] * block[k][column];
    return MPI_SUCCESS;
}

/* The rows that nobody has: the sums less those of all others, which the rank of the sums has from now on. */
static int restore(int *made) {
    struct rows rest = {0}, all;
    int code, missing = NONE, keeper = holder_of(SUMS, &code);
    for (int k = 0; k < parts && code == MPI_SUCCESS; k++)
        if (holder_of(k, &code) == NONE) missing = k;
    *made = part;
    if (code || missing == NONE) return code;
    if (keeper == NONE) MPI_Abort(comm, 3);
    if (rank != keeper) rest = own;
    if ((code = MPI_Reduce(&rest, &all, sizeof rest / sizeof(long long), MPI_LONG_LONG, MPI_SUM, keeper, comm)) || rank != keeper) return code;
    const long long *others = (long long *)&all, *sums = (long long *)&own;
    for (size_t k = 0; k < sizeof own / sizeof(long long); k++) ((long long *)&next)[k] = sums[k] - others[k];
    *made = missing;
    return MPI_SUCCESS;
}

static int all_did(int code) {
    int ok = code == MPI_SUCCESS;
    if (!ok) MPIX_Comm_revoke(comm);
    return MPIX_Comm_agree(comm, &ok) == MPI_SUCCESS && ok;
}

static void recover(void) {
    int made;
    MPI_Comm shrunk;
    do {
        if (MPIX_Comm_shrink(comm, &shrunk)) exit(4);
        use(shrunk);
        next = own;
    } while (!all_did(restore(&made)));
    part = made;
    own = next;
}

/* Whether the rank's rows of C are right, once the last step is made. */
static int is_right(void) {
    int is = 1;
    for (int row = 0; row < SIDE && part != SUMS; row++)
        for (int column = 0; column < parts * SIDE; column++) {
            long long wanted = 0;
            for (int k = 0; k < parts * SIDE; k++) wanted += a_at(part * SIDE + row, k) * b_at(k, column);
            is = is && next.c[row][column] == wanted;
        }
    return is;
}

/* What is told before the last agreement is told by somebody. */
static int make_and_tell(void) {
    int code = make_step();
    if (code || step + 1 < parts) return code;
    if (!is_right()) exit(1);
    if (rank == 0) printf("the product is right\n");
    return MPI_SUCCESS;
}

int main(int count, char **words) {
    MPI_Init(&count, &words);
    use(MPI_COMM_WORLD);
    parts = size - 1;
    if (parts < 2 || parts > MOST) MPI_Abort(comm, 2);
    part = rank < parts ? rank : SUMS;
    fill();
    while (step < parts) {
        if (!all_did(make_and_tell())) {
            recover();
            continue;
        }
        own = next;
        step++;
    }
    MPI_Finalize();
    return 0;
}
