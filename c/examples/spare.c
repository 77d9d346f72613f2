/* A spare rank. The work has as many parts as there are ranks but one; the last rank waits. Where a rank stops, the spare takes its part over, from the
   copy of its neighbour, and nothing else moves.

   Each rank has a part, or none. After a failure all shrink; the ranks that are left tell one another their parts, and the spare takes the one that
   is missing. With no spare left, a further failure ends the run. For 3 or more ranks.

     ulfm-mpicc -g spare.c -o spare
     ulfm-mpirun -n 4 --every-stop --same-output ./spare */
#include <mpi.h>
#include <stdio.h>
#include <stdlib.h>
#include <string.h>
#if defined OPEN_MPI
#include <mpi-ext.h>
#endif

enum { MOST = 64, STEPS = 9, STEPS_A_ROUND = 3, NONE = -1 };

struct part {
    int number, step;
    long long value;
};

static MPI_Comm comm;
static int rank, size, parts;
static int holder[MOST];             /* the rank that has each part */
static struct part now = {NONE, 0, 0}, committed = {NONE, 0, 0};
static struct part copy, next_copy;  /* of the part before the own one */

static void use(MPI_Comm made) {
    comm = made;
    MPI_Comm_set_errhandler(comm, MPI_ERRORS_RETURN);
    MPI_Comm_rank(comm, &rank);
    MPI_Comm_size(comm, &size);
}

static int before(int part) { return (part + parts - 1) % parts; }
static int after(int part) { return (part + 1) % parts; }

/* One step of a part: its value and that of the part before make the new one. */
static int make_step(void) {
    long long other = 0;
    int code = MPI_Sendrecv(&now.value, 1, MPI_LONG_LONG, holder[after(now.number)], 1, &other, 1, MPI_LONG_LONG, holder[before(now.number)], 1,
                            comm, MPI_STATUS_IGNORE);
    if (code) return code;
    now.value = (3 * now.value + other) % 1000003;
    now.step++;
    return MPI_SUCCESS;
}

/* Gives the next part's holder a copy. */
static int save(void) {
    return MPI_Sendrecv(&now, sizeof now, MPI_BYTE, holder[after(now.number)], 2, &next_copy, sizeof next_copy, MPI_BYTE,
                        holder[before(now.number)], 2, comm, MPI_STATUS_IGNORE);
}

static void commit(void) {
    committed = now;
    copy = next_copy;
}

static void end_of_spares(int part) {
    fprintf(stderr, "no spare is left for part %d, or no copy of it\n", part);
    MPI_Abort(comm, 3);
}

/* All learn who has which part. The number of the part that nobody has, or NONE. */
static int learn_holders(int *missing) {
    int numbers[MOST], code = MPI_Allgather(&committed.number, 1, MPI_INT, numbers, 1, MPI_INT, comm);
    if (code) return code;
    for (int k = 0; k < parts; k++) holder[k] = NONE;
    for (int k = 0; k < size; k++)
        if (numbers[k] != NONE) holder[numbers[k]] = k;
    *missing = NONE;
    for (int k = 0; k < parts; k++) {
        if (holder[k] == NONE && *missing != NONE) end_of_spares(k);
        if (holder[k] == NONE) *missing = k;
    }
    return MPI_SUCCESS;
}

/* The first rank without a part takes over the one that is missing, from the holder of the next part, which has the copy. */
static int take_over(void) {
    int missing, spare = NONE, code = learn_holders(&missing);
    if (code || missing == NONE) return code;
    int has_none[MOST], own = committed.number == NONE;
    if ((code = MPI_Allgather(&own, 1, MPI_INT, has_none, 1, MPI_INT, comm))) return code;
    for (int k = size - 1; k >= 0; k--)
        if (has_none[k]) spare = k;
    if (spare == NONE) end_of_spares(missing);
    holder[missing] = spare;
    if (rank == holder[after(missing)]) code = MPI_Send(&copy, sizeof copy, MPI_BYTE, spare, 3, comm);
    if (rank == spare) code = MPI_Recv(&now, sizeof now, MPI_BYTE, holder[after(missing)], 3, comm, MPI_STATUS_IGNORE);
    return code;
}

/* All agree whether all were successful. Each makes one agreement a round, whatever it met; who met an error revokes before. */
static int all_did(int code) {
    int ok = code == MPI_SUCCESS;
    if (!ok) MPIX_Comm_revoke(comm);
    return MPIX_Comm_agree(comm, &ok) == MPI_SUCCESS && ok;
}

/* Those that run go on from what was committed. The copies are made anew before the first step. */
static void recover(void) {
    MPI_Comm made;
    int code;
    do {
        if (MPIX_Comm_shrink(comm, &made)) exit(4);
        use(made);
        now = committed;
        code = take_over();
        if (code == MPI_SUCCESS && now.number != NONE) code = save();
    } while (!all_did(code));
    commit();
}

/* Some steps and a copy; then all get the sum of the values, of which the last is the result. */
static int make_round(long long *sum) {
    int code = MPI_SUCCESS;
    for (int k = 0; k < STEPS_A_ROUND && code == MPI_SUCCESS && now.number != NONE; k++) code = make_step();
    if (now.number == NONE) now.step += STEPS_A_ROUND;
    if (code == MPI_SUCCESS && now.number != NONE) code = save();
    if (code != MPI_SUCCESS) return code;
    code = MPI_Allreduce(&now.value, sum, 1, MPI_LONG_LONG, MPI_SUM, comm);
    if (code == MPI_SUCCESS && rank == 0) printf("step %d: sum %lld\n", now.step, *sum);
    return code;
}

/* The sum as one rank alone computes it, for comparison. */
static long long sum_alone(void) {
    long long values[MOST], olds[MOST], sum = 0;
    for (int k = 0; k < parts; k++) values[k] = k + 1;
    for (int step = 0; step < STEPS; step++) {
        memcpy(olds, values, sizeof olds);
        for (int k = 0; k < parts; k++) values[k] = (3 * olds[k] + olds[before(k)]) % 1000003;
    }
    for (int k = 0; k < parts; k++) sum += values[k];
    return sum;
}

int main(int argc, char **argv) {
    long long sum = 0;
    MPI_Init(&argc, &argv);
    use(MPI_COMM_WORLD);
    parts = size - 1;
    if (parts < 2 || parts > MOST) MPI_Abort(comm, 2);   /* a part alone has no neighbour that keeps its copy */
    for (int k = 0; k < parts; k++) holder[k] = k;
    if (rank < parts) now = (struct part){rank, 0, rank + 1}, next_copy = (struct part){before(rank), 0, before(rank) + 1};
    commit();                                       /* the start is known without a copy */
    while (now.step < STEPS) {
        if (all_did(make_round(&sum))) commit();
        else recover();
    }
    MPI_Finalize();
    return sum != sum_alone();
}
