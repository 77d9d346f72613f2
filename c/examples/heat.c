/* Heat in a rod by Jacobi's method. A rank may stop anywhere: the others go on from the copies that neighbours keep.

   The work goes in rounds. In a round each rank makes some steps, gives its block to its right neighbour, and agrees whether all did: then all have
   committed, or nobody. Whatever a rank meets, it makes exactly one agreement a round, so that all are always in the same one. A rank that meets an
   error revokes first, so that no other waits for it in the steps: -DNO_REVOKE shows what comes without. The last agreement is made before anybody
   leaves.

     ulfm-mpicc -g heat.c -o heat -lm
     ulfm-mpirun -n 4 ./heat
     ulfm-mpirun -n 4 --every-stop --same-output ./heat */
#include <math.h>
#include <mpi.h>
#include <stdio.h>
#include <stdlib.h>
#include <string.h>
#if defined OPEN_MPI
#include <mpi-ext.h>
#endif

enum { CELLS = 60, STEPS = 12, STEPS_A_ROUND = 4 };

static MPI_Comm comm;
static int rank, size;
static double rod[CELLS + 2];            /* cells 1 to CELLS; a rank keeps its own block of it right, and one cell on each side */
static int step;

/* What was committed: the own block and that of the left neighbour, and who had which. */
static struct {
    int step, first, last, left_first, left_last;
    double own[CELLS + 2], left[CELLS + 2];
    MPI_Group group;
} committed, next;

static int first_of(int who) { return 1 + CELLS * who / size; }
static int last_of(int who) { return CELLS * (who + 1) / size; }
static int left_of(int who) { return (who + size - 1) % size; }

static void use(MPI_Comm made) {
    comm = made;
    MPI_Comm_set_errhandler(comm, MPI_ERRORS_RETURN);
    MPI_Comm_rank(comm, &rank);
    MPI_Comm_size(comm, &size);
}

/* One step: the cells beside the block come from the neighbours, then each cell becomes the mean of its own. */
static int make_step(void) {
    int left = rank > 0 ? rank - 1 : MPI_PROC_NULL, right = rank < size - 1 ? rank + 1 : MPI_PROC_NULL;
    int first = first_of(rank), last = last_of(rank);
    double after[CELLS + 2];
    int code = MPI_Sendrecv(&rod[last], 1, MPI_DOUBLE, right, 1, &rod[first - 1], 1, MPI_DOUBLE, left, 1, comm, MPI_STATUS_IGNORE);
    if (code) return code;
    code = MPI_Sendrecv(&rod[first], 1, MPI_DOUBLE, left, 2, &rod[last + 1], 1, MPI_DOUBLE, right, 2, comm, MPI_STATUS_IGNORE);
    if (code) return code;
    for (int k = first; k <= last; k++) after[k] = (rod[k - 1] + rod[k + 1]) / 2;
    memcpy(&rod[first], &after[first], sizeof after[0] * (size_t)(last - first + 1));
    step++;
    return MPI_SUCCESS;
}

/* Fills in what is to be committed: the own block, and the left neighbour's, which sends it. */
static int save(void) {
    int left = left_of(rank), right = (rank + 1) % size;
    next.step = step;
    next.first = first_of(rank), next.last = last_of(rank);
    next.left_first = first_of(left), next.left_last = last_of(left);
    memcpy(next.own, rod, sizeof rod);
    return MPI_Sendrecv(&rod[next.first], next.last - next.first + 1, MPI_DOUBLE, right, 3, &next.left[next.left_first],
                        next.left_last - next.left_first + 1, MPI_DOUBLE, left, 3, comm, MPI_STATUS_IGNORE);
}

static void commit(void) {
    if (committed.group != MPI_GROUP_NULL) MPI_Group_free(&committed.group);
    committed = next;
    MPI_Comm_group(comm, &committed.group);
}

/* Whether the left neighbour of the committed state isn't in the communicator any more. */
static int has_lost_left(void) {
    MPI_Group now;
    int before, members, me, left, found;
    MPI_Comm_group(comm, &now);
    MPI_Group_size(committed.group, &members);
    MPI_Group_rank(committed.group, &before);
    me = (before + members - 1) % members;
    MPI_Group_translate_ranks(committed.group, 1, &me, now, &left);
    found = left != MPI_UNDEFINED;
    MPI_Group_free(&now);
    return !found;
}

/* All get the whole rod of the committed step: each gives its block, and the one of a left neighbour that is lost. */
static int restore(void) {
    double part[CELLS + 2] = {0}, whole[CELLS + 2];
    int lost = has_lost_left();
    part[0] = committed.last - committed.first + 1;
    memcpy(&part[committed.first], &committed.own[committed.first], sizeof part[0] * (size_t)(committed.last - committed.first + 1));
    if (lost) {
        part[0] += committed.left_last - committed.left_first + 1;
        memcpy(&part[committed.left_first], &committed.left[committed.left_first],
               sizeof part[0] * (size_t)(committed.left_last - committed.left_first + 1));
    }
    int code = MPI_Allreduce(part, whole, CELLS + 2, MPI_DOUBLE, MPI_SUM, comm);
    if (code) return code;
    if (whole[0] != CELLS) {
        fprintf(stderr, "two neighbours are lost, and with them a block\n");
        MPI_Abort(comm, 3);
    }
    memcpy(&rod[1], &whole[1], sizeof rod[0] * CELLS);
    step = committed.step;
    return MPI_SUCCESS;
}

/* All agree whether all were successful. A failure that some member knows of counts as none. */
static int all_did(int code) {
    int ok = code == MPI_SUCCESS;
#if !defined NO_REVOKE
    if (!ok) MPIX_Comm_revoke(comm);
#endif
    return MPIX_Comm_agree(comm, &ok) == MPI_SUCCESS && ok;
}

/* A communicator of those that run, where all have the rod of the committed step. */
static void recover(void) {
    MPI_Comm made;
    do {
        if (MPIX_Comm_shrink(comm, &made)) exit(4);
        use(made);
    } while (!all_did(restore()));
}

/* Some steps, a copy for the neighbour, and in the last round the result. */
static int make_round(double *heat) {
    double own = 0;
    int code = MPI_SUCCESS;
    for (int k = 0; k < STEPS_A_ROUND && code == MPI_SUCCESS; k++) code = make_step();
    if (code == MPI_SUCCESS) code = save();
    if (code != MPI_SUCCESS || step < STEPS) return code;
    for (int k = first_of(rank); k <= last_of(rank); k++) own += rod[k];
    code = MPI_Allreduce(&own, heat, 1, MPI_DOUBLE, MPI_SUM, comm);
    if (code == MPI_SUCCESS && rank == 0) printf("heat after %d steps: %.6f\n", step, *heat);
    return code;
}

/* The heat as one rank alone computes it, for comparison. */
static double heat_alone(void) {
    double now[CELLS + 2] = {100}, after[CELLS + 2] = {100}, sum = 0;
    for (int k = 0; k < STEPS; k++) {
        for (int i = 1; i <= CELLS; i++) after[i] = (now[i - 1] + now[i + 1]) / 2;
        memcpy(now, after, sizeof now);
    }
    for (int k = 1; k <= CELLS; k++) sum += now[k];
    return sum;
}

int main(int argc, char **argv) {
    double heat = 0;
    MPI_Init(&argc, &argv);
    use(MPI_COMM_WORLD);
    committed.group = MPI_GROUP_NULL;
    rod[0] = 100;
    next.first = first_of(rank), next.last = last_of(rank);
    next.left_first = first_of(left_of(rank)), next.left_last = last_of(left_of(rank));
    commit();                            /* the start is known without a copy: all cells are 0 */
    for (;;) {
        int code = make_round(&heat);
        if (!all_did(code)) {
            recover();
            continue;
        }
        commit();
        if (step == STEPS) break;
    }
    MPI_Group_free(&committed.group);
    MPI_Finalize();
    return fabs(heat - heat_alone()) > 1e-9;
}
