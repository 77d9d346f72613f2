/* Conjugate gradients for a tridiagonal system. A rank may stop anywhere: the others go on from the copies that neighbours keep.

   Half of the method are reductions: where a rank stops inside one, some have its sum and others an error. So nobody commits what it has, or leaves,
   before all have agreed; and the result is told before that, since who would tell it may stop behind.

   With -DSUMS_GO_ON its sums don't block. With -DLEAVES_EARLY a rank leaves as soon as its own last reduction gave success: the classic bug, which --every-stop finds.

     ulfm-mpicc -g cg.c -o cg -lm
     ulfm-mpirun -n 4 --every-stop --same-output ./cg
     ulfm-mpicc -g -DLEAVES_EARLY cg.c -o cg_bug -lm
     ulfm-mpirun -n 4 --every-stop ./cg_bug */
#include <math.h>
#include <mpi.h>
#include <stdio.h>
#include <stdlib.h>
#include <string.h>
#if defined OPEN_MPI
#include <mpi-ext.h>
#endif

enum { ROWS = 8, ROUND = 3, MOST = 40 };   /* iterations a round, and at most */
static const double small = 1e-12;

/* The vectors; a rank keeps its own rows of them right. */
struct vectors {
    double x[ROWS + 2], r[ROWS + 2], p[ROWS + 2];
};

static MPI_Comm comm;
static int rank, size;
static struct vectors now;
static double rr;
static int iteration;

static struct {
    int iteration, before, members;   /* who this rank was among how many */
    double rr;
    struct vectors own, left;         /* the own rows, and those of the left neighbour */
    MPI_Group group;
} committed, next;

static int first_of(int who, int members) { return 1 + ROWS * who / members; }
static int last_of(int who, int members) { return ROWS * (who + 1) / members; }

static void use(MPI_Comm made) {
    comm = made;
    MPI_Comm_set_errhandler(comm, MPI_ERRORS_RETURN);
    MPI_Comm_rank(comm, &rank);
    MPI_Comm_size(comm, &size);
}

static int sum(double own, double *all) {
#ifdef SUMS_GO_ON
    MPI_Request request;
    int code = MPI_Iallreduce(&own, all, 1, MPI_DOUBLE, MPI_SUM, comm, &request);
    return code ? code : MPI_Wait(&request, MPI_STATUS_IGNORE);
#else
    return MPI_Allreduce(&own, all, 1, MPI_DOUBLE, MPI_SUM, comm);
#endif
}

/* The rows of p beside the own ones come from the neighbours. */
static int exchange(double *p) {
    int left = rank > 0 ? rank - 1 : MPI_PROC_NULL, right = rank < size - 1 ? rank + 1 : MPI_PROC_NULL;
    int first = first_of(rank, size), last = last_of(rank, size);
    int code = MPI_Sendrecv(&p[last], 1, MPI_DOUBLE, right, 1, &p[first - 1], 1, MPI_DOUBLE, left, 1, comm, MPI_STATUS_IGNORE);
    if (code) return code;
    return MPI_Sendrecv(&p[first], 1, MPI_DOUBLE, left, 2, &p[last + 1], 1, MPI_DOUBLE, right, 2, comm, MPI_STATUS_IGNORE);
}

/* One iteration, where the matrix has 2.1 in its diagonal and -1 beside it. */
static int iterate(void) {
    int first = first_of(rank, size), last = last_of(rank, size);
    double q[ROWS + 2], pq = 0, own = 0, after;
    int code = exchange(now.p);
    if (code) return code;
    for (int k = first; k <= last; k++) {
        double below = k > 1 ? now.p[k - 1] : 0, above = k < ROWS ? now.p[k + 1] : 0;
        q[k] = 2.1 * now.p[k] - below - above;
        own += now.p[k] * q[k];
    }
    if ((code = sum(own, &pq))) return code;
    own = 0;
    for (int k = first; k <= last; k++) {
        now.x[k] += rr / pq * now.p[k];
        now.r[k] -= rr / pq * q[k];
        own += now.r[k] * now.r[k];
    }
    if ((code = sum(own, &after))) return code;
    for (int k = first; k <= last; k++) now.p[k] = now.r[k] + after / rr * now.p[k];
    rr = after;
    iteration++;
    return MPI_SUCCESS;
}

/* Fills in what is to be committed. */
static int save(void) {
    next.iteration = iteration, next.rr = rr, next.before = rank, next.members = size, next.own = now;
    return MPI_Sendrecv(&now, sizeof now, MPI_BYTE, (rank + 1) % size, 3, &next.left, sizeof next.left, MPI_BYTE, (rank + size - 1) % size, 3,
                        comm, MPI_STATUS_IGNORE);
}

static void commit(void) {
    if (committed.group != MPI_GROUP_NULL) MPI_Group_free(&committed.group);
    committed = next;
    MPI_Comm_group(comm, &committed.group);
}

static void add_rows(struct vectors *part, const struct vectors *from, int who) {
    for (int k = first_of(who, committed.members); k <= last_of(who, committed.members); k++)
        part->x[k] = from->x[k], part->r[k] = from->r[k], part->p[k] = from->p[k], part->x[0]++;
}

/* All get all rows of the committed iteration: each gives its own, and those of a left neighbour that is lost. */
static int restore(void) {
    struct vectors part = {{0}, {0}, {0}}, whole;
    int left = (committed.before + committed.members - 1) % committed.members, there;
    MPI_Group group;
    MPI_Comm_group(comm, &group);
    MPI_Group_translate_ranks(committed.group, 1, &left, group, &there);
    MPI_Group_free(&group);
    add_rows(&part, &committed.own, committed.before);
    if (there == MPI_UNDEFINED) add_rows(&part, &committed.left, left);
    int code = MPI_Allreduce(&part, &whole, (int)(sizeof part / sizeof(double)), MPI_DOUBLE, MPI_SUM, comm);
    if (code) return code;
    if (whole.x[0] != ROWS) MPI_Abort(comm, 3);   /* two neighbours are lost, and with them rows */
    now = whole;
    iteration = committed.iteration, rr = committed.rr;
    return MPI_SUCCESS;
}

/* All agree whether all were successful. Each makes one agreement a round, whatever it met; who met an error revokes before. */
static int all_did(int code) {
    int ok = code == MPI_SUCCESS;
    if (!ok) MPIX_Comm_revoke(comm);
    return MPIX_Comm_agree(comm, &ok) == MPI_SUCCESS && ok;
}

static void recover(void) {
    MPI_Comm made;
    do {
        if (MPIX_Comm_shrink(comm, &made)) exit(4);
        use(made);
    } while (!all_did(restore()));
}

static int is_done(void) { return rr < small || iteration >= MOST; }

static int make_round(void) {
    int code = MPI_SUCCESS;
    for (int k = 0; k < ROUND && code == MPI_SUCCESS && !is_done(); k++) code = iterate();
    return code == MPI_SUCCESS ? save() : code;
}

/* Whether the rows that this rank has solve the system. */
static int is_right(void) {
    for (int k = first_of(rank, size); k <= last_of(rank, size); k++)
        if (fabs(now.r[k]) > 1e-5) return 0;
    return rr < small;
}

int main(int argc, char **argv) {
    MPI_Init(&argc, &argv);
    use(MPI_COMM_WORLD);
    committed.group = MPI_GROUP_NULL;
    for (int k = 1; k <= ROWS; k++) now.r[k] = now.p[k] = 1 + k % 3;
    for (int k = 1; k <= ROWS; k++) rr += now.r[k] * now.r[k];
    next.members = size, next.before = rank, next.own = next.left = now, next.rr = rr;
    commit();                                      /* the start is known without a copy */
    while (!is_done()) {
        int code = make_round();
#if defined LEAVES_EARLY
        if (code == MPI_SUCCESS && is_done()) break;   /* wrong: another one may have met an error, and shrinks */
#endif
        if (code == MPI_SUCCESS && is_done() && rank == 0) printf("solved: %s\n", is_right() ? "yes" : "no");
        if (all_did(code)) commit();
        else recover();
    }
    MPI_Group_free(&committed.group);
    MPI_Finalize();
    return !is_right();
}
