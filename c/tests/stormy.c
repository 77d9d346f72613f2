/* Collectives of all kinds that don't block, a few open at the same time. A rank may stop anywhere: the others revoke, agree and shrink by calls that don't
   block either, and make the step again. What comes out is compared where all agree that it came. */
#include "check.h"

enum { STEPS = 3, MOST = 8, KINDS = 6 };

static MPI_Comm comm = MPI_COMM_WORLD;
static int rank, size;
static MPI_Datatype ends;   /* the first and the last of three numbers */

static void sum_of_ends(void *in, void *into, int *count, MPI_Datatype *type) {
    (void)type;
    for (int k = 0; k < *count; k++)
        for (int end = 0; end < 3; end += 2) ((int *)into)[3 * k + end] += ((int *)in)[3 * k + end];
}

struct step {
    int number, bytes[MOST], ones[MOST], twos[MOST], places[MOST];
    MPI_Datatype types[MOST];
    int out[MOST][3], in[MOST][3], own[3], scan[3], token[2000], gathered[MOST][3], parts[2 * MOST], part[2];
};

static void fill(struct step *step, int number) {
    memset(step, 0, sizeof *step);
    step->number = number;
    for (int k = 0; k < MOST; k++) {
        step->bytes[k] = k * (int)sizeof step->out[0], step->ones[k] = 1, step->twos[k] = 2, step->places[k] = k, step->types[k] = ends;
        step->out[k][0] = 100 * rank + k, step->out[k][2] = -step->out[k][0];
        step->parts[2 * k] = k, step->parts[2 * k + 1] = rank;
    }
    step->own[0] = rank + number, step->own[2] = 1;
    for (int k = 0; k < 2000 && rank == number % size; k++) step->token[k] = number + k;
}

/* Begins a step's calls. The type and the operation of one are freed before it is over. */
static int begin(struct step *step, MPI_Request requests[]) {
    MPI_Datatype type;
    MPI_Op op;
    int code = MPI_SUCCESS, codes[KINDS];
    MPI_Type_dup(ends, &type);
    MPI_Op_create(sum_of_ends, 1, &op);
    codes[0] = MPI_Ialltoallw(step->out, step->ones, step->bytes, step->types, step->in, step->ones, step->bytes, step->types, comm, &requests[0]);
    codes[1] = MPI_Iscan(step->own, step->scan, 1, type, op, comm, &requests[1]);
    codes[2] = MPI_Ibcast(step->token, 2000, MPI_INT, step->number % size, comm, &requests[2]);
    codes[3] = MPI_Igatherv(step->own, 1, type, step->gathered, step->ones, step->places, type, size - 1, comm, &requests[3]);
    codes[4] = MPI_Ireduce_scatter(step->parts, step->part, step->twos, MPI_INT, MPI_SUM, comm, &requests[4]);
    codes[5] = MPI_Ibarrier(comm, &requests[5]);
    MPI_Type_free(&type);
    MPI_Op_free(&op);
    for (int k = 0; k < KINDS; k++) if (codes[k] != MPI_SUCCESS) code = codes[k];
    return code;
}

/* Whoever meets an error revokes, so that all others that are open end. */
static int finish(MPI_Request requests[], int code) {
    int at = 0;
    while (at != MPI_UNDEFINED) {
        int one = MPI_Waitany(KINDS, requests, &at, MPI_STATUS_IGNORE);
        if (one != MPI_SUCCESS && code == MPI_SUCCESS) MPIX_Comm_revoke(comm), code = one;
    }
    return code;
}

static void look_at_step(const struct step *step) {
    int number = step->number, all = size * (size - 1) / 2;
    for (int k = 0; k < size; k++) CHECK(step->in[k][0] == 100 * k + rank && step->in[k][2] == -100 * k - rank && step->in[k][1] == 0);
    CHECK(step->scan[0] == rank * (rank + 1) / 2 + (rank + 1) * number && step->scan[2] == rank + 1 && step->scan[1] == 0);
    CHECK(step->token[0] == number && step->token[1999] == number + 1999);
    for (int k = 0; k < size && rank == size - 1; k++) CHECK(step->gathered[k][0] == k + number && step->gathered[k][2] == 1 && step->gathered[k][1] == 0);
    CHECK(step->part[0] == size * rank && step->part[1] == all);
}

static int wait_for(int code, MPI_Request *request) { return code ? code : MPI_Wait(request, MPI_STATUS_IGNORE); }

/* Goes on with those that run. */
static void recover(void) {
    MPI_Request request;
    MPI_Comm made;
    MPIX_Comm_revoke(comm);
    if (wait_for(MPIX_Comm_ishrink(comm, &made, &request), &request)) exit(3);
    MPI_Comm_set_errhandler(made, MPI_ERRORS_RETURN);
    comm = made;
    MPI_Comm_rank(comm, &rank);
    MPI_Comm_size(comm, &size);
}

int main(int argc, char **argv) {
    static struct step step;
    MPI_Request requests[KINDS], request;
    MPI_Datatype two;
    MPI_Init(&argc, &argv);
    MPI_Comm_set_errhandler(comm, MPI_ERRORS_RETURN);
    MPI_Comm_rank(comm, &rank);
    MPI_Comm_size(comm, &size);
    MPI_Type_vector(2, 1, 2, MPI_INT, &two);
    MPI_Type_create_resized(two, 0, 3 * sizeof(int), &ends);
    MPI_Type_commit(&ends);
    for (int number = 0; number < STEPS;) {
        fill(&step, number);
        int code = finish(requests, begin(&step, requests)), did = code == MPI_SUCCESS;
        code = wait_for(MPIX_Comm_iagree(comm, &did, &request), &request);
        if (code == MPI_SUCCESS && did) look_at_step(&step), number++;
        else recover();
    }
    MPI_Type_free(&two);
    MPI_Type_free(&ends);
    printf("faults: %d\n", faults);
    MPI_Finalize();
    return faults != 0;
}
