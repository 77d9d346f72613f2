/* Random collectives without failures, right with each MPI: those that block and those that don't, several open at the same time, on communicators of all
   and of parts, in place or not, with types and operations that are freed while they are used. All ranks make the same plan from the seed, the first
   word; each element that comes, and each that has to stay, is compared. */
#include "check.h"

enum { ROUNDS = 60, OPEN = 5, MOST = 8, LONGEST = 60, ROOM = MOST * (LONGEST + 4) * 16, LINES = 4 };
enum {
    BCAST, GATHER, SCATTER, ALLGATHER, ALLTOALL, GATHERV, SCATTERV, ALLGATHERV, ALLTOALLV, ALLTOALLW, REDUCE, ALLREDUCE, SCAN, EXSCAN, BLOCK, PARTS,
    BARRIER, KINDS
};
enum { INT, DOUBLE, PAIR, HOLES, TYPES };

struct pair { double value; int place; };
struct call {
    int number, kind, type, count, root, line, in_place, blocks, op;
    int rank, size;
    int counts[MOST], displs[MOST], bytes[MOST];
    MPI_Datatype types[MOST];
    MPI_Request request;
    _Alignas(16) char in[ROOM], out[ROOM];
};

static int rank, size, begun;
static MPI_Comm lines[LINES];
static MPI_Datatype holes;
static struct call calls[OPEN];
static unsigned long long state;

static int draw(int limit) {
    state = state * 6364136223846793005u + 1442695040888963407u;
    return (int)((state >> 33) % (unsigned)limit);
}

static int value_of(const struct call *call, int from, int k) { return (call->number * 131 + from * 37 + k * 11) % 97; }
static int extent_of(int type) { return (int[]){sizeof(int), sizeof(double), sizeof(struct pair), 3 * sizeof(int)}[type]; }

/* An element: one number, or two of which the second is made of the first. */
struct element { int a, b; };
static struct element element_of(int value) { return (struct element){value % 5 + 1, value}; }

static void put(char *buffer, int type, int k, struct element it) {
    char *at = buffer + k * extent_of(type);
    if (type == INT) *(int *)at = it.b;
    else if (type == DOUBLE) *(double *)at = it.b;
    else if (type == PAIR) ((struct pair *)at)->value = it.a, ((struct pair *)at)->place = it.b;
    else ((int *)at)[0] = it.a, ((int *)at)[2] = it.b;
}

static int is_there(const char *buffer, int type, int k, struct element it) {
    const char *at = buffer + k * extent_of(type);
    if (type == INT) return *(const int *)at == it.b;
    if (type == DOUBLE) return *(const double *)at == it.b;
    if (type == PAIR) return ((const struct pair *)at)->value == it.a && ((const struct pair *)at)->place == it.b;
    return ((const int *)at)[0] == it.a && ((const int *)at)[2] == it.b && ((const int *)at)[1] == -1;
}

/* What reductions do: numbers by sum or maximum, pairs by MPI_MAXLOC, elements with holes by an operation that doesn't commute. */
static struct element join(const struct call *call, struct element in, struct element into) {
    if (call->type == HOLES) return (struct element){in.a * into.a % 101, (in.b * into.a + into.b) % 101};
    if (call->type == PAIR) return in.a > into.a || (in.a == into.a && in.b < into.b) ? in : into;
    return (struct element){0, call->op ? (in.b > into.b ? in.b : into.b) : in.b + into.b};
}

static void join_holes(void *in, void *into, int *count, MPI_Datatype *type) {
    struct call like = {.type = HOLES};
    int bytes;
    MPI_Type_size(*type, &bytes);
    CHECK(bytes == 2 * sizeof(int));
    for (int k = 0; k < *count; k++) {
        int *a = (int *)in + 3 * k, *b = (int *)into + 3 * k;
        struct element it = join(&like, (struct element){a[0], a[2]}, (struct element){b[0], b[2]});
        b[0] = it.a, b[2] = it.b;
    }
}

static struct element joined(const struct call *call, int last, int k) {
    struct element it = element_of(value_of(call, 0, k));
    for (int from = 1; from <= last; from++) it = join(call, it, element_of(value_of(call, from, k)));
    return it;
}

static int is_reduction(int kind) { return kind >= REDUCE && kind <= PARTS; }
static int has_parts(int kind) { return kind >= GATHERV && kind <= ALLTOALLW; }
static int is_alltoall(int kind) { return kind == ALLTOALL || kind == ALLTOALLV || kind == ALLTOALLW; }
static int is_scatter(int kind) { return kind == SCATTER || kind == SCATTERV; }

/* Whether this rank's own elements stand where it gets the others'. */
static int stays(const struct call *call) {
    int at_root = call->kind == GATHER || call->kind == GATHERV || is_scatter(call->kind) || call->kind == REDUCE;
    return call->in_place && call->kind != BARRIER && call->kind != BCAST && (!at_root || call->rank == call->root);
}

static int count_for(const struct call *call, int k) { return has_parts(call->kind) || call->kind == PARTS ? call->counts[k] : call->count; }
static int place_for(const struct call *call, int k) {
    return has_parts(call->kind) ? call->displs[k] : call->kind == PARTS ? call->displs[k] - k : k * call->count;
}

static void plan(struct call *call, int number) {
    int at = 0, limit = draw(3) ? 4 : LONGEST;
    memset(call, -1, sizeof *call);
    call->number = number, call->kind = draw(KINDS), call->type = draw(TYPES), call->count = draw(limit), call->line = draw(LINES);
    call->in_place = draw(3) == 0, call->blocks = draw(3) == 0, call->op = draw(2);
    MPI_Comm_rank(lines[call->line], &call->rank);
    MPI_Comm_size(lines[call->line], &call->size);
    call->root = draw(840) % call->size;
    if (is_reduction(call->kind) && call->count == 0) call->count = 1;
    for (int k = 0; k < MOST; k++) {
        call->counts[k] = (call->count + 3 * k + number) % (limit < 5 ? 5 : limit);
        call->displs[k] = at + k;
        call->bytes[k] = call->displs[k] * extent_of(call->type);
        at += call->counts[k];
    }
    call->request = MPI_REQUEST_NULL;
}

/* How many elements this rank gives, for all together. */
static int given(const struct call *call) {
    if (call->kind == BLOCK) return call->count * call->size;
    if (call->kind == PARTS) return place_for(call, call->size - 1) + count_for(call, call->size - 1);
    return call->kind == GATHERV || call->kind == ALLGATHERV ? count_for(call, call->rank) : call->count;
}

static void fill(struct call *call) {
    char *own = stays(call) && !is_scatter(call->kind) ? call->out : call->in;
    int gathers = call->kind == GATHER || call->kind == GATHERV || call->kind == ALLGATHER || call->kind == ALLGATHERV;
    int at = stays(call) && gathers ? place_for(call, call->rank) : 0;
    if (call->kind == BCAST) {
        for (int k = 0; k < call->count && call->rank == call->root; k++) put(call->out, call->type, k, element_of(value_of(call, call->root, k)));
    } else if (is_alltoall(call->kind) || is_scatter(call->kind)) {
        for (int to = 0; to < call->size; to++)
            for (int k = 0; k < count_for(call, to); k++)
                put(own, call->type, place_for(call, to) + k, element_of(value_of(call, call->rank, 100 * to + k)));
    } else
        for (int k = 0; k < given(call); k++) put(own, call->type, at + k, element_of(value_of(call, call->rank, k)));
}

/* Of an MPI_Alltoallv each rank sends as much as the other one expects: all parts are of one length there. */
static void level(struct call *call) {
    for (int k = 0; k < MOST && (call->kind == ALLTOALLV || call->kind == ALLTOALLW); k++) {
        call->counts[k] = call->count, call->displs[k] = k * (call->count + 1);
        call->bytes[k] = call->displs[k] * extent_of(call->type);
    }
}

#define CALL(name, iname, ...) (call->blocks ? name(__VA_ARGS__) : iname(__VA_ARGS__, &call->request))

static int move(struct call *call, const void *in, MPI_Datatype type, MPI_Comm comm) {
    int n = call->count, own = call->counts[call->rank], *counts = call->counts, *displs = call->displs, root = call->root;
    void *out = call->out, *got = in == MPI_IN_PLACE ? MPI_IN_PLACE : out;
    for (int k = 0; k < MOST; k++) call->types[k] = type;
    switch (call->kind) {
    case BCAST: return CALL(MPI_Bcast, MPI_Ibcast, out, n, type, root, comm);
    case GATHER: return CALL(MPI_Gather, MPI_Igather, in, n, type, out, n, type, root, comm);
    case SCATTER: return CALL(MPI_Scatter, MPI_Iscatter, call->in, n, type, got, n, type, root, comm);
    case ALLGATHER: return CALL(MPI_Allgather, MPI_Iallgather, in, n, type, out, n, type, comm);
    case ALLTOALL: return CALL(MPI_Alltoall, MPI_Ialltoall, in, n, type, out, n, type, comm);
    case GATHERV: return CALL(MPI_Gatherv, MPI_Igatherv, in, own, type, out, counts, displs, type, root, comm);
    case SCATTERV: return CALL(MPI_Scatterv, MPI_Iscatterv, call->in, counts, displs, type, got, own, type, root, comm);
    case ALLGATHERV: return CALL(MPI_Allgatherv, MPI_Iallgatherv, in, own, type, out, counts, displs, type, comm);
    case ALLTOALLV: return CALL(MPI_Alltoallv, MPI_Ialltoallv, in, counts, displs, type, out, counts, displs, type, comm);
    case ALLTOALLW: return CALL(MPI_Alltoallw, MPI_Ialltoallw, in, counts, call->bytes, call->types, out, counts, call->bytes, call->types, comm);
    default: return CALL(MPI_Barrier, MPI_Ibarrier, comm);
    }
}

static int reduce(struct call *call, const void *in, MPI_Datatype type, MPI_Op op, MPI_Comm comm) {
    void *out = call->out;
    int n = call->count;
    switch (call->kind) {
    case REDUCE: return CALL(MPI_Reduce, MPI_Ireduce, in, out, n, type, op, call->root, comm);
    case ALLREDUCE: return CALL(MPI_Allreduce, MPI_Iallreduce, in, out, n, type, op, comm);
    case SCAN: return CALL(MPI_Scan, MPI_Iscan, in, out, n, type, op, comm);
    case EXSCAN: return CALL(MPI_Exscan, MPI_Iexscan, in, out, n, type, op, comm);
    case BLOCK: return CALL(MPI_Reduce_scatter_block, MPI_Ireduce_scatter_block, in, out, n, type, op, comm);
    default: return CALL(MPI_Reduce_scatter, MPI_Ireduce_scatter, in, out, call->counts, type, op, comm);
    }
}

/* Begins a call; its own type and operation are freed at once. */
static void begin(struct call *call) {
    MPI_Datatype type = (MPI_Datatype[]){MPI_INT, MPI_DOUBLE, MPI_DOUBLE_INT, holes}[call->type];
    MPI_Op op = call->type == PAIR ? MPI_MAXLOC : call->op ? MPI_MAX : MPI_SUM;
    const void *in = stays(call) ? MPI_IN_PLACE : call->in;
    if (call->type == HOLES) MPI_Type_dup(holes, &type), MPI_Op_create(join_holes, 0, &op);
    CHECK((is_reduction(call->kind) ? reduce(call, in, type, op, lines[call->line]) : move(call, in, type, lines[call->line])) == MPI_SUCCESS);
    if (call->type == HOLES) MPI_Type_free(&type), MPI_Op_free(&op);
}

static void look_at_result(const struct call *call) {
    int rooted = call->kind == GATHER || call->kind == GATHERV || call->kind == REDUCE, is_right = 1;
    int before = call->kind == PARTS ? place_for(call, call->rank) : call->kind == BLOCK ? call->rank * call->count : 0;
    if (call->kind == BARRIER || (rooted && call->rank != call->root) || (is_scatter(call->kind) && stays(call))) return;
    if (call->kind == BCAST || is_scatter(call->kind)) {
        int n = call->kind == SCATTERV ? count_for(call, call->rank) : call->count, from = call->kind == BCAST ? 0 : 100 * call->rank;
        for (int k = 0; k < n; k++) is_right &= is_there(call->out, call->type, k, element_of(value_of(call, call->root, from + k)));
    } else if (is_reduction(call->kind)) {
        int n = call->kind == PARTS ? count_for(call, call->rank) : call->count;
        int last = call->kind == SCAN ? call->rank : call->kind == EXSCAN ? call->rank - 1 : call->size - 1;
        for (int k = 0; k < n && last >= 0; k++) is_right &= is_there(call->out, call->type, k, joined(call, last, before + k));
    } else
        for (int from = 0; from < call->size; from++)
            for (int k = 0; k < count_for(call, from); k++) {
                int value = value_of(call, from, (is_alltoall(call->kind) ? 100 * call->rank : 0) + k);
                is_right &= is_there(call->out, call->type, place_for(call, from) + k, element_of(value));
            }
    CHECK(is_right);
    if (is_right) return;
    fprintf(stderr, "rank %d: kind %d type %d count %d root %d line %d in place %d blocks %d\n", rank, call->kind, call->type, call->count, call->root,
            call->line, call->in_place, call->blocks);
}

/* Ends all that are open, by waits of one kind or another. */
static void finish(int how) {
    MPI_Request requests[OPEN];
    int flag = 0, at;
    for (int k = 0; k < begun; k++) requests[k] = calls[k].request;
    if (how == 0) MPI_Waitall(begun, requests, MPI_STATUSES_IGNORE);
    for (int k = 0; k < begun && how == 1; k++) MPI_Waitany(begun, requests, &at, MPI_STATUS_IGNORE);
    while (!flag && how == 2) MPI_Testall(begun, requests, &flag, MPI_STATUSES_IGNORE);
    for (int k = begun - 1; k >= 0 && how == 3; k--) MPI_Wait(&requests[k], MPI_STATUS_IGNORE);
    for (int k = 0; k < begun; k++) CHECK(requests[k] == MPI_REQUEST_NULL);
    for (int k = 0; k < begun; k++) look_at_result(&calls[k]);
    begun = 0;
}

int main(int argc, char **argv) {
    int all = 0;
    MPI_Init(&argc, &argv);
    MPI_Comm_rank(MPI_COMM_WORLD, &rank);
    MPI_Comm_size(MPI_COMM_WORLD, &size);
    state = argc > 1 ? (unsigned long long)atoi(argv[1]) : 1;
    lines[0] = MPI_COMM_WORLD;
    MPI_Comm_dup(MPI_COMM_WORLD, &lines[1]);
    MPI_Comm_split(MPI_COMM_WORLD, 0, -rank, &lines[2]);
    MPI_Comm_split(MPI_COMM_WORLD, rank % 2, 0, &lines[3]);
    MPI_Datatype ends;
    MPI_Type_vector(2, 1, 2, MPI_INT, &ends);
    MPI_Type_create_resized(ends, 0, 3 * sizeof(int), &holes);
    MPI_Type_free(&ends);
    MPI_Type_commit(&holes);
    for (int round = 0; round < ROUNDS; round++) {
        int open = 1 + draw(OPEN);
        for (int k = 0; k < open; k++) plan(&calls[k], round * OPEN + k), level(&calls[k]), fill(&calls[k]), begin(&calls[k]), begun++;
        finish((draw(4) + rank) % 4);
    }
    for (int k = 1; k < LINES; k++) MPI_Comm_free(&lines[k]);
    MPI_Type_free(&holes);
    MPI_Reduce(&faults, &all, 1, MPI_INT, MPI_SUM, 0, MPI_COMM_WORLD);
    if (rank == 0) printf("faults: %d\n", all);
    MPI_Finalize();
    return faults != 0;
}
