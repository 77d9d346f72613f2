/* Collectives, groups and datatypes without failures: what it prints is the same with each MPI. For 3 or more ranks. */
#include "check.h"

static int rank, size;
static MPI_Comm world;

static void product(void *in, void *into, int *count, MPI_Datatype *type) {
    /* Two by two matrices: this operation doesn't commute. */
    long *a = in, *b = into, c[4];
    (void)type;
    CHECK(*count > 0);
    for (int k = 0; k < *count; k++, a += 4, b += 4) {
        c[0] = a[0] * b[0] + a[1] * b[2];
        c[1] = a[0] * b[1] + a[1] * b[3];
        c[2] = a[2] * b[0] + a[3] * b[2];
        c[3] = a[2] * b[1] + a[3] * b[3];
        memcpy(b, c, sizeof c);
    }
}

static void reductions(void) {
    struct { double value; int place; } in = {(rank * 7) % 5, rank}, out = {0, 0};
    int x = rank + 1, sum = 0, most = 0, bits = 0, scan = 0, exscan = -1;
    double d = 0.1 * rank, total = 0, pair[2] = {-rank, rank}, least[2] = {0};
    float of_reals[2] = {(float)(rank % 2), (float)rank}, highest[2] = {0};
    MPI_Op op;
    MPI_Datatype matrix;
    long m[4] = {1, rank + 1, rank, 1}, result[4] = {0};
    MPI_Allreduce(&x, &sum, 1, MPI_INT, MPI_SUM, world);
    MPI_Allreduce(&x, &most, 1, MPI_INT, MPI_MAX, world);
    MPI_Allreduce(&x, &bits, 1, MPI_INT, MPI_BXOR, world);
    MPI_Allreduce(&in, &out, 1, MPI_DOUBLE_INT, MPI_MAXLOC, world);
    MPI_Allreduce(pair, least, 1, MPI_2DOUBLE_PRECISION, MPI_MINLOC, world);
    MPI_Allreduce(of_reals, highest, 1, MPI_2REAL, MPI_MAXLOC, world);
    CHECK(least[0] == 1 - size && least[1] == size - 1 && highest[0] == (size > 1) && highest[1] == (size > 1));
    MPI_Allreduce(&d, &total, 1, MPI_DOUBLE, MPI_SUM, world);
    MPI_Scan(&x, &scan, 1, MPI_INT, MPI_SUM, world);
    MPI_Exscan(&x, &exscan, 1, MPI_INT, MPI_SUM, world);
    CHECK(scan == x * (x + 1) / 2 && (rank == 0 || exscan == scan - x));
    MPI_Type_contiguous(4, MPI_LONG, &matrix);
    MPI_Type_commit(&matrix);
    MPI_Op_create(product, 0, &op);
    MPI_Reduce(m, result, 1, matrix, op, size - 1, world);
    MPI_Bcast(result, 4, MPI_LONG, size - 1, world);
    MPI_Allreduce(NULL, NULL, 0, matrix, op, world);
    MPI_Scan(NULL, NULL, 0, matrix, op, world);
    MPI_Reduce_local(NULL, NULL, 0, matrix, op);
    MPI_Op_free(&op);
    MPI_Type_free(&matrix);
    MPI_Allreduce(MPI_IN_PLACE, &x, 1, MPI_INT, MPI_SUM, world);
    if (rank == 0) printf("sum %d most %d bits %d maxloc %g at %d total %.1f in place %d", sum, most, bits, out.value, out.place, total, x);
    if (rank == 0) printf(" matrix %ld %ld %ld %ld\n", result[0], result[1], result[2], result[3]);
}

static void moves(void) {
    enum { MOST = 8 };
    int own[2] = {rank, rank * rank}, all[2 * MOST] = {0}, counts[MOST], displs[MOST], ragged[MOST * MOST] = {0}, part = -1, to[MOST], from[MOST] = {0};
    for (int k = 0; k < size; k++) counts[k] = k, displs[k] = k * k / 2 + k, to[k] = 10 * rank + k;
    MPI_Gather(own, 2, MPI_INT, all, 2, MPI_INT, 1, world);
    CHECK(rank != 1 || (all[2 * size - 1] == (size - 1) * (size - 1) && all[2] == 1));
    MPI_Allgather(own, 2, MPI_INT, all, 2, MPI_INT, world);
    for (int k = 0; k < size; k++) CHECK(all[2 * k] == k && all[2 * k + 1] == k * k);
    int many[MOST];
    for (int k = 0; k < rank; k++) many[k] = 100 * rank + k;
    MPI_Gatherv(many, rank, MPI_INT, ragged, counts, displs, MPI_INT, 0, world);
    if (rank == 0) for (int k = 0; k < size; k++) for (int j = 0; j < k; j++) CHECK(ragged[displs[k] + j] == 100 * k + j);
    MPI_Allgatherv(many, rank, MPI_INT, ragged, counts, displs, MPI_INT, world);
    for (int k = 0; k < size; k++) for (int j = 0; j < k; j++) CHECK(ragged[displs[k] + j] == 100 * k + j);
    MPI_Scatter(all, 1, MPI_INT, &part, 1, MPI_INT, 2, world);
    CHECK(part == all[rank]);
    MPI_Scatterv(ragged, counts, displs, MPI_INT, many, rank, MPI_INT, 1, world);
    for (int j = 0; j < rank; j++) CHECK(many[j] == 100 * rank + j);
    MPI_Alltoall(to, 1, MPI_INT, from, 1, MPI_INT, world);
    for (int k = 0; k < size; k++) CHECK(from[k] == 10 * k + rank);
    MPI_Alltoall(MPI_IN_PLACE, 0, MPI_INT, to, 1, MPI_INT, world);
    for (int k = 0; k < size; k++) CHECK(to[k] == 10 * k + rank);
    MPI_Barrier(world);
}

/* To the next rank alone: what goes to the others has no type. */
static void to_the_next(void) {
    enum { MOST = 8 };
    int sent[MOST] = {0}, got[MOST] = {0}, zeros[MOST] = {0}, next = (rank + 1) % size, before = (rank + size - 1) % size;
    MPI_Datatype out[MOST], in[MOST];
    MPI_Request request = MPI_REQUEST_NULL;
    for (int k = 0; k < MOST; k++) out[k] = in[k] = MPI_DATATYPE_NULL;
    sent[next] = got[before] = 1, out[next] = in[before] = MPI_INT;
    for (int blocks = 0; blocks < 2; blocks++) {
        int x = rank, y = -1;
        if (blocks) CHECK(MPI_Alltoallw(&x, sent, zeros, out, &y, got, zeros, in, world) == MPI_SUCCESS);
        else CHECK(MPI_Ialltoallw(&x, sent, zeros, out, &y, got, zeros, in, world, &request) == MPI_SUCCESS);
        MPI_Wait(&request, MPI_STATUS_IGNORE);
        CHECK(y == before);
    }
}

static void groups(void) {
    MPI_Group all, odd, even, both, none, more;
    int positions[8], count = 0, result, translated[8], n;
    MPI_Comm_group(world, &all);
    for (int k = 1; k < size; k += 2) positions[count++] = k;
    MPI_Group_incl(all, count, positions, &odd);
    MPI_Group_excl(all, count, positions, &even);
    MPI_Group_union(odd, even, &both);
    MPI_Group_intersection(odd, even, &none);
    MPI_Group_difference(all, odd, &more);
    MPI_Group_compare(all, both, &result);
    if (rank == 0) printf("all and both: %s,", result == MPI_SIMILAR ? "similar" : "another");
    MPI_Group_compare(even, more, &result);
    if (rank == 0) printf(" even and the rest: %s,", result == MPI_IDENT ? "the same" : "another");
    MPI_Group_size(none, &n);
    MPI_Group_translate_ranks(all, size, (int[]){0, 1, 2, 3, 4, 5, 6, 7}, both, translated);
    if (rank == 0) {
        printf(" none: %d, translated:", n);
        for (int k = 0; k < size; k++) printf(" %d", translated[k]);
        printf("\n");
    }
    MPI_Group_free(&all);
    MPI_Group_free(&odd);
    MPI_Group_free(&even);
    MPI_Group_free(&both);
    MPI_Group_free(&more);
}

static void communicators(void) {
    MPI_Comm dup, again;
    int same, other, length, x = rank, y = -1;
    char name[MPI_MAX_OBJECT_NAME];
    MPI_Comm_dup(world, &dup);
    MPI_Comm_compare(world, dup, &same);
    MPI_Comm_compare(world, world, &other);
    MPI_Comm_get_name(MPI_COMM_WORLD, name, &length);
    if (rank == 0) printf("dup: %d, itself: %d, name %s\n", same == MPI_CONGRUENT, other == MPI_IDENT, name);
    MPI_Request request = MPI_REQUEST_NULL;
    if (rank == 0) MPI_Isend(&same, 1, MPI_INT, 1, 0, world, &request);
    if (rank == 0) x = 50, MPI_Send(&x, 1, MPI_INT, 1, 0, dup);
    if (rank == 1) MPI_Recv(&y, 1, MPI_INT, 0, 0, dup, MPI_STATUS_IGNORE);
    CHECK(rank != 1 || y == 50);
    if (rank == 1) MPI_Recv(&y, 1, MPI_INT, 0, 0, world, MPI_STATUS_IGNORE);
    MPI_Wait(&request, MPI_STATUS_IGNORE);
    for (int k = 0; k < 40; k++) {
        MPI_Comm_dup(dup, &again);
        MPI_Sendrecv(&k, 1, MPI_INT, (rank + 1) % size, k, &y, 1, MPI_INT, (rank + size - 1) % size, k, again, MPI_STATUS_IGNORE);
        CHECK(y == k);
        MPI_Allreduce(&k, &y, 1, MPI_INT, MPI_MAX, again);
        CHECK(y == k);
        MPI_Comm_free(&again);
    }
    MPI_Comm_free(&dup);
}

/* Halves of the world, in the other order; the even ranks by a group; and all in the other order. */
static void parts(void) {
    MPI_Comm half, even, whole;
    MPI_Group group, evens;
    MPI_Status status;
    int at, members, sum = 0, x = rank, y = -1, positions[8], count = 0;
    MPI_Comm_split(world, rank % 2, -rank, &half);
    MPI_Comm_rank(half, &at);
    MPI_Comm_size(half, &members);
    CHECK(members == (size + (rank + 1) % 2) / 2 && at == members - 1 - rank / 2);
    MPI_Allreduce(&x, &sum, 1, MPI_INT, MPI_SUM, half);
    if (at > 0) MPI_Send(&x, 1, MPI_INT, at - 1, 8, half);
    if (at < members - 1) MPI_Recv(&y, 1, MPI_INT, MPI_ANY_SOURCE, MPI_ANY_TAG, half, &status);
    CHECK(at == members - 1 || (y == rank - 2 && status.MPI_SOURCE == at + 1));
    if (rank == 0) printf("half: %d members, sum %d\n", members, sum);
    MPI_Comm_group(world, &group);
    for (int k = 0; k < size; k += 2) positions[count++] = k;
    MPI_Group_incl(group, count, positions, &evens);
    if (rank % 2 == 0) MPI_Comm_create_group(world, evens, 5, &even);
    if (rank % 2 == 0) MPI_Bcast(&x, 1, MPI_INT, count - 1, even), MPI_Comm_free(&even);
    CHECK(x == (rank % 2 ? rank : positions[count - 1]));
    MPI_Comm_create(world, evens, &even);
    CHECK((even == MPI_COMM_NULL) == rank % 2);
    if (even != MPI_COMM_NULL) MPI_Barrier(even), MPI_Comm_free(&even);
    MPI_Comm_split(world, 0, size - rank, &whole);
    MPI_Comm_rank(whole, &at);
    MPI_Bcast(&rank, 0, MPI_INT, 0, whole);
    CHECK(at == size - 1 - rank);
    for (int k = 0; k < 50; k++) {
        MPI_Comm again;
        MPI_Comm_split(half, k % 3 ? 0 : MPI_UNDEFINED, 0, &again);
        if (again != MPI_COMM_NULL) MPI_Barrier(again), MPI_Comm_free(&again);
    }
    MPI_Comm_free(&whole);
    MPI_Comm_free(&half);
    MPI_Group_free(&group);
    MPI_Group_free(&evens);
    MPI_Barrier(world);
}

/* A barrier that doesn't block, while others go on: rank 0 waits for a message that comes behind it. */
static void later(void) {
    MPI_Request request, other;
    int x = 7, flag = 0;
    MPI_Ibarrier(world, &request);
    MPI_Ibarrier(world, &other);
    if (rank == 0) MPI_Recv(&x, 1, MPI_INT, 1, 4, world, MPI_STATUS_IGNORE);
    while (!flag) MPI_Test(&request, &flag, MPI_STATUS_IGNORE);
    MPI_Wait(&other, MPI_STATUS_IGNORE);
    CHECK(request == MPI_REQUEST_NULL && other == MPI_REQUEST_NULL);
    if (rank == 1) MPI_Send(&x, 1, MPI_INT, 0, 4, world);
    MPI_Barrier(world);
}

int main(int argc, char **argv) {
    int all = 0;
    MPI_Init(&argc, &argv);
    MPI_Comm_rank(MPI_COMM_WORLD, &rank);
    MPI_Comm_size(MPI_COMM_WORLD, &size);
    MPI_Comm_dup(MPI_COMM_WORLD, &world);
    reductions();
    moves();
    to_the_next();
    groups();
    communicators();
    parts();
    later();
    MPI_Reduce(&faults, &all, 1, MPI_INT, MPI_SUM, 0, world);
    if (rank == 0) printf("faults: %d\n", all);
    MPI_Comm_free(&world);
    MPI_Finalize();
    return faults != 0;
}
