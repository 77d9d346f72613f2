/* MPI_Dims_create (MPI 4.0, 8.5.2): nodes are divided among the dimensions that are 0, the largest first, so that the largest and the smallest one differ by
   as little as can be. Where several divisions do, it is the one whose smallest is the largest, then the next one. */
#include "mpi/calls.h"
#include "mpi/graph.h"
#include <stdlib.h>
#include <string.h>

enum { MOST_DIVISORS = 1536 }; /* of any int */

struct search {
    int count; /* dimensions */
    int divisors, divisor[MOST_DIVISORS];
    int parts[MAX_DIMS], best[MAX_DIMS];
    int difference; /* of the best one */
};

/* Whether `base` to the power of so many dimensions is at least `nodes`. */
static bool reaches(int base, int count, int nodes) {
    long long product = 1;
    for (int k = 0; k < count && product < nodes; k++) product *= base;
    return product >= nodes;
}

/* Whether so many factors of at least `base` fit into `nodes`. */
static bool holds(int base, int count, int nodes) {
    long long product = 1;
    for (int k = 0; k < count && product <= nodes; k++) product *= base;
    return product <= nodes;
}

static int compare(const void *a, const void *b) { return *(const int *)a - *(const int *)b; }

static void find_divisors(struct search *search, int nodes) {
    for (int k = 1; k <= nodes / k; k++) {
        if (nodes % k) continue;
        search->divisor[search->divisors++] = k;
        if (nodes / k != k) search->divisor[search->divisors++] = nodes / k;
    }
    qsort(search->divisor, (size_t)search->divisors, sizeof *search->divisor, compare);
}

/* Divides what is left among the dimensions from `at`, each at most as large as the one before. */
static void divide(struct search *search, int at, int nodes) {
    int left = search->count - at;
    if (left == 0) {
        int difference = search->parts[0] - search->parts[search->count - 1], k = search->count - 1;
        while (k > 0 && search->parts[k] == search->best[k]) k--;
        if (difference == search->difference && search->parts[k] <= search->best[k]) return;
        search->difference = difference;
        memcpy(search->best, search->parts, sizeof search->best);
        return;
    }
    for (int k = 0; k < search->divisors; k++) {
        int part = search->divisor[k], largest = at ? search->parts[0] : part;
        if (part > nodes || (at && part > search->parts[at - 1])) return;
        if (nodes % part || !reaches(part, left, nodes) || (left == 1 && part != nodes)) continue;
        search->parts[at] = part;
        int least = largest - search->difference; /* of the smallest one */
        if (part < least || (least > 0 && !holds(least, left - 1, nodes / part))) continue;
        divide(search, at + 1, nodes / part);
    }
}

int MPI_Dims_create(int nodes, int ndims, int dims[]) {
    ENTER_LOOK(0, MPI_UNDEFINED, MPI_UNDEFINED);
    int fixed = 1, next = 0;
    struct search search = {.difference = nodes};
    if (ndims < 0 || ndims > MAX_DIMS) return um_fail(0, MPI_ERR_DIMS);
    if (nodes <= 0 || (ndims && !dims)) return um_fail(0, MPI_ERR_ARG);
    for (int k = 0; k < ndims; k++) {
        if (dims[k] < 0 || (dims[k] > 0 && (nodes / fixed) % dims[k])) return um_fail(0, MPI_ERR_DIMS);
        if (dims[k] > 0) fixed *= dims[k];
        search.count += dims[k] == 0;
    }
    if (search.count == 0) return nodes == fixed ? MPI_SUCCESS : um_fail(0, MPI_ERR_DIMS);
    find_divisors(&search, nodes / fixed);
    divide(&search, 0, nodes / fixed);
    for (int k = 0; k < ndims; k++)
        if (dims[k] == 0) dims[k] = search.best[next++];
    return MPI_SUCCESS;
}
