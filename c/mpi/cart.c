/* Cartesian topologies (MPI 4.0, 8.5): a grid of the first ranks of a communicator, the last dimension varies the fastest. Ranks keep their order. */
#include "collective/collective.h"
#include "mpi/graph.h"
#include <limits.h>
#include <stdlib.h>
#include <string.h>

struct cart {
    int dims, size[MAX_DIMS], is_periodic[MAX_DIMS];
};

static int nodes_of(const struct cart *cart) {
    long long nodes = 1;
    for (int k = 0; k < cart->dims && nodes <= INT_MAX; k++) nodes *= cart->size[k];
    return nodes > INT_MAX ? INT_MAX : (int)nodes;
}

/* A copy for a duplicate (8.5: a duplicate has the topology), or null: there is none, or no memory. */
struct cart *um_copy_cart(const struct cart *cart) {
    struct cart *copy = cart ? malloc(sizeof *copy) : 0;
    if (copy) *copy = *cart;
    return copy;
}

/* Makes the communicator of those of a color, with a topology. */
static int make_cart(struct comm *of, const struct cart *cart, int color, int key, MPI_Comm *made) {
    int code = um_split_comm(of, color, key, made);
    if (code != MPI_SUCCESS || *made == MPI_COMM_NULL) return code;
    um_comm_at(*made)->cart = um_copy_cart(cart);
    return um_comm_at(*made)->cart ? MPI_SUCCESS : MPI_ERR_NO_MEM;
}

int MPI_Cart_create(MPI_Comm comm, int ndims, const int dims[], const int periods[], int reorder, MPI_Comm *made) {
    struct comm *of = um_comm_at(comm);
    struct cart cart = {.dims = ndims};
    (void)reorder;
    ENTER(of, MPI_UNDEFINED, MPI_UNDEFINED);
    if (!of) return um_fail(0, MPI_ERR_COMM);
    if (ndims < 0 || ndims > MAX_DIMS) return um_fail(of, um_refuse_collective(of, MPI_ERR_DIMS));
    if (!made || (ndims && (!dims || !periods))) return um_fail(of, um_refuse_collective(of, MPI_ERR_ARG));
    for (int k = 0; k < ndims; k++) {
        if (dims[k] <= 0) return um_fail(of, um_refuse_collective(of, MPI_ERR_DIMS));
        cart.size[k] = dims[k];
        cart.is_periodic[k] = periods[k] != 0;
    }
    if (nodes_of(&cart) > of->size) return um_fail(of, um_refuse_collective(of, MPI_ERR_ARG));
    return um_answer(of, make_cart(of, &cart, of->position < nodes_of(&cart) ? 0 : MPI_UNDEFINED, 0, made));
}

/* Begins a call on a communicator with a topology. */
#define CART(comm) \
    struct comm *of = um_comm_at(comm); \
    ENTER_LOOK(of, MPI_UNDEFINED, MPI_UNDEFINED); \
    if (!of) return um_fail(0, MPI_ERR_COMM); \
    struct cart *cart = of->cart; \
    if (!cart) return um_fail(of, MPI_ERR_TOPOLOGY)

static void coords_of(const struct cart *cart, int rank, int coords[]) {
    for (int k = cart->dims - 1; k >= 0; k--) {
        coords[k] = rank % cart->size[k];
        rank /= cart->size[k];
    }
}

/* The rank at these coordinates, or -1: one that isn't periodic is outside. */
static int rank_at(const struct cart *cart, const int coords[]) {
    int rank = 0;
    for (int k = 0; k < cart->dims; k++) {
        int size = cart->size[k], at = coords[k];
        if (!cart->is_periodic[k] && (at < 0 || at >= size)) return -1;
        rank = rank * size + (at % size + size) % size;
    }
    return rank;
}

int MPI_Cartdim_get(MPI_Comm comm, int *ndims) {
    CART(comm);
    WRITES(of, ndims);
    *ndims = cart->dims;
    return MPI_SUCCESS;
}

int MPI_Cart_get(MPI_Comm comm, int maxdims, int dims[], int periods[], int coords[]) {
    CART(comm);
    WRITES(of, cart->dims == 0 || (dims && periods && coords));
    int own[MAX_DIMS];
    if (maxdims < cart->dims) return um_fail(of, MPI_ERR_ARG);
    coords_of(cart, of->position, own);
    for (int k = 0; k < cart->dims; k++) dims[k] = cart->size[k], periods[k] = cart->is_periodic[k], coords[k] = own[k];
    return MPI_SUCCESS;
}

int MPI_Cart_rank(MPI_Comm comm, const int coords[], int *rank) {
    CART(comm);
    WRITES(of, rank && (coords || cart->dims == 0));
    int at = rank_at(cart, coords);
    if (at < 0) return um_fail(of, MPI_ERR_ARG);
    *rank = at;
    return MPI_SUCCESS;
}

int MPI_Cart_coords(MPI_Comm comm, int rank, int maxdims, int coords[]) {
    CART(comm);
    WRITES(of, coords || cart->dims == 0);
    if (rank < 0 || rank >= of->size) return um_fail(of, MPI_ERR_RANK);
    if (maxdims < cart->dims) return um_fail(of, MPI_ERR_ARG);
    coords_of(cart, rank, coords);
    return MPI_SUCCESS;
}

/* Where a shift along a dimension comes from and goes to: MPI_PROC_NULL outside of the grid. */
int MPI_Cart_shift(MPI_Comm comm, int direction, int displacement, int *source, int *dest) {
    CART(comm);
    WRITES(of, source && dest);
    if (direction < 0 || direction >= cart->dims) return um_fail(of, MPI_ERR_ARG);
    int coords[MAX_DIMS], from, to;
    coords_of(cart, of->position, coords);
    coords[direction] += displacement;
    to = rank_at(cart, coords);
    coords[direction] -= 2 * displacement;
    from = rank_at(cart, coords);
    *source = from < 0 ? MPI_PROC_NULL : from;
    *dest = to < 0 ? MPI_PROC_NULL : to;
    return MPI_SUCCESS;
}

/* The grids of the dimensions that remain, one for each place in the others. */
int MPI_Cart_sub(MPI_Comm comm, const int remains[], MPI_Comm *made) {
    struct comm *of = um_comm_at(comm);
    ENTER(of, MPI_UNDEFINED, MPI_UNDEFINED);
    if (!of) return um_fail(0, MPI_ERR_COMM);
    if (!of->cart) return um_fail(of, um_refuse_collective(of, MPI_ERR_TOPOLOGY));
    if (!made || (!remains && of->cart->dims)) return um_fail(of, um_refuse_collective(of, MPI_ERR_ARG));
    struct cart cart = {.dims = 0};
    int coords[MAX_DIMS], color = 0;
    coords_of(of->cart, of->position, coords);
    for (int k = 0; k < of->cart->dims; k++) {
        if (!remains[k]) color = color * of->cart->size[k] + coords[k];
        else cart.size[cart.dims] = of->cart->size[k], cart.is_periodic[cart.dims++] = of->cart->is_periodic[k];
    }
    return um_answer(of, make_cart(of, &cart, color, of->position, made));
}

/* The neighbours along each dimension, below and above; MPI_PROC_NULL outside of the grid (8.6). How many. */
int um_neighbors_of_cart(const struct comm *comm, int neighbors[]) {
    const struct cart *cart = comm->cart;
    int coords[MAX_DIMS];
    coords_of(cart, comm->position, coords);
    for (int k = 0; k < 2 * cart->dims; k++) {
        int step = k % 2 ? 1 : -1;
        coords[k / 2] += step;
        int at = rank_at(cart, coords);
        coords[k / 2] -= step;
        neighbors[k] = at < 0 ? MPI_PROC_NULL : at;
    }
    return 2 * cart->dims;
}

/* Where a rank would stand: ranks keep their order. */
int MPI_Cart_map(MPI_Comm comm, int ndims, const int dims[], const int periods[], int *rank) {
    struct comm *of = um_comm_at(comm);
    long long nodes = 1;
    ENTER_LOOK(of, MPI_UNDEFINED, MPI_UNDEFINED);
    if (!of) return um_fail(0, MPI_ERR_COMM);
    if (!rank || (ndims > 0 && (!dims || !periods))) return um_fail(of, MPI_ERR_ARG);
    if (ndims < 0 || ndims > MAX_DIMS) return um_fail(of, MPI_ERR_DIMS);
    for (int k = 0; k < ndims && nodes <= of->size; k++) {
        if (dims[k] <= 0) return um_fail(of, MPI_ERR_DIMS);
        nodes *= dims[k];
    }
    if (nodes > of->size) return um_fail(of, MPI_ERR_DIMS);
    *rank = of->position < nodes ? of->position : MPI_UNDEFINED;
    return MPI_SUCCESS;
}

int MPI_Topo_test(MPI_Comm comm, int *status) {
    struct comm *of = um_comm_at(comm);
    ENTER_LOOK(of, MPI_UNDEFINED, MPI_UNDEFINED);
    if (!of) return um_fail(0, MPI_ERR_COMM);
    WRITES(of, status);
    *status = of->cart ? MPI_CART : of->graph ? of->graph->kind : MPI_UNDEFINED;
    return MPI_SUCCESS;
}
