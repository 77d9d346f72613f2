/* Collectives among neighbours (MPI 4.0, 8.6 and 8.7). All that goes from one rank to another is one message, in the order of the edges between them. In a
   grid what goes down along a dimension comes from above, also where that is the same rank. */
#include "collective/collective.h"
#include "collective/layout.h"
#include "mpi/graph.h"
#include <stdlib.h>

/* The data of each neighbour in a buffer: all alike, or by counts and displacements, in extents or in bytes. */
struct parts {
    const char *at;
    int count;
    bool is_one, has_counts, has_types; /* the same data for each; counts and displacements; types of their own */
    const int *counts, *displs;
    const MPI_Aint *bytes;
    MPI_Datatype type;
    const MPI_Datatype *types;
};

static MPI_Datatype type_of(const struct parts *parts, int k) { return parts->has_types ? parts->types[k] : parts->type; }
static int count_of(const struct parts *parts, int k) { return parts->has_counts ? parts->counts[k] : parts->count; }

/* The part of a neighbour, by its address. */
static struct piece piece_of(const struct parts *parts, int k) {
    struct type *type = um_type_at(type_of(parts, k));
    ptrdiff_t extent = extent_of(type), step = parts->is_one                            ? 0
                                               : parts->has_counts && !parts->has_types ? parts->displs[k]
                                                                                        : (ptrdiff_t)parts->count * k;
    return (struct piece){(size_t)count_of(parts, k), (ptrdiff_t)parts->at + (parts->has_types ? parts->bytes[k] : step * extent), extent, type};
}

/* Why these can't be the data of so many neighbours, or MPI_SUCCESS. */
static int check_parts(const struct parts *parts, int count) {
    size_t bytes;
    int code;
    bool is_there = !count || ((!parts->has_counts || parts->counts) && (!parts->has_types || (parts->types && parts->bytes)));
    if (!is_there || (count && parts->has_counts && !parts->has_types && !parts->displs)) return MPI_ERR_ARG;
    for (int k = 0; k < count; k++) {
        if (!um_check_buffer(count_of(parts, k), type_of(parts, k), &bytes, &code)) return code;
        if (!um_is_buffer(parts->at, bytes, type_of(parts, k))) return MPI_ERR_BUFFER;
    }
    return MPI_SUCCESS;
}

/* The type of all parts of one member, by their addresses; MPI_DATATYPE_NULL where it has none. `turn`: 1 where the two of a dimension change places. */
static int join_parts(const struct parts *parts, const int *nodes, int count, int member, int turn, MPI_Datatype *made) {
    struct piece *pieces = malloc(((size_t)count + 1) * sizeof *pieces);
    struct type *type;
    size_t found = 0;
    *made = MPI_DATATYPE_NULL;
    if (!pieces) return MPI_ERR_NO_MEM;
    for (int k = 0; k < count; k++)
        if (nodes[k ^ turn] == member) pieces[found++] = piece_of(parts, k ^ turn);
    int code = found ? um_join(pieces, found, &type) : MPI_SUCCESS;
    free(pieces);
    if (code != MPI_SUCCESS || found == 0) return code;
    type->is_committed = true;
    return um_add_type(type, made);
}

/* Sends and receives what goes between this rank and one member. */
static int exchange_with(struct request *made, int member, const struct parts *send, const struct parts *recv, const struct neighbors *of, int turn) {
    MPI_Datatype out, in = MPI_DATATYPE_NULL;
    int code = join_parts(send, of->target, of->targets, member, 0, &out);
    if (code == MPI_SUCCESS) code = join_parts(recv, of->source, of->sources, member, turn, &in);
    if (code == MPI_SUCCESS && member == made->comm->position && out && in)
        um_copy_own(made, (struct data){MPI_BOTTOM, 1, out}, (struct data){MPI_BOTTOM, 1, in});
    if (code == MPI_SUCCESS && out) um_send_data(made, member, (struct data){MPI_BOTTOM, 1, out});
    if (code == MPI_SUCCESS && in) um_post_data(made, member, (struct data){MPI_BOTTOM, 1, in});
    um_drop_type(out);
    um_drop_type(in);
    return code;
}

/* The neighbours of this rank; of a grid they stand in `grid`. False where there is no topology. */
static bool find_neighbors(const struct comm *comm, int grid[], struct neighbors *of) {
    *of = (struct neighbors){0};
    if (comm->graph) um_neighbors_of_graph(comm, comm->position, of);
    else if (comm->cart) of->sources = of->targets = um_neighbors_of_cart(comm, grid), of->source = of->target = grid;
    return comm->graph || comm->cart;
}

/* How many neighbours this rank gets data of, or sends data to. */
int um_neighbors_of(const struct comm *comm, bool is_in) {
    int grid[2 * MAX_DIMS];
    struct neighbors of;
    if (!comm || !find_neighbors(comm, grid, &of)) return 0;
    return is_in ? of.sources : of.targets;
}

static int begin(const struct parts *send, const struct parts *recv, struct comm *comm, struct request **made) {
    int grid[2 * MAX_DIMS];
    struct neighbors of;
    if (!comm) return MPI_ERR_COMM;
    if (!find_neighbors(comm, grid, &of)) return um_refuse_collective(comm, MPI_ERR_TOPOLOGY);
    int code = check_parts(send, send->is_one && of.targets ? 1 : of.targets);
    if (code == MPI_SUCCESS) code = check_parts(recv, of.sources);
    if (code != MPI_SUCCESS) return um_refuse_collective(comm, code);
    code = um_start_collective(comm, made);
    if (code != MPI_SUCCESS || (*made)->over) return code;
    for (int k = 0; k < comm->size; k++) {
        int one = exchange_with(*made, k, send, recv, &of, comm->cart != 0);
        if ((*made)->code == MPI_SUCCESS) (*made)->code = one;
    }
    return MPI_SUCCESS;
}

int MPI_Neighbor_allgather(const void *sendbuf, int sendcount, MPI_Datatype sendtype, void *recvbuf, int recvcount, MPI_Datatype recvtype,
                           MPI_Comm comm) {
    struct comm *of = um_comm_at(comm);
    struct request *made;
    struct parts send = {.at = sendbuf, .count = sendcount, .type = sendtype, .is_one = true};
    struct parts recv = {.at = recvbuf, .count = recvcount, .type = recvtype};
    ENTER(of, MPI_UNDEFINED, MPI_UNDEFINED);
    return um_wait_for_collective(of, begin(&send, &recv, of, &made), &made);
}

int MPI_Ineighbor_allgather(const void *sendbuf, int sendcount, MPI_Datatype sendtype, void *recvbuf, int recvcount, MPI_Datatype recvtype,
                            MPI_Comm comm, MPI_Request *request) {
    struct comm *of = um_comm_at(comm);
    struct request *made;
    struct parts send = {.at = sendbuf, .count = sendcount, .type = sendtype, .is_one = true};
    struct parts recv = {.at = recvbuf, .count = recvcount, .type = recvtype};
    ENTER(of, MPI_UNDEFINED, MPI_UNDEFINED);
    GIVES(of, request);
    return um_give_collective(of, begin(&send, &recv, of, &made), &made, request);
}

int MPI_Neighbor_allgatherv(const void *sendbuf, int sendcount, MPI_Datatype sendtype, void *recvbuf, const int recvcounts[], const int displs[],
                            MPI_Datatype recvtype, MPI_Comm comm) {
    struct comm *of = um_comm_at(comm);
    struct request *made;
    struct parts send = {.at = sendbuf, .count = sendcount, .type = sendtype, .is_one = true};
    struct parts recv = {.at = recvbuf, .counts = recvcounts, .displs = displs, .type = recvtype, .has_counts = true};
    ENTER(of, MPI_UNDEFINED, MPI_UNDEFINED);
    return um_wait_for_collective(of, begin(&send, &recv, of, &made), &made);
}

int MPI_Ineighbor_allgatherv(const void *sendbuf, int sendcount, MPI_Datatype sendtype, void *recvbuf, const int recvcounts[], const int displs[],
                             MPI_Datatype recvtype, MPI_Comm comm, MPI_Request *request) {
    struct comm *of = um_comm_at(comm);
    struct request *made;
    struct parts send = {.at = sendbuf, .count = sendcount, .type = sendtype, .is_one = true};
    struct parts recv = {.at = recvbuf, .counts = recvcounts, .displs = displs, .type = recvtype, .has_counts = true};
    ENTER(of, MPI_UNDEFINED, MPI_UNDEFINED);
    GIVES(of, request);
    return um_give_collective(of, begin(&send, &recv, of, &made), &made, request);
}

int MPI_Neighbor_alltoall(const void *sendbuf, int sendcount, MPI_Datatype sendtype, void *recvbuf, int recvcount, MPI_Datatype recvtype,
                          MPI_Comm comm) {
    struct comm *of = um_comm_at(comm);
    struct request *made;
    struct parts send = {.at = sendbuf, .count = sendcount, .type = sendtype}, recv = {.at = recvbuf, .count = recvcount, .type = recvtype};
    ENTER(of, MPI_UNDEFINED, MPI_UNDEFINED);
    return um_wait_for_collective(of, begin(&send, &recv, of, &made), &made);
}

int MPI_Ineighbor_alltoall(const void *sendbuf, int sendcount, MPI_Datatype sendtype, void *recvbuf, int recvcount, MPI_Datatype recvtype,
                           MPI_Comm comm, MPI_Request *request) {
    struct comm *of = um_comm_at(comm);
    struct request *made;
    struct parts send = {.at = sendbuf, .count = sendcount, .type = sendtype}, recv = {.at = recvbuf, .count = recvcount, .type = recvtype};
    ENTER(of, MPI_UNDEFINED, MPI_UNDEFINED);
    GIVES(of, request);
    return um_give_collective(of, begin(&send, &recv, of, &made), &made, request);
}

int MPI_Neighbor_alltoallv(const void *sendbuf, const int sendcounts[], const int sdispls[], MPI_Datatype sendtype, void *recvbuf,
                           const int recvcounts[], const int rdispls[], MPI_Datatype recvtype, MPI_Comm comm) {
    struct comm *of = um_comm_at(comm);
    struct request *made;
    struct parts send = {.at = sendbuf, .counts = sendcounts, .displs = sdispls, .type = sendtype, .has_counts = true};
    struct parts recv = {.at = recvbuf, .counts = recvcounts, .displs = rdispls, .type = recvtype, .has_counts = true};
    ENTER(of, MPI_UNDEFINED, MPI_UNDEFINED);
    return um_wait_for_collective(of, begin(&send, &recv, of, &made), &made);
}

int MPI_Ineighbor_alltoallv(const void *sendbuf, const int sendcounts[], const int sdispls[], MPI_Datatype sendtype, void *recvbuf,
                            const int recvcounts[], const int rdispls[], MPI_Datatype recvtype, MPI_Comm comm, MPI_Request *request) {
    struct comm *of = um_comm_at(comm);
    struct request *made;
    struct parts send = {.at = sendbuf, .counts = sendcounts, .displs = sdispls, .type = sendtype, .has_counts = true};
    struct parts recv = {.at = recvbuf, .counts = recvcounts, .displs = rdispls, .type = recvtype, .has_counts = true};
    ENTER(of, MPI_UNDEFINED, MPI_UNDEFINED);
    GIVES(of, request);
    return um_give_collective(of, begin(&send, &recv, of, &made), &made, request);
}

int MPI_Neighbor_alltoallw(const void *sendbuf, const int sendcounts[], const MPI_Aint sdispls[], const MPI_Datatype sendtypes[], void *recvbuf,
                           const int recvcounts[], const MPI_Aint rdispls[], const MPI_Datatype recvtypes[], MPI_Comm comm) {
    struct comm *of = um_comm_at(comm);
    struct request *made;
    struct parts send = {.at = sendbuf, .counts = sendcounts, .bytes = sdispls, .types = sendtypes, .has_counts = true, .has_types = true};
    struct parts recv = {.at = recvbuf, .counts = recvcounts, .bytes = rdispls, .types = recvtypes, .has_counts = true, .has_types = true};
    ENTER(of, MPI_UNDEFINED, MPI_UNDEFINED);
    return um_wait_for_collective(of, begin(&send, &recv, of, &made), &made);
}

int MPI_Ineighbor_alltoallw(const void *sendbuf, const int sendcounts[], const MPI_Aint sdispls[], const MPI_Datatype sendtypes[], void *recvbuf,
                            const int recvcounts[], const MPI_Aint rdispls[], const MPI_Datatype recvtypes[], MPI_Comm comm, MPI_Request *request) {
    struct comm *of = um_comm_at(comm);
    struct request *made;
    struct parts send = {.at = sendbuf, .counts = sendcounts, .bytes = sdispls, .types = sendtypes, .has_counts = true, .has_types = true};
    struct parts recv = {.at = recvbuf, .counts = recvcounts, .bytes = rdispls, .types = recvtypes, .has_counts = true, .has_types = true};
    ENTER(of, MPI_UNDEFINED, MPI_UNDEFINED);
    GIVES(of, request);
    return um_give_collective(of, begin(&send, &recv, of, &made), &made, request);
}
