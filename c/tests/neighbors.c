/* Topologies and the collectives among neighbours; what it prints is the same with MPICH. For 1 or more ranks. */
#include "check.h"

static int rank, size;
static MPI_Comm world = MPI_COMM_WORLD;

/* What each neighbour sent, in all forms of the call: a number of the sender and of its place in the sender's list. */
static void exchange(MPI_Comm comm, int sources, int targets, const char *what) {
    int out[64], in[64], each[64], counts_out[64], counts_in[64], displs_out[64], displs_in[64], own = 100 + rank;
    MPI_Aint bytes_out[64], bytes_in[64];
    MPI_Datatype types[64];
    MPI_Request request;
    for (int k = 0; k < 64; k++) out[k] = 1000 * rank + k, in[k] = each[k] = -1, types[k] = MPI_INT;
    for (int k = 0; k < 32; k++) counts_out[k] = counts_in[k] = 1, displs_out[k] = 2 * k, displs_in[k] = k, bytes_out[k] = 4 * k, bytes_in[k] = 8 * k;
    MPI_Neighbor_allgather(&own, 1, MPI_INT, each, 1, MPI_INT, comm);
    MPI_Neighbor_alltoall(out, 2, MPI_INT, in, 2, MPI_INT, comm);
    unsigned hash = 0, hashes[8];
    for (int k = 0; k < sources; k++) hash = hash * 31 + (unsigned)(each[k] + 7 * in[2 * k] + in[2 * k + 1]);
    CHECK(in[2 * sources] == -1 && each[sources] == -1);
    if (*what == 'a' && rank > 0) {   /* two edges of one rank: in order. MPICH 4.0.2 has them the other way round */
        hash = 0;
#ifdef ULFM_MPI
        CHECK(in[2 * rank - 2] == 1000 * (rank - 1) && in[2 * rank] == 1000 * (rank - 1) + 2 * (size - rank));
#endif
    }
    for (int k = 0; k < 64; k++) in[k] = -1;
    MPI_Ineighbor_allgatherv(&own, 1, MPI_INT, in, counts_in, displs_in, MPI_INT, comm, &request);
    MPI_Wait(&request, MPI_STATUS_IGNORE);
    for (int k = 0; k < sources; k++) CHECK(in[k] == each[k]);
#ifdef ULFM_MPI   /* MPICH 4.0.2 gives what went down to what comes from below here, where both neighbours of a dimension are one rank */
    int all[64], again[64];
    memset(all, 255, sizeof all);
    memset(again, 255, sizeof again);
    MPI_Neighbor_alltoall(out, 2, MPI_INT, all, 2, MPI_INT, comm);
    MPI_Neighbor_alltoallv(out, counts_out, displs_out, MPI_INT, again, counts_in, displs_in, MPI_INT, comm);
    for (int k = 0; k < sources; k++) CHECK(again[k] == all[2 * k]);
    memset(again, 255, sizeof again);
    for (int k = 0; k < 32; k++) bytes_out[k] = 8 * k;
    MPI_Ineighbor_alltoallw(out, counts_out, bytes_out, types, again, counts_in, bytes_in, types, comm, &request);
    MPI_Wait(&request, MPI_STATUS_IGNORE);
    for (int k = 0; k < sources; k++) CHECK(again[2 * k] == all[2 * k]);
    MPI_Neighbor_alltoall_init(out, 2, MPI_INT, again, 2, MPI_INT, comm, MPI_INFO_NULL, &request);
    for (int round = 0; round < 3; round++) {
        for (int k = 0; k < 64; k++) out[k]++;
        MPI_Start(&request);
        MPI_Wait(&request, MPI_STATUS_IGNORE);
        for (int k = 0; k < 2 * sources; k++) CHECK(again[k] == (all[k] < 0 ? -1 : all[k] + round + 1) || all[k] < 0);
    }
    MPI_Request_free(&request);
#endif
    MPI_Gather(&hash, 1, MPI_UNSIGNED, hashes, 1, MPI_UNSIGNED, 0, world);
    for (int k = 0; k < size && rank == 0; k++) printf("%s: %d of %d: %u\n", what, k, targets, hashes[k]);
}

static void grids(void) {
    static const int shapes[5][3] = {{0, 1, 1}, {1, 0, 0}, {0, 0, 1}, {1, 1, 1}, {0, 0, 0}};
    for (int k = 0; k < 5; k++) {
        int dims[2] = {0, 0}, periods[2] = {shapes[k][1], shapes[k][2]}, place;
        MPI_Comm grid;
        if (shapes[k][0]) dims[1] = 1;
        MPI_Dims_create(size, 2, dims);
        MPI_Cart_create(world, 2, dims, periods, 0, &grid);
        exchange(grid, 4, 4, "grid");
        MPI_Cart_map(world, 2, dims, periods, &place);
        CHECK(place == rank);
        MPI_Comm_free(&grid);
    }
}

/* A ring with a chord, which all know. */
static void whole_graph(void) {
    int index[8], edges[32], count = 0, nodes, all, found, got[8], first = 0, kind;
    MPI_Comm graph, twin;
    for (int k = 0; k < size; k++) {
        if (k == rank) first = count;
        edges[count++] = (k + 1) % size;
        edges[count++] = (k + size - 1) % size;
        if (k == 0 || k == size / 2) edges[count++] = k ? 0 : size / 2;
        index[k] = count;
    }
    MPI_Graph_create(world, size, index, edges, 0, &graph);
    MPI_Comm_dup(graph, &twin);
    MPI_Topo_test(twin, &kind);
    MPI_Graphdims_get(twin, &nodes, &all);
    MPI_Graph_neighbors_count(twin, rank, &found);
    MPI_Graph_neighbors(twin, rank, 8, got);
    CHECK(kind == MPI_GRAPH && nodes == size && all == count && found == index[rank] - first);
    for (int k = 0; k < found; k++) CHECK(got[k] == edges[first + k]);
    exchange(twin, found, found, "graph");
    MPI_Comm_free(&graph);
    MPI_Comm_free(&twin);
}

/* To each rank above, twice to the next one, by weights: once as each rank tells its own edges, once as rank 0 tells all. */
static void own_graph(void) {
    int sources[16], targets[16], in = 0, out = 0, all_from[8], degrees[8], all_to[64], weights[64], got_in, got_out, weighted, first[16], second[16], told[16], kind, count = 0;
    MPI_Comm graph, other;
    for (int k = 0; k < rank; k++) sources[in++] = k;
    if (rank > 0) sources[in++] = rank - 1;
    for (int k = rank + 1; k < size; k++) targets[out++] = k;
    if (rank + 1 < size) targets[out++] = rank + 1;
    MPI_Dist_graph_create_adjacent(world, in, in ? sources : MPI_WEIGHTS_EMPTY, MPI_UNWEIGHTED, out, out ? targets : MPI_WEIGHTS_EMPTY, MPI_UNWEIGHTED, MPI_INFO_NULL, 0, &graph);
    MPI_Dist_graph_neighbors_count(graph, &got_in, &got_out, &weighted);
    MPI_Topo_test(graph, &kind);
    CHECK(kind == MPI_DIST_GRAPH && got_in == in && got_out == out && !weighted);
    exchange(graph, in, out, "adjacent");
    for (int k = 0; k < size && rank == 0; k++) {
        all_from[k] = k;
        degrees[k] = size - 1 - k + (k + 1 < size);
        for (int j = k + 1; j < size; j++) weights[count] = 10 * k + j, all_to[count++] = j;
        if (k + 1 < size) weights[count] = 7, all_to[count++] = k + 1;
    }
    MPI_Dist_graph_create(world, rank ? 0 : size, all_from, degrees, all_to, weights, MPI_INFO_NULL, 0, &other);
    MPI_Dist_graph_neighbors_count(other, &got_in, &got_out, &weighted);
    CHECK(got_in == in && got_out == out && weighted);
    int sum = 0, wanted = 0;
#ifdef ULFM_MPI   /* MPICH 4.0.2 ends by a signal where no edge comes in */
    MPI_Dist_graph_neighbors(other, 16, first, told, 16, second, weights);
    for (int k = 0; k < in; k++) sum += 100 * first[k] + told[k];
    for (int k = 0; k < rank; k++) wanted += 100 * k + 10 * k + rank;
    if (rank > 0) wanted += 100 * (rank - 1) + 7;
#endif
    CHECK(sum == wanted);
    MPI_Comm_free(&graph);
    MPI_Comm_free(&other);
}

static void refused(void) {
    int value = 0, index = 1, edge = size;
    MPI_Comm made;
    CHECK(class_of(MPI_Neighbor_allgather(&value, 1, MPI_INT, &value, 1, MPI_INT, world)) == MPI_ERR_TOPOLOGY);
    CHECK(class_of(MPI_Graphdims_get(world, &value, &value)) == MPI_ERR_TOPOLOGY);
#ifdef ULFM_MPI
    CHECK(MPI_Graph_create(world, 1, &index, &edge, 0, &made) != MPI_SUCCESS);
#endif
}

int main(int argc, char **argv) {
    int all = 0;
    MPI_Init(&argc, &argv);
    MPI_Comm_rank(world, &rank);
    MPI_Comm_size(world, &size);
    MPI_Comm_set_errhandler(world, MPI_ERRORS_RETURN);
    grids();
    whole_graph();
    own_graph();
    refused();
    MPI_Reduce(&faults, &all, 1, MPI_INT, MPI_SUM, 0, world);
    if (rank == 0) printf("faults: %d\n", all);
    MPI_Finalize();
    return faults != 0;
}
