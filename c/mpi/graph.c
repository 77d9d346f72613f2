/* Graphs that all members know (MPI 4.0, 8.5.3): the neighbours of node k stand in `edges` from index[k - 1] to index[k]. Ranks keep their order. */
#include "mpi/graph.h"
#include "collective/collective.h"
#include <stdlib.h>
#include <string.h>

static int *copy_of(const int *from, int count) {
    int *copy = malloc(((size_t)count + 1) * sizeof *copy);
    if (copy && count) memcpy(copy, from, (size_t)count * sizeof *copy);
    return copy;
}

void um_free_graph(struct graph *graph) {
    if (!graph) return;
    free(graph->index);
    free(graph->edge);
    free(graph->weight_in);
    free(graph->weight_out);
    free(graph);
}

/* Gives a communicator a graph like this one. */
int um_keep_graph(const struct graph *like, struct comm *comm) {
    struct graph *graph = malloc(sizeof *graph);
    if (!graph) return MPI_ERR_NO_MEM;
    *graph = *like;
    graph->index = copy_of(like->index, like->nodes);
    graph->edge = copy_of(like->edge, like->edges);
    graph->weight_in = like->is_weighted ? copy_of(like->weight_in, like->nodes) : 0;
    graph->weight_out = like->is_weighted ? copy_of(like->weight_out, like->edges) : 0;
    comm->graph = graph;
    bool has_weights = !like->is_weighted || (graph->weight_in && graph->weight_out);
    return graph->index && graph->edge && has_weights ? MPI_SUCCESS : MPI_ERR_NO_MEM; /* what there is goes with the communicator */
}

int um_copy_graph(const struct comm *from, struct comm *to) { return from->graph ? um_keep_graph(from->graph, to) : MPI_SUCCESS; }

static int first_edge(const struct graph *graph, int node) { return node ? graph->index[node - 1] : 0; }

void um_neighbors_of_graph(const struct comm *comm, int rank, struct neighbors *neighbors) {
    const struct graph *graph = comm->graph;
    bool is_whole = graph->kind == MPI_GRAPH;
    int first = is_whole ? first_edge(graph, rank) : 0;
    neighbors->sources = is_whole ? graph->index[rank] - first : graph->nodes;
    neighbors->targets = is_whole ? neighbors->sources : graph->edges;
    neighbors->source = is_whole ? graph->edge + first : graph->index;
    neighbors->target = graph->edge + first;
}

/* Why this is no graph of a communicator, or MPI_SUCCESS. */
static int check_graph(const struct comm *of, int nodes, const int index[], const int edges[]) {
    if (nodes < 0 || nodes > of->size || (nodes && !index)) return MPI_ERR_ARG;
    for (int k = 0; k < nodes; k++)
        if (index[k] < (k ? index[k - 1] : 0)) return MPI_ERR_ARG;
    int count = nodes ? index[nodes - 1] : 0;
    for (int k = 0; k < count; k++)
        if (!edges || edges[k] < 0 || edges[k] >= nodes) return MPI_ERR_ARG;
    return MPI_SUCCESS;
}

int MPI_Graph_create(MPI_Comm comm, int nodes, const int index[], const int edges[], int reorder, MPI_Comm *made) {
    struct comm *of = um_comm_at(comm);
    (void)reorder;
    ENTER(of, MPI_UNDEFINED, MPI_UNDEFINED);
    if (!of) return um_fail(0, MPI_ERR_COMM);
    int code = made ? check_graph(of, nodes, index, edges) : MPI_ERR_ARG;
    if (code != MPI_SUCCESS) return um_fail(of, um_refuse_collective(of, code));
    code = um_split_comm(of, of->position < nodes ? 0 : MPI_UNDEFINED, 0, made);
    if (code != MPI_SUCCESS || *made == MPI_COMM_NULL) return um_answer(of, code);
    struct graph graph = {
        .kind = MPI_GRAPH, .nodes = nodes, .edges = index[nodes - 1], .index = (int *)(uintptr_t)index, .edge = (int *)(uintptr_t)edges};
    return um_answer(of, um_keep_graph(&graph, um_comm_at(*made)));
}

/* Begins a call on a communicator with a graph of a kind. */
#define GRAPH(comm, is_kind) \
    struct comm *of = um_comm_at(comm); \
    ENTER_LOOK(of, MPI_UNDEFINED, MPI_UNDEFINED); \
    if (!of) return um_fail(0, MPI_ERR_COMM); \
    const struct graph *graph = of->graph; \
    if (!graph || graph->kind != (is_kind)) return um_fail(of, MPI_ERR_TOPOLOGY)

int MPI_Graphdims_get(MPI_Comm comm, int *nodes, int *edges) {
    GRAPH(comm, MPI_GRAPH);
    WRITES(of, nodes && edges);
    *nodes = graph->nodes;
    *edges = graph->edges;
    return MPI_SUCCESS;
}

int MPI_Graph_get(MPI_Comm comm, int maxindex, int maxedges, int index[], int edges[]) {
    GRAPH(comm, MPI_GRAPH);
    WRITES(of, (index || maxindex <= 0) && (edges || maxedges <= 0));
    for (int k = 0; k < graph->nodes && k < maxindex; k++) index[k] = graph->index[k];
    for (int k = 0; k < graph->edges && k < maxedges; k++) edges[k] = graph->edge[k];
    return MPI_SUCCESS;
}

int MPI_Graph_neighbors_count(MPI_Comm comm, int rank, int *count) {
    GRAPH(comm, MPI_GRAPH);
    WRITES(of, count);
    if (rank < 0 || rank >= of->size) return um_fail(of, MPI_ERR_RANK);
    *count = graph->index[rank] - first_edge(graph, rank);
    return MPI_SUCCESS;
}

int MPI_Graph_neighbors(MPI_Comm comm, int rank, int most, int neighbors[]) {
    GRAPH(comm, MPI_GRAPH);
    WRITES(of, neighbors || most <= 0);
    if (rank < 0 || rank >= of->size) return um_fail(of, MPI_ERR_RANK);
    for (int k = first_edge(graph, rank), to = 0; k < graph->index[rank] && to < most; k++) neighbors[to++] = graph->edge[k];
    return MPI_SUCCESS;
}

/* Where a rank would stand: ranks keep their order. */
int MPI_Graph_map(MPI_Comm comm, int nodes, const int index[], const int edges[], int *rank) {
    struct comm *of = um_comm_at(comm);
    ENTER_LOOK(of, MPI_UNDEFINED, MPI_UNDEFINED);
    if (!of) return um_fail(0, MPI_ERR_COMM);
    WRITES(of, rank);
    int code = check_graph(of, nodes, index, edges);
    *rank = of->position < nodes ? of->position : MPI_UNDEFINED;
    return um_answer(of, code);
}

int MPI_Dist_graph_neighbors_count(MPI_Comm comm, int *indegree, int *outdegree, int *weighted) {
    GRAPH(comm, MPI_DIST_GRAPH);
    WRITES(of, indegree && outdegree && weighted);
    *indegree = graph->nodes;
    *outdegree = graph->edges;
    *weighted = graph->is_weighted;
    return MPI_SUCCESS;
}

static void tell_edges(const int *from, const int *weights, int count, int most, int nodes[], int weights_told[]) {
    for (int k = 0; k < count && k < most; k++) {
        nodes[k] = from[k];
        if (weights && weights_told != MPI_UNWEIGHTED) weights_told[k] = weights[k];
    }
}

int MPI_Dist_graph_neighbors(MPI_Comm comm, int maxindegree, int sources[], int sourceweights[], int maxoutdegree, int destinations[],
                             int destweights[]) {
    GRAPH(comm, MPI_DIST_GRAPH);
    WRITES(of, (sources || maxindegree <= 0) && (destinations || maxoutdegree <= 0));
    if (maxindegree < 0 || maxoutdegree < 0) return um_fail(of, MPI_ERR_ARG);
    tell_edges(graph->index, graph->weight_in, graph->nodes, maxindegree, sources, sourceweights);
    tell_edges(graph->edge, graph->weight_out, graph->edges, maxoutdegree, destinations, destweights);
    return MPI_SUCCESS;
}
