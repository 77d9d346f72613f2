/* Graphs of which each member knows its own edges (MPI 4.0, 8.5.4): it tells all edges that end or begin at it, or some edges of any members, which tell each
   other then. */
#include "collective/collective.h"
#include "mpi/graph.h"
#include <stdlib.h>
#include <string.h>

/* An edge, as members tell each other. */
struct edge {
    int from, to, weight;
};

/* Makes the communicator of the same members, with a graph. */
static int make_graph(struct comm *of, const struct graph *graph, MPI_Comm *made) {
    int code = um_make_another(of, made);
    return code == MPI_SUCCESS ? um_keep_graph(graph, um_comm_at(*made)) : code;
}

static bool is_weighted(const int *weights) { return weights != MPI_UNWEIGHTED; }

/* Why these can't be edges to or from other members, or MPI_SUCCESS. */
static int check_edges(const struct comm *of, int count, const int nodes[], const int weights[]) {
    if (count < 0 || (count && (!nodes || !weights))) return MPI_ERR_ARG;
    for (int k = 0; k < count; k++)
        if (nodes[k] < 0 || nodes[k] >= of->size || (is_weighted(weights) && weights[k] < 0)) return MPI_ERR_ARG;
    return MPI_SUCCESS;
}

int MPI_Dist_graph_create_adjacent(MPI_Comm comm, int indegree, const int sources[], const int sourceweights[], int outdegree,
                                   const int destinations[], const int destweights[], MPI_Info info, int reorder, MPI_Comm *made) {
    struct comm *of = um_comm_at(comm);
    (void)reorder;
    ENTER(of, MPI_UNDEFINED, MPI_UNDEFINED);
    if (!of) return um_fail(0, MPI_ERR_COMM);
    int code = !um_is_info(info) ? MPI_ERR_INFO : made ? check_edges(of, indegree, sources, sourceweights) : MPI_ERR_ARG;
    if (code == MPI_SUCCESS) code = check_edges(of, outdegree, destinations, destweights);
    if (code == MPI_SUCCESS && is_weighted(sourceweights) != is_weighted(destweights)) code = MPI_ERR_ARG;
    if (code != MPI_SUCCESS) return um_fail(of, um_refuse_collective(of, code));
    code = um_begin_collective(of);
    struct graph graph = {MPI_DIST_GRAPH,
                          indegree,
                          outdegree,
                          is_weighted(sourceweights),
                          (int *)(uintptr_t)sources,
                          (int *)(uintptr_t)destinations,
                          (int *)(uintptr_t)sourceweights,
                          (int *)(uintptr_t)destweights};
    return um_answer(of, code != MPI_SUCCESS ? code : make_graph(of, &graph, made));
}

/* What each has is told to all: the largest number of edges first. */
static int tell_most(struct comm *of, int own, int *most) {
    int counts[MAX_RANKS] = {0};
    char verdict[VERDICT + sizeof *most];
    int code = um_gather_all(of, &own, sizeof own, counts);
    *most = 0;
    for (int k = 0; k < of->size && of->position == 0; k++) *most = counts[k] > *most ? counts[k] : *most;
    memcpy(verdict + VERDICT, most, sizeof *most);
    code = um_spread_verdict(of, code, verdict, sizeof *most);
    memcpy(most, verdict + VERDICT, sizeof *most);
    return code;
}

/* Room for the edges that end or begin at a member. */
static bool make_room(struct graph *graph, int count) {
    size_t bytes = ((size_t)count + 1) * sizeof(int);
    graph->index = malloc(bytes);
    graph->edge = malloc(bytes);
    graph->weight_in = malloc(bytes);
    graph->weight_out = malloc(bytes);
    return graph->index && graph->edge && graph->weight_in && graph->weight_out;
}

/* Picks those that end or begin here, in the order of the members that told them. */
static void pick_edges(const struct comm *of, const struct edge *edges, int count, struct graph *graph) {
    for (int k = 0; k < count; k++) {
        if (edges[k].to == of->position) graph->weight_in[graph->nodes] = edges[k].weight, graph->index[graph->nodes++] = edges[k].from;
        if (edges[k].from == of->position) graph->weight_out[graph->edges] = edges[k].weight, graph->edge[graph->edges++] = edges[k].to;
    }
}

/* All edges of all members, each with as much room as the one with the most: `edges` is this member's. */
static int tell_edges(struct comm *of, const struct edge *edges, int most, struct graph *graph) {
    size_t bytes = (size_t)most * sizeof *edges, all = bytes * (size_t)of->size;
    char *room = malloc(VERDICT + all + 1);
    int code = um_gather_all(of, edges, room ? bytes : 0, room ? room + VERDICT : 0);
    if (!room) return MPI_ERR_NO_MEM;
    code = um_spread_verdict(of, code, room, all);
    if (code == MPI_SUCCESS && !make_room(graph, most * of->size)) code = MPI_ERR_NO_MEM;
    if (code == MPI_SUCCESS) pick_edges(of, (const struct edge *)(room + VERDICT), most * of->size, graph);
    free(room);
    return code;
}

/* The edges that a member tells: from each of its sources to so many destinations, all of which stand in one list. */
struct told {
    int count; /* of sources */
    const int *sources, *degrees, *destinations, *weights;
    int edges;
};

/* Those of each source in turn. Of what isn't filled in nobody has an end. */
static struct edge *list_edges(const struct told *told, int most) {
    struct edge *edges = malloc(((size_t)most + 1) * sizeof *edges);
    int at = 0;
    for (int k = 0; edges && k < most; k++) edges[k] = (struct edge){-1, -1, 0};
    for (int k = 0; edges && k < told->count; k++)
        for (int j = 0; j < told->degrees[k]; j++, at++)
            edges[at] = (struct edge){told->sources[k], told->destinations[at], is_weighted(told->weights) ? told->weights[at] : 0};
    return edges;
}

static int create(struct comm *of, const struct told *told, MPI_Comm *made) {
    struct graph graph = {.kind = MPI_DIST_GRAPH, .is_weighted = is_weighted(told->weights)};
    int most, code = tell_most(of, told->edges, &most);
    if (code != MPI_SUCCESS) return code;
    struct edge *edges = list_edges(told, most);
    code = edges ? tell_edges(of, edges, most, &graph) : MPI_ERR_NO_MEM;
    free(edges);
    if (code == MPI_SUCCESS) code = make_graph(of, &graph, made);
    free(graph.index);
    free(graph.edge);
    free(graph.weight_in);
    free(graph.weight_out);
    return code;
}

int MPI_Dist_graph_create(MPI_Comm comm, int count, const int sources[], const int degrees[], const int destinations[], const int weights[],
                          MPI_Info info, int reorder, MPI_Comm *made) {
    struct comm *of = um_comm_at(comm);
    struct told told = {count, sources, degrees, destinations, weights, 0};
    (void)reorder;
    ENTER(of, MPI_UNDEFINED, MPI_UNDEFINED);
    if (!of) return um_fail(0, MPI_ERR_COMM);
    int code = !um_is_info(info) ? MPI_ERR_INFO : made ? check_edges(of, count, sources, MPI_UNWEIGHTED) : MPI_ERR_ARG;
    for (int k = 0; k < count && code == MPI_SUCCESS; k++) {
        if (!degrees || degrees[k] < 0) code = MPI_ERR_ARG;
        else told.edges += degrees[k];
    }
    if (code == MPI_SUCCESS) code = check_edges(of, told.edges, destinations, weights);
    if (code != MPI_SUCCESS) return um_fail(of, um_refuse_collective(of, code));
    code = um_begin_collective(of);
    return um_answer(of, code != MPI_SUCCESS ? code : create(of, &told, made));
}
