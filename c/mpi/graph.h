/* Topologies of graphs (MPI 4.0, 8.5.3 and 8.5.4): one that all members know, or one of which each knows its own edges. */
#ifndef UM_GRAPH_H
#define UM_GRAPH_H

#include "progress/rank.h"

struct graph {
    int kind;  /* MPI_GRAPH or MPI_DIST_GRAPH */
    int nodes; /* of MPI_GRAPH, whose arrays are those that it was made with; of the other one: how many edges come in */
    int edges; /* of the other one: how many go out */
    bool is_weighted;
    int *index, *edge; /* of the other one: whence edges come, and where they go */
    int *weight_in, *weight_out;
};

/* The neighbours of a rank, in the order in which neighbour collectives have them (8.6). */
struct neighbors {
    int sources, targets;
    const int *source, *target;
};

int um_keep_graph(const struct graph *like, struct comm *comm);
int um_copy_graph(const struct comm *from, struct comm *to);
void um_free_graph(struct graph *graph);
void um_neighbors_of_graph(const struct comm *comm, int rank, struct neighbors *neighbors);

/* cart.c */
enum { MAX_DIMS = 32 };
int um_neighbors_of_cart(const struct comm *comm, int neighbors[]);

/* neighbor.c */
int um_neighbors_of(const struct comm *comm, bool is_in);

#endif
