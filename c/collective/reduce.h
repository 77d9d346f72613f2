/* What reductions share, those that block and those that don't. */
#ifndef UM_REDUCE_H
#define UM_REDUCE_H

#include "progress/rank.h"

enum { SHORT = 512 };
/* Who gets a position's part of a reduction that doesn't block, where it isn't one root: all others, or those above. */
enum { TO_ALL = -1, UPWARD = -2 };

/* A reduction: its arguments, and room for a verdict and the result, for what is folded, and for all parts behind one another. */
struct reduction {
    struct comm *comm;
    int count;
    MPI_Datatype type;
    MPI_Op op;
    size_t bytes;                  /* of the elements in memory */
    char *result, *folded, *parts; /* result has a verdict before it */
    char *copy;                    /* this rank's elements, where their data aren't in one piece; else null */
    char *room;                    /* of the heap, or null */
    int to;                        /* of one that doesn't block: the root, TO_ALL or UPWARD */
    int last;                      /* the last part that is folded here, -1: none */
    MPI_Datatype given;            /* the program's handle of the type */
    void *recvbuf;
    int before, own; /* this rank's elements of the result, where it doesn't get all of them */
    bool is_scattered;
    _Alignas(16) char short_room[SHORT];
};

int um_check_reduction(struct reduction *of, const void *sendbuf, const void *recvbuf, bool receives);
int um_make_room(struct reduction *of);
const void *um_own_part(const struct reduction *of, const void *sendbuf, const void *recvbuf);
int um_fold_parts(const struct reduction *of, int last, char *into);
void um_deliver(const struct reduction *of, const void *result, void *recvbuf);
void um_take_own_elements(struct reduction *of, const int counts[], int count);
void um_deliver_own_elements(struct reduction *of, void *recvbuf);
int um_sum_of_counts(const int counts[], struct comm *comm, int *sum);

#endif
