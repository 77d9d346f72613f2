/* Where the parts of a collective stand in a buffer. */
#ifndef UM_LAYOUT_H
#define UM_LAYOUT_H

#include "types/types.h"

/* Where each position's part stands in a buffer: all alike, or by counts and displacements, in extents of the type; or with types of their own, by
   displacements in bytes. */
struct layout {
    char *at;
    int count; /* of each, where there are no counts */
    bool has_counts, has_types;
    const int *counts, *displs;
    MPI_Datatype type;
    const MPI_Datatype *types;
};

struct data um_part_at(const struct layout *layout, int k);
int um_check_layout(const struct layout *layout, const struct comm *comm);

/* gather.c */
int um_check_own(struct data own, bool may_be_in_place);
void um_copy_own(struct request *collective, struct data from, struct data to);

#endif
