/* Counts that an int doesn't hold: so many elements are handed on as one of a type of their own, and lists as those that hold ints. */
#ifndef UM_LARGE_H
#define UM_LARGE_H

#include "types/types.h"

struct large {
    MPI_Datatype made[2];
    int *list[4];
    int types, lists;
    int code;     /* why it can't be, or MPI_SUCCESS */
    bool is_part; /* the call is a part of another one itself */
};

/* Data in memory, and where they are packed (pack.c, external.c). */
struct packing {
    void *buffer;
    MPI_Count count;
    MPI_Datatype type;
    char *packed;
    MPI_Count room;
};

void um_hold_count(struct large *large, MPI_Count *count, MPI_Datatype *type);
int *um_hold_list(struct large *large, const void *from, int count);
bool um_begin_large(struct large *large);
int um_end_large(const struct large *large, int code);
int um_small(MPI_Count count);

#endif
