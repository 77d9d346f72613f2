/* Counts that an int doesn't hold (MPI 4.0, 2.5.8): the calls that have them (c/calls.py writes those) make the ones that don't. */
#include "mpi/large.h"
#include <limits.h>
#include <stdlib.h>
#include <string.h>

_Static_assert(sizeof(MPI_Aint) == sizeof(MPI_Count), "both are read alike");

/* A count that an int holds; of one below zero, one that is refused. */
int um_small(MPI_Count count) { return count < 0 ? -1 : (int)count; }

static void note(struct large *large, int code) {
    if (large->code == MPI_SUCCESS) large->code = code;
}

/* So many elements as one, where an int doesn't count them; of a reduction, which has no `handle` here, there can't be so many. */
void um_hold_count(struct large *large, MPI_Count *count, MPI_Datatype *handle) {
    struct type *type = handle && *count > INT_MAX ? um_type_at(*handle) : 0, *whole;
    if (*count <= INT_MAX) return;
    if (!type) return note(large, handle ? MPI_ERR_TYPE : MPI_ERR_COUNT);
    int code = um_join(&(struct piece){(size_t)*count, 0, extent_of(type), type}, 1, &whole);
    if (code == MPI_SUCCESS) {
        whole->is_committed = type->is_committed;
        code = um_add_type(whole, &large->made[large->types]);
    }
    if (code != MPI_SUCCESS) return note(large, code);
    *handle = large->made[large->types++];
    *count = 1;
}

/* A list of so many counts or displacements as ints; null where there is none. */
int *um_hold_list(struct large *large, const void *from, int count) {
    int *list = from ? malloc(((size_t)count + 1) * sizeof *list) : 0;
    if (from && !list) note(large, MPI_ERR_NO_MEM);
    for (int k = 0; list && k < count; k++) {
        MPI_Count number;
        memcpy(&number, (const char *)from + sizeof number * (size_t)k, sizeof number);
        if (number > INT_MAX || number < INT_MIN) note(large, MPI_ERR_COUNT);
        list[k] = (int)number;
    }
    return large->list[large->lists++] = list;
}

/* From here on the call that is made is a part of this one. Whether it can be. */
bool um_begin_large(struct large *large) {
    large->is_part = um_me->mpi.is_starting;
    um_me->mpi.is_starting = true;
    return large->code == MPI_SUCCESS;
}

int um_end_large(const struct large *large, int code) {
    um_me->mpi.is_starting = large->is_part;
    for (int k = 0; k < large->types; k++) um_drop_type(large->made[k]);
    for (int k = 0; k < large->lists; k++) free(large->list[k]);
    return code;
}
