/* Groups (MPI 4.0, 7.3): lists of world ranks. */
#include "mpi/calls.h"
#include "progress/progress.h"
#include <stdlib.h>
#include <string.h>

static struct group none;

struct group *um_group_at(MPI_Group handle) {
    uintptr_t number = (uintptr_t)handle;
    if (handle == MPI_GROUP_EMPTY) return &none;
    return um_me && number > 1 && number - 2 < (uintptr_t)um_me->mpi.group_count ? um_me->mpi.groups[number - 2] : 0;
}

/* Makes a group of so many members; the group of none is MPI_GROUP_EMPTY. */
int um_make_group(const uint8_t *members, int size, MPI_Group *made) {
    int place = 0;
    if (size == 0) {
        *made = MPI_GROUP_EMPTY;
        return MPI_SUCCESS;
    }
    while (place < um_me->mpi.group_count && um_me->mpi.groups[place]) place++;
    if (place == um_me->mpi.group_count && !um_grow(&um_me->mpi.groups, um_me->mpi.group_count, sizeof *um_me->mpi.groups)) return MPI_ERR_NO_MEM;
    struct group *group = calloc(1, sizeof *group);
    if (!group) return MPI_ERR_NO_MEM;
    group->size = size;
    memcpy(group->members, members, (size_t)size);
    if (place == um_me->mpi.group_count) um_me->mpi.group_count++;
    um_me->mpi.groups[place] = group;
    *made = (MPI_Group)(uintptr_t)(place + 2);
    return MPI_SUCCESS;
}

void um_clear_groups(void) {
    for (int k = 0; k < um_me->mpi.group_count; k++) free(um_me->mpi.groups[k]);
    free(um_me->mpi.groups);
    um_me->mpi.groups = 0;
    um_me->mpi.group_count = 0;
}

/* Where a world rank stands in a group, or MPI_UNDEFINED. */
int um_position_in(const struct group *group, int member) {
    for (int k = 0; k < group->size; k++)
        if (group->members[k] == member) return k;
    return MPI_UNDEFINED;
}

int um_compare_groups(const struct group *a, const struct group *b) {
    if (a->size != b->size) return MPI_UNEQUAL;
    if (!memcmp(a->members, b->members, (size_t)a->size)) return MPI_IDENT;
    for (int k = 0; k < a->size; k++)
        if (um_position_in(b, a->members[k]) == MPI_UNDEFINED) return MPI_UNEQUAL;
    return MPI_SIMILAR;
}

/* Begins a call on a group, or on two, which writes to `out`. */
#define GROUP(group, out) \
    ENTER_LOOK(0, MPI_UNDEFINED, MPI_UNDEFINED); \
    struct group *of = um_group_at(group); \
    if (!of) return um_fail(0, MPI_ERR_GROUP); \
    WRITES(0, out)
#define GROUPS(one, other, out) \
    ENTER_LOOK(0, MPI_UNDEFINED, MPI_UNDEFINED); \
    struct group *a = um_group_at(one), *b = um_group_at(other); \
    if (!a || !b) return um_fail(0, MPI_ERR_GROUP); \
    WRITES(0, out)

int MPI_Comm_group(MPI_Comm comm, MPI_Group *group) {
    struct comm *of = um_comm_at(comm);
    ENTER_LOOK(of, MPI_UNDEFINED, MPI_UNDEFINED);
    if (!of) return um_fail(0, MPI_ERR_COMM);
    WRITES(of, group);
    return um_answer(of, um_make_group(of->members, of->size, group));
}

int MPI_Group_size(MPI_Group group, int *size) {
    GROUP(group, size);
    *size = of->size;
    return MPI_SUCCESS;
}

int MPI_Group_rank(MPI_Group group, int *rank) {
    GROUP(group, rank);
    *rank = um_position_in(of, um_me->number);
    return MPI_SUCCESS;
}

int MPI_Group_translate_ranks(MPI_Group from, int count, const int members[], MPI_Group to, int result[]) {
    GROUPS(from, to, result || count <= 0);
    if (count < 0) return um_fail(0, MPI_ERR_ARG);
    bool has_none = a->size == 0 || b->size == 0; /* then MPI_PROC_NULL has no rank either, as in MPICH and Open MPI */
    for (int k = 0; k < count; k++) {
        if (members[k] != MPI_PROC_NULL && (members[k] < 0 || members[k] >= a->size)) return um_fail(0, MPI_ERR_RANK);
        result[k] = has_none ? MPI_UNDEFINED : members[k] == MPI_PROC_NULL ? MPI_PROC_NULL : um_position_in(b, a->members[members[k]]);
    }
    return MPI_SUCCESS;
}

int MPI_Group_compare(MPI_Group one, MPI_Group other, int *result) {
    GROUPS(one, other, result);
    *result = um_compare_groups(a, b);
    return MPI_SUCCESS;
}

/* The members of a that are in b or not, as wanted. */
static int sift(const struct group *a, const struct group *b, bool wanted, uint8_t *members) {
    int size = 0;
    for (int k = 0; k < a->size; k++)
        if ((um_position_in(b, a->members[k]) != MPI_UNDEFINED) == wanted) members[size++] = a->members[k];
    return size;
}

int MPI_Group_union(MPI_Group one, MPI_Group other, MPI_Group *made) {
    GROUPS(one, other, made);
    uint8_t members[2 * MAX_RANKS];
    memcpy(members, a->members, (size_t)a->size);
    int size = a->size + sift(b, a, false, members + a->size);
    return um_answer(0, um_make_group(members, size, made));
}

int MPI_Group_intersection(MPI_Group one, MPI_Group other, MPI_Group *made) {
    GROUPS(one, other, made);
    uint8_t members[MAX_RANKS];
    return um_answer(0, um_make_group(members, sift(a, b, true, members), made));
}

int MPI_Group_difference(MPI_Group one, MPI_Group other, MPI_Group *made) {
    GROUPS(one, other, made);
    uint8_t members[MAX_RANKS];
    return um_answer(0, um_make_group(members, sift(a, b, false, members), made));
}

/* The group of the positions listed; each once (7.3.2). */
static int pick(const struct group *from, int count, const int positions[], struct group *picked) {
    *picked = (struct group){0};
    for (int k = 0; k < count; k++) {
        if (positions[k] < 0 || positions[k] >= from->size) return MPI_ERR_RANK;
        if (um_position_in(picked, from->members[positions[k]]) != MPI_UNDEFINED) return MPI_ERR_RANK;
        picked->members[picked->size++] = from->members[positions[k]];
    }
    return MPI_SUCCESS;
}

/* Makes the group of the positions listed, or of the others. */
static int incl_or_excl(const struct group *from, int count, const int positions[], bool is_incl, MPI_Group *made) {
    struct group picked;
    uint8_t members[MAX_RANKS];
    int code = count < 0 ? MPI_ERR_ARG : pick(from, count, positions, &picked);
    if (code != MPI_SUCCESS) return um_fail(0, code);
    if (is_incl) return um_answer(0, um_make_group(picked.members, picked.size, made));
    return um_answer(0, um_make_group(members, sift(from, &picked, false, members), made));
}

int MPI_Group_incl(MPI_Group group, int count, const int positions[], MPI_Group *made) {
    GROUP(group, made);
    return incl_or_excl(of, count, positions, true, made);
}

int MPI_Group_excl(MPI_Group group, int count, const int positions[], MPI_Group *made) {
    GROUP(group, made);
    return incl_or_excl(of, count, positions, false, made);
}

/* The positions of ranges (first, last, stride), or -1: there are more than ranks, or a stride is 0 or leads away from the last one. */
static int positions_of(int count, int ranges[][3], int positions[MAX_RANKS]) {
    int found = 0;
    for (int k = 0; k < count; k++) {
        int first = ranges[k][0], last = ranges[k][1], stride = ranges[k][2];
        if (stride == 0 || (stride > 0 ? first > last : first < last)) return -1;
        for (long at = first; stride > 0 ? at <= last : at >= last; at += stride) {
            if (found == MAX_RANKS) return -1;
            positions[found++] = (int)at;
        }
    }
    return found;
}

int MPI_Group_range_incl(MPI_Group group, int count, int ranges[][3], MPI_Group *made) {
    GROUP(group, made);
    int positions[MAX_RANKS];
    return incl_or_excl(of, positions_of(count, ranges, positions), positions, true, made);
}

int MPI_Group_range_excl(MPI_Group group, int count, int ranges[][3], MPI_Group *made) {
    GROUP(group, made);
    int positions[MAX_RANKS];
    return incl_or_excl(of, positions_of(count, ranges, positions), positions, false, made);
}

int MPI_Group_free(MPI_Group *group) {
    ENTER_LOOK(0, MPI_UNDEFINED, MPI_UNDEFINED);
    if (!group || !um_group_at(*group)) return um_fail(0, MPI_ERR_GROUP);
    if (*group != MPI_GROUP_EMPTY) {
        free(um_group_at(*group));
        um_me->mpi.groups[(uintptr_t)*group - 2] = 0;
    }
    *group = MPI_GROUP_NULL;
    return MPI_SUCCESS;
}
