/* Communicators of parts of a group (MPI 4.0, 7.4.2): MPI_Comm_split, MPI_Comm_create, MPI_Comm_create_group. Their messages go through a context of the
   whole group, where parts that have no member in common may share one. A part is revoked by a mark that its members share. Shrink and agree are the
   engine's, of whole groups, so they refuse a part. */
#include "collective/collective.h"
#include "engine/engine.h"
#include "mpi/dup.h"
#include <stdlib.h>
#include <string.h>

/* Those of a color, by their keys and positions. */
static void group_of_color(const struct comm *comm, const struct terms *terms, int color, struct group *group) {
    bool is_in[MAX_RANKS] = {false};
    group->size = 0;
    for (;;) {
        int next = -1;
        for (int k = 0; k < comm->size; k++)
            if (terms->colors[k] == color && !is_in[k] && (next < 0 || terms->keys[k] < terms->keys[next])) next = k;
        if (next < 0) return;
        is_in[next] = true;
        group->members[group->size++] = comm->members[next];
    }
}

/* Makes the communicator of those of a color, or none at those of MPI_UNDEFINED. */
int um_split_comm(struct comm *of, int color, int key, MPI_Comm *made) {
    struct terms terms = {.colors = {color}, .keys = {key}};
    struct group group;
    int plane = 0;
    *made = MPI_COMM_NULL;
    int code = um_begin_collective(of);
    if (code == MPI_SUCCESS) code = um_agree_on_plane(of, &plane, &terms);
    if (code == MPI_SUCCESS && color == MPI_UNDEFINED) um_leave_common(terms.common);
    if (code != MPI_SUCCESS || color == MPI_UNDEFINED) return code;
    group_of_color(of, &terms, color, &group);
    return um_make_on_plane(of, plane, &group, &terms, made);
}

int MPI_Comm_split(MPI_Comm comm, int color, int key, MPI_Comm *made) {
    struct comm *of = um_comm_at(comm);
    ENTER(of, MPI_UNDEFINED, MPI_UNDEFINED);
    if (!of) return um_fail(0, MPI_ERR_COMM);
    if (!made || (color < 0 && color != MPI_UNDEFINED)) return um_fail(of, um_refuse_collective(of, MPI_ERR_ARG));
    return um_answer(of, um_split_comm(of, color, key, made));
}

/* All ranks share memory, so MPI_COMM_TYPE_SHARED is one color. */
int MPI_Comm_split_type(MPI_Comm comm, int type, int key, MPI_Info info, MPI_Comm *made) {
    struct comm *of = um_comm_at(comm);
    ENTER(of, MPI_UNDEFINED, MPI_UNDEFINED);
    if (!of) return um_fail(0, MPI_ERR_COMM);
    if (!um_is_info(info)) return um_fail(of, um_refuse_collective(of, MPI_ERR_INFO));
    if (!made || (type != MPI_COMM_TYPE_SHARED && type != MPI_UNDEFINED)) return um_fail(of, um_refuse_collective(of, MPI_ERR_ARG));
    return um_answer(of, um_split_comm(of, type == MPI_UNDEFINED ? MPI_UNDEFINED : 0, key, made));
}

static bool is_member(const struct group *group) { return um_position_in(group, um_me->number) != MPI_UNDEFINED; }

/* Whether each member of a group is one of the communicator's. */
static bool is_within(const struct group *group, const struct comm *of) {
    struct group all;
    um_group_of(of, &all);
    for (int k = 0; k < group->size; k++)
        if (um_position_in(&all, group->members[k]) == MPI_UNDEFINED) return false;
    return true;
}

int MPI_Comm_create(MPI_Comm comm, MPI_Group group, MPI_Comm *made) {
    struct comm *of = um_comm_at(comm);
    const struct group *members = um_group_at(group);
    struct terms terms = {0};
    int plane = 0;
    ENTER(of, MPI_UNDEFINED, MPI_UNDEFINED);
    if (!of) return um_fail(0, MPI_ERR_COMM);
    WRITES(of, made);
    if (!members || !is_within(members, of)) return um_fail(of, um_refuse_collective(of, MPI_ERR_GROUP));
    *made = MPI_COMM_NULL;
    int code = um_begin_collective(of);
    if (code == MPI_SUCCESS) code = um_agree_on_plane(of, &plane, &terms);
    if (code == MPI_SUCCESS && !is_member(members)) um_leave_common(terms.common);
    if (code != MPI_SUCCESS || !is_member(members)) return um_answer(of, code);
    return um_answer(of, um_make_on_plane(of, plane, members, &terms, made));
}

/* Only the members call it. They speak by themselves, with a number that the tag gives. */
int MPI_Comm_create_group(MPI_Comm comm, MPI_Group group, int tag, MPI_Comm *made) {
    struct comm *of = um_comm_at(comm);
    const struct group *members = um_group_at(group);
    struct terms terms = {0};
    int plane = 0;
    ENTER(of, MPI_UNDEFINED, tag);
    if (!of) return um_fail(0, MPI_ERR_COMM);
    WRITES(of, made);
    if (!members || !is_within(members, of)) return um_fail(of, MPI_ERR_GROUP);
    *made = MPI_COMM_NULL;
    if (tag < 0 || tag > MPI_TAG_UB_VALUE) return um_fail(of, MPI_ERR_TAG);
    if (!is_member(members)) return MPI_SUCCESS;
    if (um_is_revoked(of)) return um_fail(of, MPIX_ERR_REVOKED);
    if (of->hidden == NO_CONTEXT) return um_fail(of, NO_COLLECTIVES);
    struct comm team = *of;
    if (!um_fill_comm(&team, members)) return um_fail(of, MPI_ERR_GROUP);
    team.is_part = of->is_part;
    team.first_tag = CREATION;
    team.begun = (unsigned)tag % CREATIONS;
    int code = um_agree_on_plane(&team, &plane, &terms);
    return um_answer(of, code != MPI_SUCCESS ? code : um_make_on_plane(of, plane, members, &terms, made));
}
