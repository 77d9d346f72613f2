/* Communicators (MPI 4.0, 7.4). Each has a context of the engine for its messages, and one for its collectives. */
#include "mpi/calls.h"
#include "mpi/dup.h"
#include "mpi/graph.h"
#include "progress/progress.h"
#include <stdlib.h>
#include <string.h>

MPI_Comm um_handle_of(const struct comm *comm) {
    for (int k = 0; k < um_me->mpi.comm_count; k++)
        if (um_me->mpi.comms[k] == comm) return (MPI_Comm)(uintptr_t)(k + 1);
    return MPI_COMM_NULL;
}

/* The position of the member that stands at a place of the context's group. */
int um_position_at(const struct comm *comm, uint32_t place) {
    for (int k = 0; k < comm->size; k++)
        if (comm->engine_position[k] == place) return k;
    return MPI_UNDEFINED;
}

void um_group_of(const struct comm *comm, struct group *group) {
    group->size = comm->size;
    memcpy(group->members, comm->members, sizeof group->members);
}

/* Fills in who the members are: those of a group that are in the context's, in the group's order, or all. */
bool um_fill_comm(struct comm *comm, const struct group *group) {
    ulfm_group all;
    struct group whole = {0};
    if (ulfm_group_of(um_me->slot, comm->context, &all) != ULFM_OK) return false;
    whole.size = (int)all.size;
    memcpy(whole.members, all.members, sizeof whole.members);
    comm->size = 0;
    for (int k = 0; k < (group ? group->size : whole.size); k++) {
        int member = group ? group->members[k] : whole.members[k], place = um_position_in(&whole, member);
        if (place == MPI_UNDEFINED) continue;
        if (member == um_me->number) comm->position = comm->size;
        comm->engine_position[comm->size] = (uint8_t)place;
        comm->members[comm->size++] = (uint8_t)member;
    }
    comm->is_part = comm->size < whole.size;
    return true;
}

/* A communicator on a plane of a chain, or null where there is no memory. Until more is said its members share what those of plane 0 do. */
struct comm *um_new_comm(struct chain *chain, int plane, MPI_Errhandler handler, const struct group *group) {
    struct comm *comm = calloc(1, sizeof *comm);
    int place = 0;
    while (place < um_me->mpi.comm_count && um_me->mpi.comms[place]) place++;
    if (comm) comm->context = chain->plane[plane].context;
    if (!comm || (place == um_me->mpi.comm_count && !um_grow(&um_me->mpi.comms, place, sizeof *um_me->mpi.comms)) || !um_fill_comm(comm, group)) {
        free(comm);
        return 0;
    }
    comm->chain = chain;
    comm->hidden = chain->plane[plane].hidden;
    comm->common = um_common_of_first(chain->ledger);
    comm->plane = plane;
    comm->begun = chain->plane[plane].begun;
    chain->plane[plane].is_free = false;
    comm->handler = handler;
    chain->users++;
    um_me->mpi.comms[place] = comm;
    if (place == um_me->mpi.comm_count) um_me->mpi.comm_count++;
    return comm;
}

/* MPI_COMM_WORLD and MPI_COMM_SELF. The messages of the latter go through the world's hidden context, where nobody else sends to itself. */
bool um_make_world(void) {
    struct chain *chain = um_new_chain(0);
    struct comm *world = chain ? um_new_comm(chain, 0, MPI_ERRORS_ARE_FATAL, 0) : 0;
    struct comm *self = world ? calloc(1, sizeof *self) : 0;
    if (!self || !um_grow(&um_me->mpi.comms, um_me->mpi.comm_count, sizeof *um_me->mpi.comms)) return false;
    strcpy(world->name, "MPI_COMM_WORLD");
    strcpy(self->name, "MPI_COMM_SELF");
    self->context = self->hidden = chain->plane[0].hidden;
    self->chain = chain;
    self->common = world->common;
    um_fill_comm(self, &(struct group){1, {(uint8_t)um_me->number}});
    self->handler = MPI_ERRORS_ARE_FATAL;
    self->is_self = self->is_part = true;
    self->revoked = &um_me->recovery.self_revoked;
    chain->users++;
    um_me->mpi.comms[um_me->mpi.comm_count++] = self;
    return true;
}

/* Takes a communicator away that nothing points to. */
void um_free_comm(struct comm *comm) {
    if (comm->plane) um_leave_common(comm->common);
    if (--comm->chain->users == 0) um_free_chain(comm->chain);
    free(comm->cart);
    um_free_graph(comm->graph);
    um_free_attributes(comm->attributes);
    free(comm);
}

void um_clear_comms(void) {
    for (int k = 0; k < um_me->mpi.comm_count; k++)
        if (um_me->mpi.comms[k]) um_free_comm(um_me->mpi.comms[k]);
    for (int k = 0; k < um_me->mpi.old_comm_count; k++) um_free_comm(um_me->mpi.old_comms[k]);
    free(um_me->mpi.comms);
    free(um_me->mpi.old_comms);
    um_me->mpi.comms = um_me->mpi.old_comms = 0;
    um_me->mpi.comm_count = um_me->mpi.old_comm_count = 0;
}

int MPI_Comm_size(MPI_Comm comm, int *size) {
    struct comm *of = um_comm_at(comm);
    ENTER_LOOK(of, MPI_UNDEFINED, MPI_UNDEFINED);
    if (!of) return um_fail(0, MPI_ERR_COMM);
    WRITES(of, size);
    *size = of->size;
    return MPI_SUCCESS;
}

int MPI_Comm_rank(MPI_Comm comm, int *rank) {
    struct comm *of = um_comm_at(comm);
    ENTER_LOOK(of, MPI_UNDEFINED, MPI_UNDEFINED);
    if (!of) return um_fail(0, MPI_ERR_COMM);
    WRITES(of, rank);
    *rank = of->position;
    return MPI_SUCCESS;
}

int MPI_Comm_compare(MPI_Comm a, MPI_Comm b, int *result) {
    struct comm *one = um_comm_at(a), *other = um_comm_at(b);
    ENTER_LOOK(one, MPI_UNDEFINED, MPI_UNDEFINED);
    if (!one || !other) return um_fail(0, MPI_ERR_COMM);
    WRITES(one, result);
    struct group groups[2] = {{one->size, {0}}, {other->size, {0}}};
    memcpy(groups[0].members, one->members, MAX_RANKS);
    memcpy(groups[1].members, other->members, MAX_RANKS);
    int same = um_compare_groups(&groups[0], &groups[1]);
    *result = one == other ? MPI_IDENT : same == MPI_IDENT ? MPI_CONGRUENT : same;
    return MPI_SUCCESS;
}

int MPI_Comm_set_name(MPI_Comm comm, const char *name) {
    struct comm *of = um_comm_at(comm);
    ENTER_LOOK(of, MPI_UNDEFINED, MPI_UNDEFINED);
    if (!of) return um_fail(0, MPI_ERR_COMM);
    if (!name) return um_fail(of, MPI_ERR_ARG);
    um_name_comm(of, name);
    return MPI_SUCCESS;
}

int MPI_Comm_get_name(MPI_Comm comm, char *name, int *length) {
    struct comm *of = um_comm_at(comm);
    ENTER_LOOK(of, MPI_UNDEFINED, MPI_UNDEFINED);
    if (!of) return um_fail(0, MPI_ERR_COMM);
    WRITES(of, name && length);
    *length = snprintf(name, MPI_MAX_OBJECT_NAME, "%s", of->name);
    return MPI_SUCCESS;
}

int MPI_Comm_test_inter(MPI_Comm comm, int *flag) {
    struct comm *of = um_comm_at(comm);
    ENTER_LOOK(of, MPI_UNDEFINED, MPI_UNDEFINED);
    if (!of) return um_fail(0, MPI_ERR_COMM);
    WRITES(of, flag);
    *flag = 0;
    return MPI_SUCCESS;
}

/* Nobody is spawned here (11.8.2). */
int MPI_Comm_get_parent(MPI_Comm *parent) {
    ENTER_LOOK(0, MPI_UNDEFINED, MPI_UNDEFINED);
    WRITES(0, parent);
    *parent = MPI_COMM_NULL;
    return MPI_SUCCESS;
}
