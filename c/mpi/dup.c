/* Duplicates of communicators (MPI 4.0, 7.4.2 and 7.4.3). The communicators of one group stand on a chain of planes, each with contexts of its own. The
   members agree on the plane of a new one, so that those that missed one that others made, since a failure met it, agree with them again; and a plane
   that all of them freed is used again. */
#include "mpi/dup.h"
#include "collective/collective.h"
#include "engine/body.h"
#include "mpi/graph.h"
#include "progress/progress.h"
#include <stdlib.h>
#include <string.h>

/* Takes away what was sent on a plane before and never received. */
void um_drop_messages(const struct chain *chain, int plane) {
    if (plane >= chain->planes) return;
    uint64_t context = chain->plane[plane].context;
    struct received received;
    uint64_t id;
    while (ulfm_improbe(um_me->slot, context, ULFM_ANY, ULFM_ANY, &id, &received.told) == ULFM_OK) {
        if (ulfm_mrecv(um_me->slot, id, &received.told, &received.body.content, sizeof received.body) != ULFM_OK) return;
        um_drop_body(&received);
    }
}

unsigned um_most_begun(const unsigned *all, int count) {
    unsigned most = 0;
    for (int k = 0; k < count; k++) most = all[k] > most ? all[k] : most;
    return most;
}

/* Each member gets of each other one how many collectives began there, and so all that this one sent before. */
static int tell_each_other(struct comm *team, unsigned own, unsigned *all) {
    int code = MPI_SUCCESS;
    for (int k = 0; k < team->size; k++) {
        int one = k == team->position ? MPI_SUCCESS : um_collect_send(team, k, &own, sizeof own);
        if (code == MPI_SUCCESS) code = one;
    }
    all[team->position] = own;
    for (int k = 0; k < team->size; k++) {
        int one = k == team->position ? MPI_SUCCESS : um_collect_receive(team, k, &all[k], sizeof own);
        if (code == MPI_SUCCESS) code = one;
    }
    return code;
}

/* What came of what each did, by position 0. */
int um_first_error(const int *codes, int count) {
    for (int k = 0; k < count; k++)
        if (codes[k] != MPI_SUCCESS) return codes[k];
    return MPI_SUCCESS;
}

/* Takes away what is left of the communicator that a plane had before. All are done with it before any of them sends on the new one. Its collectives go on
   from the most that began there at a member. */
static int empty_plane(struct comm *team, int plane, unsigned *begun) {
    unsigned all[MAX_RANKS] = {0};
    int codes[MAX_RANKS] = {MPI_SUCCESS};
    char verdict[VERDICT];
    int own = tell_each_other(team, um_begun_on(team->chain, plane), all);
    um_drop_messages(team->chain, plane);
    int code = um_gather_all(team, &own, sizeof own, codes);
    if (code == MPI_SUCCESS) code = um_first_error(codes, team->size);
    *begun = um_most_begun(all, team->size);
    return um_spread_verdict(team, code, verdict, 0);
}

/* The plane that all members of a team take, and what else they agree on. */
int um_agree_on_plane(struct comm *team, int *plane, struct terms *terms) {
    struct wish own, all[MAX_RANKS];
    struct decided decided = {0};
    char verdict[VERDICT + sizeof decided];
    um_wish_for(team->chain, &own);
    own.color = terms->colors[0];
    own.key = terms->keys[0];
    int code = um_gather_all(team, &own, sizeof own, all);
    if (team->position == 0 && code == MPI_SUCCESS && !um_decide(team, all, um_name_of_copy(team, team->begun), &decided)) code = MPI_ERR_NO_MEM;
    memcpy(verdict + VERDICT, &decided, sizeof decided);
    code = um_spread_verdict(team, code, verdict, sizeof decided);
    memcpy(&decided, verdict + VERDICT, sizeof decided);
    *plane = decided.plane;
    *terms = decided.terms;
    if (code == MPI_SUCCESS && decided.is_old) code = empty_plane(team, *plane, &terms->begun);
    if (code != MPI_SUCCESS) um_leave_common(terms->common);
    return code;
}

/* Makes a communicator of a group on a plane of another one's chain. */
int um_make_on_plane(struct comm *of, int plane, const struct group *group, const struct terms *terms, MPI_Comm *made) {
    struct chain *chain = of->chain;
    struct comm *comm = 0;
    int code = um_lengthen(chain, plane);
    if (code == MPI_SUCCESS) {
        chain->plane[plane].begun = terms->begun;
        comm = um_new_comm(chain, plane, of->handler, group);
        code = comm ? MPI_SUCCESS : MPI_ERR_NO_MEM;
    }
    if (code != MPI_SUCCESS) {
        um_leave_common(terms->common);
        return code;
    }
    comm->common = terms->common;
    comm->revoked = &terms->common->revoked[comm->members[0]];
    *made = um_handle_of(comm);
    return MPI_SUCCESS;
}

/* Takes a communicator away, where the deletion of its attributes allows that. */
int um_release_comm(struct comm *of, MPI_Comm *handle) {
    int code = um_delete_attributes(of);
    if (code != MPI_SUCCESS) return code;
    bool is_used = um_has_requests(of->context) || um_has_messages();
    if (is_used && !um_grow(&um_me->mpi.old_comms, um_me->mpi.old_comm_count, sizeof *um_me->mpi.old_comms)) return MPI_ERR_NO_MEM;
    if (is_used) um_me->mpi.old_comms[um_me->mpi.old_comm_count++] = of;
    um_me->mpi.comms[(uintptr_t)*handle - 1] = 0;
    of->chain->plane[of->plane].is_free = of->plane > 0;
    of->chain->plane[of->plane].begun = of->begun;
    *handle = MPI_COMM_NULL;
    if (!is_used) um_free_comm(of);
    return MPI_SUCCESS;
}

/* Makes a communicator of the same members, with none of what a program added to the other one. */
int um_make_another(struct comm *of, MPI_Comm *made) {
    struct terms terms = {0};
    struct group group;
    int plane = 0;
    um_group_of(of, &group);
    int code = um_agree_on_plane(of, &plane, &terms);
    return code == MPI_SUCCESS ? um_make_on_plane(of, plane, &group, &terms, made) : code;
}

static int duplicate(struct comm *of, MPI_Comm *made) {
    int code = um_begin_collective(of);
    if (code == MPI_SUCCESS) code = um_make_another(of, made);
    if (code != MPI_SUCCESS) return code;
    um_comm_at(*made)->cart = um_copy_cart(of->cart);
    code = um_copy_graph(of, um_comm_at(*made));
    if (code == MPI_SUCCESS) code = um_copy_attributes(of, um_comm_at(*made));
    /* A copy function failed: there is no duplicate here (7.7.2). */
    if (code != MPI_SUCCESS) (void)um_release_comm(um_comm_at(*made), made);
    if (code != MPI_SUCCESS) *made = MPI_COMM_NULL;
    return code;
}

int MPI_Comm_dup(MPI_Comm comm, MPI_Comm *made) {
    struct comm *of = um_comm_at(comm);
    ENTER(of, MPI_UNDEFINED, MPI_UNDEFINED);
    if (!of) return um_fail(0, MPI_ERR_COMM);
    WRITES(of, made);
    return um_answer(of, duplicate(of, made));
}

/* No hint changes what a duplicate does. */
int MPI_Comm_dup_with_info(MPI_Comm comm, MPI_Info info, MPI_Comm *made) {
    struct comm *of = um_comm_at(comm);
    ENTER(of, MPI_UNDEFINED, MPI_UNDEFINED);
    if (!of) return um_fail(0, MPI_ERR_COMM);
    if (!um_is_info(info)) return um_fail(of, um_refuse_collective(of, MPI_ERR_INFO));
    WRITES(of, made);
    return um_answer(of, duplicate(of, made));
}

/* The handle goes; requests that are open go on (7.4.3). */
int MPI_Comm_free(MPI_Comm *comm) {
    struct comm *of = comm ? um_comm_at(*comm) : 0;
    ENTER_LOOK(of, MPI_UNDEFINED, MPI_UNDEFINED);
    if (!of || *comm == MPI_COMM_WORLD || *comm == MPI_COMM_SELF) return um_fail(0, MPI_ERR_COMM);
    um_forget_comm();
    return um_answer(of, um_release_comm(of, comm));
}

/* What was sent is received after it too, so it has nothing to wait for (11.10.4). */
int MPI_Comm_disconnect(MPI_Comm *comm) __attribute__((alias("MPI_Comm_free")));
