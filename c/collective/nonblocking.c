/* Collectives as requests (MPI 4.0, 6.12). In the call that begins one, each rank sends what others get of it, and posts a receive for what it gets of each
   other one. So nobody waits for another one's progress, and the request is over when its receives are; a reduction is folded then. Where all send to all,
   a rank that fails between two of its sends gives an error at some and success at others. */
#include "collective/collective.h"
#include "engine/engine.h"
#include "recovery/recovery.h"
#include "types/types.h"
#include <stdlib.h>

/* Gives the receives back. The first error of those that are over. */
static int release_parts(struct request *collective) {
    int code = MPI_SUCCESS;
    for (int k = 0; k < MAX_RANKS; k++) {
        struct request *part = collective->parts[k];
        if (!part) continue;
        if (!part->over) um_withdraw(part);
        if (code == MPI_SUCCESS) code = part->code;
        um_free_request(part);
        collective->parts[k] = 0;
    }
    return code;
}

/* Looks once. It is over where all receives are, or the communicator is revoked. */
void um_look_at_collective(struct request *collective) {
    bool is_open = false;
    for (int k = 0; k < MAX_RANKS; k++) {
        struct request *part = collective->parts[k];
        if (part) um_look_at(part);
        is_open = is_open || (part && !part->over);
    }
    bool has_revoked = is_open && um_is_revoked(collective->comm);
    if (is_open && !has_revoked) return;
    int code = release_parts(collective);
    if (has_revoked) code = MPIX_ERR_REVOKED;
    if (collective->code != MPI_SUCCESS) code = collective->code;
    if (collective->reduction) code = um_end_reduction(collective->reduction, code);
    collective->reduction = 0;
    um_end_request(collective, code);
}

/* The world ranks that a collective, an agreement or a duplicate waits for, as bits. */
uint32_t um_awaited_by(const struct request *request) {
    uint32_t bits = 0;
    if (request->kind == RECOVERY) return um_missing_from_agreement(request) | um_missing_from_copy(request);
    for (int k = 0; k < MAX_RANKS && request->kind == COLLECTIVE; k++)
        if (request->parts[k] && !request->parts[k]->over) bits |= 1u << request->comm->members[k];
    return bits;
}

/* Begins a collective whose arguments are right. A revocation is told where its request ends: it is over then. */
int um_start_collective(struct comm *comm, struct request **made) {
    int code = um_begin_collective(comm);
    if (code != MPI_SUCCESS && code != MPIX_ERR_REVOKED) return code;
    *made = um_new_request(COLLECTIVE, comm, MPI_UNDEFINED, MPI_UNDEFINED);
    if (!*made) return MPI_ERR_NO_MEM;
    (*made)->status = (MPI_Status){0};
    if (code != MPI_SUCCESS) um_end_request(*made, code);
    return MPI_SUCCESS;
}

static void note(struct request *collective, int code) {
    if (collective->code == MPI_SUCCESS) collective->code = code;
}

/* Sends bytes to another member. An error is told where the request ends. */
void um_send_bytes(struct request *collective, int to, const void *bytes, size_t length) {
    if (to != collective->comm->position) note(collective, um_collect_send(collective->comm, to, bytes, length));
}

/* Posts the receive of another member's bytes, which are laid out where there is a landing. */
void um_post_bytes(struct request *collective, int from, void *bytes, size_t room, struct landing *landing) {
    bool is_own = from == collective->comm->position;
    if (!is_own) collective->parts[from] = um_collect_post(collective->comm, from, bytes, room, landing);
    if (!is_own && !collective->parts[from]) note(collective, MPI_ERR_NO_MEM);
    if (!collective->parts[from]) um_free_landing(landing);
}

/* Sends data to a member, or to all others where `to` is MPI_UNDEFINED. */
void um_send_data(struct request *collective, int to, struct data data) {
    const void *sent;
    void *packed;
    size_t bytes;
    int code;
    if (to == collective->comm->position) return;
    um_check_buffer(data.count, data.type, &bytes, &code);
    code = um_pack_data(data.at, data.count, data.type, &sent, &packed);
    note(collective, code);
    for (int k = 0; k < collective->comm->size && code == MPI_SUCCESS; k++)
        if (to == k || to == MPI_UNDEFINED) um_send_bytes(collective, k, sent, bytes);
    free(packed);
}

/* Posts the receive of a member's data. */
void um_post_data(struct request *collective, int from, struct data data) {
    struct landing *landing;
    size_t bytes;
    int code;
    um_check_buffer(data.count, data.type, &bytes, &code);
    if (!um_make_landing(um_into(data), data.count, data.type, &landing)) note(collective, MPI_ERR_NO_MEM);
    else um_post_bytes(collective, from, landing ? um_bytes_of_landing(landing) : um_into(data), bytes, landing);
}

/* Waits until a collective that was begun is over. What came of it. */
int um_wait_for_collective(struct comm *comm, int code, struct request **made) {
    if (code != MPI_SUCCESS) return um_fail(comm, code);
    um_wait_for(*made);
    code = (*made)->code;
    um_free_request(*made);
    return um_answer(comm, code);
}

/* Hands a collective that was begun to the program. Where its own data are longer than the room for them here, that is told at once. */
int um_give_collective(struct comm *comm, int code, struct request **made, MPI_Request *handle) {
    if (code == MPI_SUCCESS && (*made)->code == MPI_ERR_TRUNCATE) {
        code = MPI_ERR_TRUNCATE;
        release_parts(*made);
        um_free_request(*made);
    }
    if (code != MPI_SUCCESS) return um_fail(comm, code);
    *handle = (MPI_Request)(uintptr_t)(*made)->handle;
    um_look_at(*made);
    return MPI_SUCCESS;
}

int MPI_Ibarrier(MPI_Comm comm, MPI_Request *handle) {
    struct comm *of = um_comm_at(comm);
    struct request *made;
    ENTER(of, MPI_UNDEFINED, MPI_UNDEFINED);
    GIVES(of, handle);
    int code = of ? um_start_collective(of, &made) : MPI_ERR_COMM;
    if (code == MPI_SUCCESS && !made->over) {
        um_send_data(made, MPI_UNDEFINED, (struct data){0, 0, MPI_BYTE});
        for (int k = 0; k < of->size; k++) um_post_data(made, k, (struct data){0, 0, MPI_BYTE});
    }
    return um_give_collective(of, code, &made, handle);
}

int MPI_Ibcast(void *buf, int count, MPI_Datatype type, int root, MPI_Comm comm, MPI_Request *handle) {
    struct comm *of = um_comm_at(comm);
    struct request *made;
    size_t bytes;
    ENTER(of, MPI_UNDEFINED, MPI_UNDEFINED);
    GIVES(of, handle);
    int code = um_check_broadcast(of, buf, count, type, root, &bytes);
    if (code == MPI_SUCCESS) code = um_start_collective(of, &made);
    if (code == MPI_SUCCESS && !made->over) {
        if (of->position == root) um_send_data(made, MPI_UNDEFINED, (struct data){buf, count, type});
        else um_post_data(made, root, (struct data){buf, count, type});
    }
    return um_give_collective(of, code, &made, handle);
}
