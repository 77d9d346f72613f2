/* What the engine answers, as MPI has it: error codes, and which members failed or revoked. */
#include "engine/engine.h"

/* The error code of a refusal of the engine. */
int um_class_of(uint32_t code) {
    switch (code) {
    case ULFM_OK: return MPI_SUCCESS;
    case ULFM_NO_COMM: return MPI_ERR_COMM;
    case ULFM_BAD_RANK: return MPI_ERR_RANK;
    case ULFM_BAD_TAG: return MPI_ERR_TAG;
    case ULFM_TOO_LONG: return MPI_ERR_COUNT;
    case ULFM_PROC_FAILED: return MPIX_ERR_PROC_FAILED;
    case ULFM_REVOKED: return MPIX_ERR_REVOKED;
    case ULFM_NO_REQUEST: return MPI_ERR_REQUEST;
    case ULFM_NO_CONTEXT: return NO_CONTEXTS;
    case ULFM_NOT_MEMBER: return TAKEN_FOR_FAILED;
    case ULFM_OUT_OF_MEMORY: return MPI_ERR_NO_MEM;
    case ULFM_TRUNCATED: return MPI_ERR_TRUNCATE;
    case ULFM_PENDING: return MPIX_ERR_PROC_FAILED_PENDING;
    default: return MPI_ERR_INTERN;
    }
}

/* Whether the program's communicator is known to be revoked. */
bool um_is_revoked(const struct comm *comm) {
    uint32_t revoked = 0;
    if (comm->is_part) return atomic_load(comm->revoked);
    return ulfm_is_revoked(um_me->slot, comm->context, &revoked) == ULFM_OK && revoked;
}

/* The members that are known to have failed, in the order in which this rank learned it. */
int um_failed_of(const struct comm *comm, ulfm_group *failed) {
    ulfm_group all;
    int code = um_class_of(ulfm_get_failed(um_me->slot, comm->context, &all));
    *failed = (ulfm_group){0};
    for (uint32_t k = 0; code == MPI_SUCCESS && k < all.size; k++)
        for (int at = 0; at < comm->size; at++)
            if (comm->members[at] == all.members[k]) failed->members[failed->size++] = all.members[k];
    return code;
}

/* Whether a member failed whose failure isn't acknowledged. */
bool um_has_unacknowledged(const struct comm *comm) {
    ulfm_group failed;
    return um_failed_of(comm, &failed) == MPI_SUCCESS && failed.size > comm->acknowledged;
}

/* Whether the member at a position is known to have failed. */
bool um_is_failed(const struct comm *comm, int position) {
    ulfm_group failed;
    if (um_failed_of(comm, &failed) != MPI_SUCCESS) return false;
    for (uint32_t k = 0; k < failed.size; k++)
        if (failed.members[k] == comm->members[position]) return true;
    return false;
}
