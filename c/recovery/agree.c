/* Agreements (ULFM), and the requests of recoveries that don't block. All members that run have to enter an agreement, and none ends before that. */
#include "engine/engine.h"
#include "mpi/calls.h"
#include "progress/progress.h"
#include "recovery/recovery.h"
#include <stdlib.h>

__typeof__(ulfm_get_failed) __real_ulfm_get_failed;

/* An agreement, which takes one or two of the engine's, and what the last one of those gave. */
struct agreement {
    struct comm *comm;
    int *flag;
    uint32_t own;
    bool is_second;
    uint32_t code, value, acknowledged;
    ulfm_group missing;
};

/* Whether each member is in the agreement that this rank is in, was in it, or has left: else there can't be a decision, and the engine needn't be
   asked. In a run that is played a rank goes by what it heard alone. */
static bool can_be_agreed(const struct agreement *agreement) {
    const struct comm *comm = agreement->comm;
    uint32_t own = atomic_load(&comm->common->agreed[um_me->number]);
    for (int k = 0; k < comm->size && !um_is_played; k++) {
        int member = comm->members[k];
        if (atomic_load(&comm->common->agreed[member]) < own && !atomic_load(&um_ranks[member].shared.is_gone)) return false;
    }
    return true;
}

static bool is_agreed(void *of, bool is_settled) {
    struct agreement *agreement = of;
    (void)is_settled;
    if (!can_be_agreed(agreement)) return false;
    agreement->code = ulfm_poll_agree(um_me->slot, agreement->comm->context, &agreement->value, &agreement->missing);
    if (agreement->code == ULFM_OK) um_moved();
    return agreement->code != ULFM_NOT_YET;
}

static int code_of(uint32_t code) { return code == ULFM_ALREADY_MADE ? ONE_AT_A_TIME : um_class_of(code); }

/* Enters the next agreement of the engine: the AND of the words of all members but those that are missing. */
static int enter(struct agreement *agreement, uint32_t word) {
    uint64_t context = agreement->comm->context;
    uint32_t code = ulfm_enter_agree(um_me->slot, context, word);
    if (code != ULFM_OK) return code_of(code);
    atomic_fetch_add(&agreement->comm->common->agreed[um_me->number], 1); /* before its word goes out */
    um_progress();
    return MPI_SUCCESS;
}

static uint32_t bits_of(const ulfm_group *group, uint32_t count) {
    uint32_t bits = 0;
    for (uint32_t k = 0; k < group->size && k < count; k++) bits |= 1u << group->members[k];
    return bits;
}

/* The world ranks whose failures this rank has acknowledged: the first ones that it knows, in an order that stays. So what came since changes nothing,
   and in a run that is played this is no event. */
static uint32_t acknowledged_bits(const struct comm *comm) {
    ulfm_group failed;
    return __real_ulfm_get_failed(um_me->slot, comm->context, &failed) == ULFM_OK ? bits_of(&failed, comm->acknowledged) : 0;
}

static void look_at_agreement(struct request *request);

/* Whether a request of this rank for an agreement of a communicator stands. It may be decided here and not at another member yet, so that the next one is
   refused at each alike. */
static bool is_asked_for(const struct comm *comm) {
    for (int k = 0; k < um_me->mpi.request_count; k++) {
        const struct request *request = um_me->mpi.requests[k];
        if (!request || request->look != look_at_agreement || request->context != comm->context) continue;
        if (((const struct agreement *)request->more)->comm) return true; /* not the one that asks now */
    }
    return false;
}

/* The AND of all flags, and MPIX_ERR_PROC_FAILED alike at all members where one is missing whose failure isn't acknowledged at each. One agreement
   carries the acknowledged ranks in bits 24 to 31 and the flag in bits 0 to 22, of which the last stands for all above. Bit 23 says that this is
   all of it; where it isn't for some member, a second agreement has the whole flags. */
static int begin(struct agreement *agreement, struct comm *comm, int *flag) {
    uint32_t own = (uint32_t)*flag;
    bool is_short = (own & 0xffc00000) == 0 || (own & 0xffc00000) == 0xffc00000;
    if (is_asked_for(comm)) return ONE_AT_A_TIME;
    *agreement = (struct agreement){.comm = comm, .flag = flag, .own = own};
    return enter(agreement, acknowledged_bits(comm) << 24 | (uint32_t)is_short << 23 | (own & 0x7fffff));
}

/* One of the engine's is decided. Whether it is the last one, and what came of it; else the second is entered. */
static bool is_last(struct agreement *agreement, int *code) {
    uint32_t value = agreement->value;
    *code = code_of(agreement->code);
    if (*code != MPI_SUCCESS) return true;
    if (!agreement->is_second) {
        agreement->acknowledged = value >> 24;
        agreement->is_second = !(value >> 23 & 1);
        if (agreement->is_second) *code = enter(agreement, agreement->own);
        if (agreement->is_second) return *code != MPI_SUCCESS;
        value &= 0x7fffff;
        if (value & 0x400000) value |= 0xff800000;
    }
    *agreement->flag = (int)value;
    *code = bits_of(&agreement->missing, MAX_RANKS) & ~agreement->acknowledged ? MPIX_ERR_PROC_FAILED : MPI_SUCCESS;
    return true;
}

int MPIX_Comm_agree(MPI_Comm comm, int *flag) {
    struct comm *of = um_comm_at(comm);
    struct agreement agreement;
    ENTER(of, MPI_UNDEFINED, MPI_UNDEFINED);
    if (!of) return um_fail(0, MPI_ERR_COMM);
    WRITES(of, flag);
    if (of->is_part) return um_answer(of, of->size > 1 ? NOT_ON_PARTS : MPI_SUCCESS);
    int code = begin(&agreement, of, flag);
    for (bool is_over = code != MPI_SUCCESS; !is_over; is_over = is_last(&agreement, &code)) {
        um_count_inside();
        um_wait_until(is_agreed, &agreement, true);
        um_count_inside();
    }
    return um_answer(of, code);
}

static void look_at_agreement(struct request *request) {
    struct agreement *agreement = request->more;
    int code;
    if (is_agreed(agreement, true) && is_last(agreement, &code)) um_end_request(request, code);
}

/* The world ranks that aren't in the agreement of a request yet, as bits; of a shrink nothing is known. */
uint32_t um_missing_from_agreement(const struct request *request) {
    const struct agreement *agreement = request->more;
    uint32_t bits = 0;
    if (request->look != look_at_agreement || request->over) return 0;
    for (int k = 0; k < agreement->comm->size; k++) {
        const struct rank *rank = &um_ranks[agreement->comm->members[k]];
        struct common *common = agreement->comm->common;
        bool is_there = atomic_load(&common->agreed[rank->number]) >= atomic_load(&common->agreed[um_me->number]);
        if (!is_there && !atomic_load(&rank->shared.is_gone)) bits |= 1u << rank->number;
    }
    return bits;
}

/* *flag is the result when the request is over. */
int MPIX_Comm_iagree(MPI_Comm comm, int *flag, MPI_Request *handle) {
    struct comm *of = um_comm_at(comm);
    struct request *request;
    ENTER(of, MPI_UNDEFINED, MPI_UNDEFINED);
    if (!of) return um_fail(0, MPI_ERR_COMM);
    WRITES(of, flag && handle);
    *handle = MPI_REQUEST_NULL;
    if (of->is_part && of->size > 1) return um_fail(of, NOT_ON_PARTS);
    int code = um_new_recovery(of, look_at_agreement, sizeof(struct agreement), &request);
    if (code == MPI_SUCCESS && of->is_part) um_end_request(request, MPI_SUCCESS);
    else if (code == MPI_SUCCESS) code = begin(request->more, of, flag);
    if (code == MPI_SUCCESS && !of->is_part) um_count_inside();
    return um_give_recovery(of, code, request, handle);
}

/* ---- Requests of recoveries ---- */

/* A request with so many bytes for what it has to know, and what looks at it. */
int um_new_recovery(struct comm *comm, void (*look)(struct request *), size_t bytes, struct request **made) {
    *made = um_new_request(RECOVERY, comm, MPI_UNDEFINED, MPI_UNDEFINED);
    if (!*made) return MPI_ERR_NO_MEM;
    (*made)->status = (MPI_Status){0};
    (*made)->look = look;
    (*made)->more = calloc(1, bytes);
    if ((*made)->more) return MPI_SUCCESS;
    um_free_request(*made);
    *made = 0;
    return MPI_ERR_NO_MEM;
}

/* Hands it to the program, where it was entered. */
int um_give_recovery(struct comm *comm, int code, struct request *request, MPI_Request *handle) {
    if (code != MPI_SUCCESS) {
        if (request) um_free_request(request);
        return um_answer(comm, code);
    }
    *handle = (MPI_Request)(uintptr_t)request->handle;
    um_look_at(request);
    return MPI_SUCCESS;
}

/* A second agreement of the engine has to be entered by a rank that waits in another call, too. */
void um_look_at_recoveries(void) {
    for (int k = 0; k < um_me->mpi.request_count && um_me->mpi.recoveries > 0; k++)
        if (um_me->mpi.requests[k] && um_me->mpi.requests[k]->kind == RECOVERY) um_look_at(um_me->mpi.requests[k]);
}
