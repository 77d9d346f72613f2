/* Probes (MPI 4.0, 3.8). A message that MPI_Mprobe found is taken from the engine at once, and kept here for MPI_Mrecv. */
#include "engine/body.h"
#include "mpi/calls.h"
#include "progress/progress.h"
#include "types/types.h"
#include <stdlib.h>
#include <string.h>

struct message {
    struct comm *comm;
    struct received received;
};

/* A probe: its arguments, and what it found. */
struct probe {
    struct comm *comm;
    int source, tag;
    bool takes; /* it takes what it finds */
    int code;   /* MPI_SUCCESS: `found` says whether there is one */
    bool found;
    MPI_Status status;
    struct message *message;
};

static void tell_found(struct probe *probe, const ulfm_status *told, size_t length) {
    probe->found = true;
    probe->status = (MPI_Status){.MPI_SOURCE = um_position_at(probe->comm, told->source), .MPI_TAG = (int)told->tag, .bytes = length};
}

/* Takes the message that a probe found. */
static void take_message(struct probe *probe, uint64_t id) {
    struct message *message = calloc(1, sizeof *message);
    if (!message) {
        probe->code = MPI_ERR_NO_MEM;
        return;
    }
    message->comm = probe->comm;
    struct received *received = &message->received;
    probe->code = um_class_of(ulfm_mrecv(um_me->slot, id, &received->told, &received->body.content, sizeof received->body));
    probe->message = message;
    tell_found(probe, &received->told, um_set_body_aside(received));
}

/* Looks once. */
static void look(struct probe *probe) {
    struct comm *comm = probe->comm;
    uint64_t context = comm->context;
    uint32_t source = comm->is_self ? comm->engine_position[0] : probe->source == MPI_ANY_SOURCE ? ULFM_ANY : comm->engine_position[probe->source];
    uint32_t tag = probe->tag == MPI_ANY_TAG ? ULFM_ANY : (uint32_t)probe->tag, code;
    ulfm_status told;
    uint64_t id;
    if (comm->is_part && um_is_revoked(comm)) code = ULFM_REVOKED;
    else if (probe->takes) code = ulfm_improbe(um_me->slot, context, source, tag, &id, &told);
    else code = ulfm_iprobe(um_me->slot, context, source, tag, &told);
    probe->code = MPI_SUCCESS;
    if (code == ULFM_OK && probe->takes) take_message(probe, id);
    else if (code == ULFM_OK) {
        um_look_at_all();
        tell_found(probe, &told, um_length_of_probed(&told, context, comm->members[um_position_at(comm, told.source)]));
    } else if (code != ULFM_NOT_YET) probe->code = um_class_of(code);
    else if (probe->source == MPI_ANY_SOURCE && um_has_unacknowledged(comm)) probe->code = MPIX_ERR_PROC_FAILED_PENDING;
}

static bool is_found(void *of, bool is_settled) {
    struct probe *probe = of;
    (void)is_settled;
    look(probe);
    return probe->found || probe->code != MPI_SUCCESS;
}

static int check(const struct probe *probe) {
    if (!probe->comm) return MPI_ERR_COMM;
    if (probe->source != MPI_ANY_SOURCE && probe->source != MPI_PROC_NULL && (probe->source < 0 || probe->source >= probe->comm->size))
        return MPI_ERR_RANK;
    return probe->tag != MPI_ANY_TAG && (probe->tag < 0 || probe->tag > MPI_TAG_UB_VALUE) ? MPI_ERR_TAG : MPI_SUCCESS;
}

/* Probes until it finds one, or once. A probe of any source that waits can't pend: it is over by MPIX_ERR_PROC_FAILED. */
static int run_probe(struct probe *probe, bool waits) {
    int code = check(probe);
    if (code != MPI_SUCCESS) return code;
    if (probe->source == MPI_PROC_NULL) {
        probe->found = true;
        probe->status = (MPI_Status){.MPI_SOURCE = MPI_PROC_NULL, .MPI_TAG = MPI_ANY_TAG};
        return MPI_SUCCESS;
    }
    if (waits) um_wait_until(is_found, probe, false);
    else {
        um_progress();
        look(probe);
        if (probe->found || probe->code != MPI_SUCCESS) um_count_call();
    }
    return waits && probe->code == MPIX_ERR_PROC_FAILED_PENDING ? MPIX_ERR_PROC_FAILED : probe->code;
}

int MPI_Probe(int source, int tag, MPI_Comm comm, MPI_Status *status) {
    struct probe probe = {.comm = um_comm_at(comm), .source = source, .tag = tag};
    ENTER(probe.comm, source, tag);
    int code = run_probe(&probe, true);
    if (code == MPI_SUCCESS) um_tell_status(status, &probe.status);
    return um_answer(probe.comm, code);
}

int MPI_Iprobe(int source, int tag, MPI_Comm comm, int *flag, MPI_Status *status) {
    struct probe probe = {.comm = um_comm_at(comm), .source = source, .tag = tag};
    ENTER_LOOK(probe.comm, source, tag);
    WRITES(probe.comm, flag);
    int code = run_probe(&probe, false);
    *flag = probe.found;
    if (probe.found) um_tell_status(status, &probe.status);
    return um_answer(probe.comm, code);
}

/* Gives a message a handle. */
static int keep(struct probe *probe, MPI_Message *handle) {
    if (!probe->message) {
        *handle = probe->found ? MPI_MESSAGE_NO_PROC : MPI_MESSAGE_NULL;
        return MPI_SUCCESS;
    }
    int place = 0;
    while (place < um_me->mpi.message_count && um_me->mpi.messages[place]) place++;
    if (place == um_me->mpi.message_count) {
        if (!um_grow(&um_me->mpi.messages, um_me->mpi.message_count, sizeof *um_me->mpi.messages)) return MPI_ERR_NO_MEM;
        um_me->mpi.message_count++;
    }
    um_me->mpi.messages[place] = probe->message;
    *handle = (MPI_Message)(uintptr_t)(place + 2);
    return MPI_SUCCESS;
}

int MPI_Mprobe(int source, int tag, MPI_Comm comm, MPI_Message *message, MPI_Status *status) {
    struct probe probe = {.comm = um_comm_at(comm), .source = source, .tag = tag, .takes = true};
    ENTER(probe.comm, source, tag);
    WRITES(probe.comm, message);
    int code = run_probe(&probe, true);
    if (code == MPI_SUCCESS) code = keep(&probe, message);
    if (code == MPI_SUCCESS) um_tell_status(status, &probe.status);
    return um_answer(probe.comm, code);
}

int MPI_Improbe(int source, int tag, MPI_Comm comm, int *flag, MPI_Message *message, MPI_Status *status) {
    struct probe probe = {.comm = um_comm_at(comm), .source = source, .tag = tag, .takes = true};
    ENTER_LOOK(probe.comm, source, tag);
    WRITES(probe.comm, flag && message);
    int code = run_probe(&probe, false);
    *flag = probe.found;
    if (code == MPI_SUCCESS && probe.found) code = keep(&probe, message);
    if (probe.found) um_tell_status(status, &probe.status);
    return um_answer(probe.comm, code);
}

/* The message of a handle, which has none then; null: it isn't one. */
static struct message *take_handle(MPI_Message *handle) {
    uintptr_t number = (uintptr_t)*handle;
    if (number < 2 || number - 2 >= (uintptr_t)um_me->mpi.message_count) return 0;
    struct message *message = um_me->mpi.messages[number - 2];
    um_me->mpi.messages[number - 2] = 0;
    *handle = MPI_MESSAGE_NULL;
    return message;
}

/* Receives a message: its status, and its error code. */
static int receive(void *buf, int count, MPI_Datatype type, MPI_Message *handle, MPI_Status *status, struct comm **comm) {
    size_t bytes;
    int code;
    *status = (MPI_Status){.MPI_SOURCE = MPI_PROC_NULL, .MPI_TAG = MPI_ANY_TAG};
    if (!um_check_buffer(count, type, &bytes, &code)) return code;
    if (!um_is_buffer(buf, bytes, type)) return MPI_ERR_BUFFER;
    if (*handle == MPI_MESSAGE_NO_PROC) {
        *handle = MPI_MESSAGE_NULL;
        return MPI_SUCCESS;
    }
    struct landing *landing;
    if (!um_make_landing(buf, count, type, &landing)) return MPI_ERR_NO_MEM;
    struct message *message = take_handle(handle);
    if (!message) {
        um_free_landing(landing);
        return MPI_ERR_REQUEST;
    }
    *comm = message->comm;
    um_take_body(&message->received, landing ? um_bytes_of_landing(landing) : buf, bytes, status, &code);
    if (landing) um_land(landing, status->bytes);
    um_free_landing(landing);
    status->MPI_SOURCE = um_position_at(message->comm, message->received.told.source);
    free(message);
    return code;
}

int MPI_Mrecv(void *buf, int count, MPI_Datatype type, MPI_Message *message, MPI_Status *status) {
    struct comm *comm = 0;
    MPI_Status told;
    ENTER(0, MPI_UNDEFINED, MPI_UNDEFINED);
    WRITES(0, message);
    int code = receive(buf, count, type, message, &told, &comm);
    um_tell_status(status, &told);
    return um_answer(comm, code);
}

int MPI_Imrecv(void *buf, int count, MPI_Datatype type, MPI_Message *message, MPI_Request *handle) {
    struct comm *comm = 0;
    MPI_Status told;
    ENTER(0, MPI_UNDEFINED, MPI_UNDEFINED);
    WRITES(0, message && handle);
    *handle = MPI_REQUEST_NULL;
    int code = receive(buf, count, type, message, &told, &comm);
    if (code != MPI_SUCCESS && code != MPI_ERR_TRUNCATE) return um_fail(comm, code);
    struct request *request = um_new_request(NOTHING, comm ? comm : um_comm_at(MPI_COMM_WORLD), told.MPI_SOURCE, told.MPI_TAG);
    if (!request) return um_fail(comm, MPI_ERR_NO_MEM);
    request->over = true;
    request->code = code;
    request->status = told;
    *handle = (MPI_Request)(uintptr_t)request->handle;
    return MPI_SUCCESS;
}

/* Whether there are messages that were found and aren't received. */
bool um_has_messages(void) {
    for (int k = 0; k < um_me->mpi.message_count; k++)
        if (um_me->mpi.messages[k]) return true;
    return false;
}

void um_clear_messages(void) {
    for (int k = 0; k < um_me->mpi.message_count; k++) free(um_me->mpi.messages[k]);
    free(um_me->mpi.messages);
    um_me->mpi.messages = 0;
    um_me->mpi.message_count = 0;
}
