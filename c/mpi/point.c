/* Sends and receives (MPI 4.0, 3.2, 3.4, 3.7, 3.10). A failure or a revocation that a send or a receive which doesn't block meets is told where
   its request ends; wrong arguments are told at once. A standard send is buffered; with --sends wait it ends at its match. */
#include "engine/body.h"
#include "mpi/calls.h"
#include <limits.h>
#include <stdlib.h>
#include <string.h>

/* Why a message can't be sent or received, or MPI_SUCCESS, and its bytes. */
static inline int check(const struct transfer *of, bool is_receive, size_t *bytes) {
    int code;
    if (!of->comm) return MPI_ERR_COMM;
    if (!um_check_type(of->data.count, of->data.type, bytes, &code)) return code;
    bool is_member = (unsigned)of->peer < (unsigned)of->comm->size, is_tag = (unsigned)of->tag <= MPI_TAG_UB_VALUE;
    if (!is_member && of->peer != MPI_PROC_NULL && !(is_receive && of->peer == MPI_ANY_SOURCE)) return MPI_ERR_RANK;
    if (!is_tag && !(is_receive && of->tag == MPI_ANY_TAG)) return MPI_ERR_TAG;
    if (!um_is_buffer(of->data.at, *bytes, of->data.type)) return MPI_ERR_BUFFER;
    return MPI_SUCCESS;
}

/* Why a message can't be sent or received, or MPI_SUCCESS. */
int um_check_transfer(const struct transfer *of, bool is_receive) {
    size_t bytes;
    return check(of, is_receive, &bytes);
}

/* Whether a message can go in its body, if nobody waits for its match. */
static inline bool is_short(const struct transfer *send, size_t bytes) {
    return um_is_short(bytes) && !send->comm->is_part && um_type_at(send->data.type)->is_plain;
}

static inline int send_short(const struct transfer *send, size_t bytes) {
    const struct comm *comm = send->comm;
    return um_send_short(comm->context, comm->engine_position[send->peer], comm->members[send->peer], send->tag,
                         (struct bytes){send->data.at, bytes});
}

/* A request of a message that went. A refusal is told where it ends. */
static int begin_short(const struct transfer *send, size_t bytes, struct request **made) {
    struct request *request = *made = um_new_request(SENT, send->comm, send->peer, send->tag);
    if (!request) return MPI_ERR_NO_MEM;
    request->over = true;
    request->code = send_short(send, bytes);
    request->status.bytes = bytes;
    return MPI_SUCCESS;
}

int um_begin_send(const struct transfer *send, bool waits, struct request **made) {
    size_t bytes = 0;
    int code = check(send, false, &bytes);
    if (code != MPI_SUCCESS) return code;
    if (!waits && send->peer != MPI_PROC_NULL && is_short(send, bytes)) return begin_short(send, bytes, made);
    const void *data;
    void *packed;
    code = um_pack_data(send->data.at, send->data.count, send->data.type, &data, &packed);
    if (code != MPI_SUCCESS) return code;
    *made = um_new_request(SENT, send->comm, send->peer, send->tag);
    if (*made) um_start_send(*made, data, bytes, waits);
    free(packed);
    return *made ? MPI_SUCCESS : MPI_ERR_NO_MEM;
}

/* A send that is complete in its call needs no request. */
int um_send_buffered(const struct transfer *send) {
    size_t bytes = 0;
    const void *data;
    void *packed;
    int code = check(send, false, &bytes);
    if (code != MPI_SUCCESS || send->peer == MPI_PROC_NULL) return code;
    if (is_short(send, bytes)) return send_short(send, bytes);
    if (um_type_at(send->data.type)->is_plain) return um_send_now(send->comm, send->peer, send->tag, send->data.at, bytes, 0);
    code = um_pack_data(send->data.at, send->data.count, send->data.type, &data, &packed);
    if (code == MPI_SUCCESS) code = um_send_now(send->comm, send->peer, send->tag, data, bytes, 0);
    free(packed);
    return code;
}

int um_begin_receive(const struct transfer *receive, struct request **made) {
    const struct data data = receive->data;
    size_t bytes = 0;
    int code = check(receive, true, &bytes);
    if (code != MPI_SUCCESS) return code;
    struct landing *landing = 0;
    if (!um_type_at(data.type)->is_plain && !um_make_landing(um_into(data), data.count, data.type, &landing)) return MPI_ERR_NO_MEM;
    *made = um_new_request(RECEIVE, receive->comm, receive->peer, receive->tag);
    if (!*made) {
        um_free_landing(landing);
        return MPI_ERR_NO_MEM;
    }
    (*made)->landing = landing;
    um_start_receive(*made, landing ? um_bytes_of_landing(landing) : um_into(data), bytes);
    return MPI_SUCCESS;
}

/* Waits for a request of a call that blocks, and tells how it ended. A receive from any source that pends is withdrawn: the call is over. */
static int finish(struct request *request, MPI_Status *status) {
    int pends = um_wait_for(request), code;
    if (pends) um_withdraw(request);
    code = request->code;
    if (pends && request->status.cancelled) {
        code = MPIX_ERR_PROC_FAILED;
        request->status.cancelled = 0;
    }
    um_tell_status(status, &request->status);
    um_free_request(request);
    return code;
}

static inline int send_and_wait(const struct transfer *send, bool waits) {
    struct request *request;
    if (!waits) return um_answer(send->comm, um_send_buffered(send));
    int code = um_begin_send(send, waits, &request);
    return code != MPI_SUCCESS ? um_fail(send->comm, code) : um_answer(send->comm, finish(request, 0));
}

int MPI_Send(const void *buf, int count, MPI_Datatype type, int dest, int tag, MPI_Comm comm) {
    struct comm *of = um_comm_at(comm);
    ENTER(of, dest, tag);
    return send_and_wait(&(struct transfer){{buf, count, type}, dest, tag, of}, um_options.sends_wait);
}

int MPI_Ssend(const void *buf, int count, MPI_Datatype type, int dest, int tag, MPI_Comm comm) {
    struct comm *of = um_comm_at(comm);
    ENTER(of, dest, tag);
    return send_and_wait(&(struct transfer){{buf, count, type}, dest, tag, of}, true);
}

int MPI_Rsend(const void *buf, int count, MPI_Datatype type, int dest, int tag, MPI_Comm comm) {
    struct comm *of = um_comm_at(comm);
    ENTER(of, dest, tag);
    return send_and_wait(&(struct transfer){{buf, count, type}, dest, tag, of}, um_options.sends_wait);
}

int MPI_Recv(void *buf, int count, MPI_Datatype type, int source, int tag, MPI_Comm comm, MPI_Status *status) {
    struct comm *of = um_comm_at(comm);
    struct request *request = 0;
    size_t bytes = 0;
    ENTER(of, source, tag);
    const struct transfer receive = {{buf, count, type}, source, tag, of};
    int code = check(&receive, true, &bytes);
    if (code != MPI_SUCCESS) return um_fail(of, code);
    bool may_be_soon = !um_is_played && !of->is_part && source != MPI_PROC_NULL && um_type_at(type)->is_plain;
    if (may_be_soon) code = um_receive_soon(&receive, bytes, status, &request);
    else code = um_begin_receive(&receive, &request);
    return um_answer(of, request ? finish(request, status) : code);
}

static int isend(const struct transfer *send, bool waits, MPI_Request *made) {
    struct request *request;
    WRITES(send->comm, made);
    *made = MPI_REQUEST_NULL;
    int code = um_begin_send(send, waits, &request);
    if (code != MPI_SUCCESS) return um_fail(send->comm, code);
    *made = (MPI_Request)(uintptr_t)request->handle;
    return MPI_SUCCESS;
}

int MPI_Isend(const void *buf, int count, MPI_Datatype type, int dest, int tag, MPI_Comm comm, MPI_Request *request) {
    struct comm *of = um_comm_at(comm);
    ENTER(of, dest, tag);
    return isend(&(struct transfer){{buf, count, type}, dest, tag, of}, um_options.sends_wait, request);
}

int MPI_Issend(const void *buf, int count, MPI_Datatype type, int dest, int tag, MPI_Comm comm, MPI_Request *request) {
    struct comm *of = um_comm_at(comm);
    ENTER(of, dest, tag);
    return isend(&(struct transfer){{buf, count, type}, dest, tag, of}, true, request);
}

int MPI_Irsend(const void *buf, int count, MPI_Datatype type, int dest, int tag, MPI_Comm comm, MPI_Request *request) {
    struct comm *of = um_comm_at(comm);
    ENTER(of, dest, tag);
    return isend(&(struct transfer){{buf, count, type}, dest, tag, of}, um_options.sends_wait, request);
}

int MPI_Irecv(void *buf, int count, MPI_Datatype type, int source, int tag, MPI_Comm comm, MPI_Request *request) {
    struct comm *of = um_comm_at(comm);
    struct request *begun;
    ENTER(of, source, tag);
    WRITES(of, request);
    *request = MPI_REQUEST_NULL;
    int code = um_begin_receive(&(struct transfer){{buf, count, type}, source, tag, of}, &begun);
    if (code != MPI_SUCCESS) return um_fail(of, code);
    *request = (MPI_Request)(uintptr_t)begun->handle;
    return MPI_SUCCESS;
}

/* Begins a receive, then a send. */
int um_begin_both(const struct transfer *send, const struct transfer *receive, struct request **sent, struct request **received) {
    int code = um_begin_receive(receive, received);
    if (code != MPI_SUCCESS) return code;
    code = um_begin_send(send, um_options.sends_wait, sent);
    if (code == MPI_SUCCESS) return code;
    um_withdraw(*received);
    um_free_request(*received);
    return code;
}

/* Sends and receives at the same time. The receive's error is told before the send's. */
static int exchange(const struct transfer *send, const struct transfer *receive, MPI_Status *status) {
    struct request *sent, *received;
    int code = um_begin_both(send, receive, &sent, &received);
    if (code != MPI_SUCCESS) return code;
    code = finish(received, status);
    int of_send = finish(sent, 0);
    return code != MPI_SUCCESS ? code : of_send;
}

int MPI_Sendrecv(const void *sendbuf, int sendcount, MPI_Datatype sendtype, int dest, int sendtag, void *recvbuf, int recvcount,
                 MPI_Datatype recvtype, int source, int recvtag, MPI_Comm comm, MPI_Status *status) {
    struct comm *of = um_comm_at(comm);
    struct transfer send = {{sendbuf, sendcount, sendtype}, dest, sendtag, of};
    struct transfer receive = {{recvbuf, recvcount, recvtype}, source, recvtag, of};
    ENTER(of, source, recvtag);
    return um_answer(of, exchange(&send, &receive, status));
}

/* Makes of a send from a buffer that a receive writes to one of a copy, which the caller frees. Why it can't be sent, or MPI_SUCCESS. */
int um_copy_to_send(struct transfer *send) {
    const void *data;
    void *copy;
    size_t bytes = 0;
    int code = check(send, false, &bytes);
    if (code == MPI_SUCCESS) code = um_pack_data(send->data.at, send->data.count, send->data.type, &data, &copy);
    if (code != MPI_SUCCESS) return code;
    if (!copy && !(copy = malloc(bytes + 1))) return MPI_ERR_NO_MEM;
    if (data == send->data.at && bytes) memcpy(copy, data, bytes);
    send->data = (struct data){copy, (int)bytes, MPI_BYTE};
    return MPI_SUCCESS;
}

int MPI_Sendrecv_replace(void *buf, int count, MPI_Datatype type, int dest, int sendtag, int source, int recvtag, MPI_Comm comm, MPI_Status *status) {
    struct comm *of = um_comm_at(comm);
    struct transfer send = {{buf, count, type}, dest, sendtag, of}, receive = {{buf, count, type}, source, recvtag, of};
    ENTER(of, source, recvtag);
    int code = um_copy_to_send(&send);
    if (code != MPI_SUCCESS) return um_fail(of, code);
    code = exchange(&send, &receive, status);
    free(um_into(send.data));
    return um_answer(of, code);
}
