/* A send and a receive as one request (MPI 4.0, 3.10). It is over when both are, and has the status of the receive, whose error is told before the send's. */
#include "mpi/calls.h"
#include <stdlib.h>

enum { RECEIVED, GIVEN };

/* Looks once. MPIX_ERR_PROC_FAILED_PENDING where the receive pends, else MPI_SUCCESS. */
int um_look_at_exchange(struct request *exchange) {
    struct request *receive = exchange->parts[RECEIVED], *send = exchange->parts[GIVEN];
    int pends = um_look_at(receive);
    um_look_at(send);
    if (!receive->over || !send->over) return pends;
    int code = receive->code != MPI_SUCCESS ? receive->code : send->code;
    exchange->status = receive->status;
    exchange->parts[RECEIVED] = exchange->parts[GIVEN] = 0;
    um_free_request(receive);
    um_free_request(send);
    um_end_request(exchange, code);
    return MPI_SUCCESS;
}

static int isendrecv(const struct transfer *send, const struct transfer *receive, MPI_Request *handle) {
    struct request *sent, *received;
    int code = um_begin_both(send, receive, &sent, &received);
    if (code != MPI_SUCCESS) return code;
    struct request *exchange = um_new_request(EXCHANGE, receive->comm, receive->peer, receive->tag);
    if (!exchange) {
        um_withdraw(received);
        um_free_request(received);
        um_free_request(sent);
        return MPI_ERR_NO_MEM;
    }
    exchange->parts[RECEIVED] = received;
    exchange->parts[GIVEN] = sent;
    *handle = (MPI_Request)(uintptr_t)exchange->handle;
    return MPI_SUCCESS;
}

int MPI_Isendrecv(const void *sendbuf, int sendcount, MPI_Datatype sendtype, int dest, int sendtag, void *recvbuf, int recvcount,
                  MPI_Datatype recvtype, int source, int recvtag, MPI_Comm comm, MPI_Request *request) {
    struct comm *of = um_comm_at(comm);
    struct transfer send = {{sendbuf, sendcount, sendtype}, dest, sendtag, of};
    struct transfer receive = {{recvbuf, recvcount, recvtype}, source, recvtag, of};
    ENTER(of, source, recvtag);
    WRITES(of, request);
    *request = MPI_REQUEST_NULL;
    return um_answer(of, isendrecv(&send, &receive, request));
}

/* What is sent is copied in the call. */
int MPI_Isendrecv_replace(void *buf, int count, MPI_Datatype type, int dest, int sendtag, int source, int recvtag, MPI_Comm comm,
                          MPI_Request *request) {
    struct comm *of = um_comm_at(comm);
    struct transfer send = {{buf, count, type}, dest, sendtag, of}, receive = {{buf, count, type}, source, recvtag, of};
    ENTER(of, source, recvtag);
    WRITES(of, request);
    *request = MPI_REQUEST_NULL;
    int code = um_copy_to_send(&send);
    if (code != MPI_SUCCESS) return um_fail(of, code);
    code = isendrecv(&send, &receive, request);
    free(um_into(send.data));
    return um_answer(of, code);
}
