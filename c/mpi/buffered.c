/* Buffered sends (MPI 4.0, 3.4 and 3.6). A message is copied in its call, so the buffer that a program attaches is never written to; it has to be
   large enough all the same. */
#include "mpi/calls.h"
#include "types/types.h"
#include <limits.h>

static int attach(void *buffer, MPI_Count size) {
    if (size < 0) return um_fail(0, MPI_ERR_ARG);
    if (um_me->mpi.attached || !buffer) return um_fail(0, MPI_ERR_BUFFER);
    um_me->mpi.attached = buffer;
    um_me->mpi.attached_size = size;
    return MPI_SUCCESS;
}

/* Its size, and *buffer: the address that was attached, null where there is none. */
static MPI_Count detach(void *buffer) {
    MPI_Count size = um_me->mpi.attached_size;
    *(void **)buffer = um_me->mpi.attached;
    um_me->mpi.attached = 0;
    um_me->mpi.attached_size = 0;
    return size;
}

int MPI_Buffer_attach(void *buffer, int size) {
    ENTER_LOOK(0, MPI_UNDEFINED, MPI_UNDEFINED);
    return attach(buffer, size);
}

int MPI_Buffer_attach_c(void *buffer, MPI_Count size) {
    ENTER_LOOK(0, MPI_UNDEFINED, MPI_UNDEFINED);
    return attach(buffer, size);
}

int MPI_Buffer_detach(void *buffer, int *size) {
    ENTER_LOOK(0, MPI_UNDEFINED, MPI_UNDEFINED);
    WRITES(0, buffer && size);
    MPI_Count bytes = detach(buffer);
    *size = bytes > INT_MAX ? MPI_UNDEFINED : (int)bytes;
    return MPI_SUCCESS;
}

int MPI_Buffer_detach_c(void *buffer, MPI_Count *size) {
    ENTER_LOOK(0, MPI_UNDEFINED, MPI_UNDEFINED);
    WRITES(0, buffer && size);
    *size = detach(buffer);
    return MPI_SUCCESS;
}

/* Whether the message and its overhead fit into what is attached; wrong arguments have their own class. */
static int check_room(const struct transfer *send) {
    size_t bytes;
    int code = um_check_transfer(send, false);
    if (code != MPI_SUCCESS || send->peer == MPI_PROC_NULL || !um_check_buffer(send->data.count, send->data.type, &bytes, &code)) return code;
    return bytes + MPI_BSEND_OVERHEAD > (size_t)um_me->mpi.attached_size ? MPI_ERR_BUFFER : MPI_SUCCESS;
}

int MPI_Bsend(const void *buf, int count, MPI_Datatype type, int dest, int tag, MPI_Comm comm) {
    struct comm *of = um_comm_at(comm);
    struct transfer send = {{buf, count, type}, dest, tag, of};
    ENTER(of, dest, tag);
    int code = check_room(&send);
    return um_answer(of, code != MPI_SUCCESS ? code : um_send_buffered(&send));
}

int MPI_Ibsend(const void *buf, int count, MPI_Datatype type, int dest, int tag, MPI_Comm comm, MPI_Request *request) {
    struct comm *of = um_comm_at(comm);
    struct transfer send = {{buf, count, type}, dest, tag, of};
    struct request *begun;
    ENTER(of, dest, tag);
    WRITES(of, request);
    *request = MPI_REQUEST_NULL;
    int code = check_room(&send);
    if (code == MPI_SUCCESS) code = um_begin_send(&send, false, &begun);
    if (code == MPI_SUCCESS) *request = (MPI_Request)(uintptr_t)begun->handle;
    return um_answer(of, code);
}
