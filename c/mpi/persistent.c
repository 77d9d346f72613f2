/* Persistent requests (MPI 4.0, 3.9): the arguments of a send or a receive, which is started as often as wanted. Its handle stays when what it
   started is over. */
#include "collective/repeated.h"
#include "mpi/calls.h"
#include <stdlib.h>

struct start {
    bool is_receive, waits;
    struct transfer what;
};

void um_free_start(struct start *start) {
    if (start) um_drop_type(start->what.data.type);
    free(start);
}

static int init(struct start start, MPI_Request *handle) {
    struct comm *comm = start.what.comm;
    WRITES(comm, handle);
    *handle = MPI_REQUEST_NULL;
    int code = um_check_transfer(&start.what, start.is_receive);
    if (code != MPI_SUCCESS) return um_fail(comm, code);
    struct request *request = um_new_request(PERSISTENT, comm, start.what.peer, start.what.tag);
    if (request) request->start = malloc(sizeof start);
    if (!request || !request->start) {
        if (request) um_free_request(request);
        return um_fail(comm, MPI_ERR_NO_MEM);
    }
    start.what.data.type = um_keep_type(start.what.data.type);
    *request->start = start;
    *handle = (MPI_Request)(uintptr_t)request->handle;
    return MPI_SUCCESS;
}

int MPI_Send_init(const void *buf, int count, MPI_Datatype type, int dest, int tag, MPI_Comm comm, MPI_Request *request) {
    struct comm *of = um_comm_at(comm);
    ENTER_LOOK(of, dest, tag);
    return init((struct start){false, um_options.sends_wait, {{buf, count, type}, dest, tag, of}}, request);
}

int MPI_Rsend_init(const void *buf, int count, MPI_Datatype type, int dest, int tag, MPI_Comm comm, MPI_Request *request) {
    struct comm *of = um_comm_at(comm);
    ENTER_LOOK(of, dest, tag);
    return init((struct start){false, um_options.sends_wait, {{buf, count, type}, dest, tag, of}}, request);
}

int MPI_Bsend_init(const void *buf, int count, MPI_Datatype type, int dest, int tag, MPI_Comm comm, MPI_Request *request) {
    struct comm *of = um_comm_at(comm);
    ENTER_LOOK(of, dest, tag);
    return init((struct start){false, false, {{buf, count, type}, dest, tag, of}}, request);
}

int MPI_Ssend_init(const void *buf, int count, MPI_Datatype type, int dest, int tag, MPI_Comm comm, MPI_Request *request) {
    struct comm *of = um_comm_at(comm);
    ENTER_LOOK(of, dest, tag);
    return init((struct start){false, true, {{buf, count, type}, dest, tag, of}}, request);
}

int MPI_Recv_init(void *buf, int count, MPI_Datatype type, int source, int tag, MPI_Comm comm, MPI_Request *request) {
    struct comm *of = um_comm_at(comm);
    ENTER_LOOK(of, source, tag);
    return init((struct start){true, false, {{buf, count, type}, source, tag, of}}, request);
}

/* Starts a persistent request that isn't active. */
static int start(MPI_Request handle) {
    struct request *request = um_request_at(handle);
    if (!request || request->kind != PERSISTENT || request->active) return um_fail(0, MPI_ERR_REQUEST);
    const struct start *of = request->start;
    int code;
    if (request->repeated) return um_start_repeated(request->repeated, request->comm, &request->active);
    if (of->is_receive) code = um_begin_receive(&of->what, &request->active);
    else code = um_begin_send(&of->what, of->waits, &request->active);
    return um_answer(request->comm, code);
}

int MPI_Start(MPI_Request *handle) {
    ENTER(0, MPI_UNDEFINED, MPI_UNDEFINED);
    WRITES(0, handle);
    return start(*handle);
}

int MPI_Startall(int count, MPI_Request handles[]) {
    ENTER(0, MPI_UNDEFINED, MPI_UNDEFINED);
    if (count < 0 || (count > 0 && !handles)) return um_fail(0, MPI_ERR_ARG);
    int code = MPI_SUCCESS;
    for (int k = 0; k < count && code == MPI_SUCCESS; k++) code = start(handles[k]);
    return code;
}
