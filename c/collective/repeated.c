/* Collectives that are started as often as wanted (MPI 4.0, 6.13): their arguments, and the call that doesn't block, by which each start begins one. The
   order in which they were made says which belong together, and not that of their starts: each has a number of its own for its messages. c/calls.py writes
   the calls that make them. */
#include "collective/repeated.h"
#include "mpi/calls.h"
#include <stdlib.h>

void um_free_repeated(struct repeated *of) {
    if (!of) return;
    for (int k = 0; k < 3; k++) um_drop_type(of->kept[k]);
    um_drop_op(of->op);
    free(of);
}

/* Begins a collective once more. */
int um_start_repeated(const struct repeated *of, struct comm *comm, struct request **active) {
    MPI_Request handle = MPI_REQUEST_NULL;
    comm->repeats = of->number;
    um_me->mpi.is_starting = true;
    int code = of->begin(of, um_handle_of(comm), &handle);
    um_me->mpi.is_starting = false;
    comm->repeats = 0;
    *active = um_request_at(handle);
    return code;
}

/* Keeps a type, which the program may free before the request. Where none is needed there may be anything. */
static bool keep(MPI_Datatype *type, MPI_Datatype *kept) {
    if (!um_type_at(*type)) return true;
    *kept = um_keep_type(*type);
    if (*kept != MPI_DATATYPE_NULL) *type = *kept;
    return *kept != MPI_DATATYPE_NULL;
}

int um_init_repeated(const struct repeated *like, MPI_Comm comm, MPI_Info info, MPI_Request *handle) {
    struct comm *at = um_comm_at(comm);
    if (!at) return um_fail(0, MPI_ERR_COMM);
    at->begun++;
    WRITES(at, handle);
    *handle = MPI_REQUEST_NULL;
    if (!um_is_info(info)) return um_fail(at, MPI_ERR_INFO);
    struct request *request = um_new_request(PERSISTENT, at, MPI_UNDEFINED, MPI_UNDEFINED);
    struct repeated *of = request ? malloc(sizeof *of) : 0;
    if (of) {
        *of = *like;
        of->number = at->begun;
        of->op = um_keep_op(like->op);
        request->repeated = of;
    }
    if (!of || !keep(&of->type, &of->kept[0]) || !keep(&of->sendtype, &of->kept[1]) || !keep(&of->recvtype, &of->kept[2])) {
        if (request) um_free_request(request);
        return um_fail(at, MPI_ERR_NO_MEM);
    }
    *handle = (MPI_Request)(uintptr_t)request->handle;
    return MPI_SUCCESS;
}
