/* Requests that are given up (MPI 4.0, 3.7.3 and 3.8.4). */
#include "mpi/calls.h"
#include "progress/progress.h"

/* A request without a handle goes when it is over. */
static void give_up(struct request *request) {
    um_look_at(request); /* its message may have come, and nothing may come any more that lets it be looked at */
    if (request->kind == EXCHANGE && !request->over)
        for (int k = 0; k < 2; k++) give_up(request->parts[k]);
    if (request->over || request->kind == SYNCHRONOUS || request->kind == EXCHANGE) um_free_request(request);
    else {
        request->freed = true;
        atomic_fetch_add(&um_me->shared.waited_for, 1);
    }
}

/* The request goes when it is over (3.7.3); that of a collective can't be freed (6.12). */
int MPI_Request_free(MPI_Request *handle) {
    ENTER_LOOK(0, MPI_UNDEFINED, MPI_UNDEFINED);
    WRITES(0, handle);
    struct request *request = um_active_at(*handle), *own = um_request_at(*handle);
    if (!own || own->kind == COLLECTIVE || own->kind == RECOVERY || (request && request->kind == COLLECTIVE)) return um_fail(0, MPI_ERR_REQUEST);
    *handle = MPI_REQUEST_NULL;
    if (own->kind == PERSISTENT) um_free_request(own);
    if (request) give_up(request);
    return MPI_SUCCESS;
}

/* Cancels a receive that waits; a send is never cancelled (3.8.4), nor is an exchange; a collective can't be (6.12). The request has to be waited for all
   the same. */
int MPI_Cancel(MPI_Request *handle) {
    ENTER(0, MPI_UNDEFINED, MPI_UNDEFINED);
    WRITES(0, handle);
    struct request *request = um_active_at(*handle);
    if (!request || request->kind == COLLECTIVE || request->kind == RECOVERY) return um_fail(0, MPI_ERR_REQUEST);
    um_progress();
    um_withdraw(request);
    return MPI_SUCCESS;
}

int MPI_Test_cancelled(const MPI_Status *status, int *flag) {
    if (!status || !flag) return MPI_ERR_ARG;
    *flag = status->cancelled;
    return MPI_SUCCESS;
}
