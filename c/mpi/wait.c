/* Waits and tests (MPI 4.0, 3.7.3 and 3.7.5). A request that is over is released, and its handle becomes MPI_REQUEST_NULL. A receive from any
   source that pends stays open: MPIX_ERR_PROC_FAILED_PENDING. MPI_Waitall ends as soon as a request has an error, MPI_Testall as soon as one may keep
   others from their end: a failure or a revocation. Those that aren't over then have MPI_ERR_PENDING. */
#include "collective/collective.h"
#include "progress/progress.h"
#include "search/search.h"
#include <stdlib.h>

/* The status of no request (3.7.3), with its error. */
const MPI_Status um_empty_status = {.MPI_SOURCE = MPI_ANY_SOURCE, .MPI_TAG = MPI_ANY_TAG};

struct waiting {
    struct request *request;
    int pends;
};

static bool is_over(void *of, bool is_settled) {
    struct waiting *waiting = of;
    (void)is_settled;
    waiting->pends = um_look_at(waiting->request);
    um_set_awaited(waiting->request->over ? 0 : um_awaited_by(waiting->request));
    return waiting->request->over || waiting->pends;
}

/* Waits until a request is over, or pends: then MPIX_ERR_PROC_FAILED_PENDING, else MPI_SUCCESS. */
int um_wait_for(struct request *request) {
    struct waiting waiting = {request, 0};
    if (!request->over && !um_is_played) {
        um_move_once();
        if (is_over(&waiting, false)) um_learn_of_success(); /* mostly: what it waits for was there */
        else um_wait_until(is_over, &waiting, false);
    } else if (!request->over) um_wait_until(is_over, &waiting, false);
    return request->over ? MPI_SUCCESS : waiting.pends;
}

/* Tells how a request ended, and releases it; the handle of a persistent one stays. Its error code. */
static int release(MPI_Request *handle, struct request *request, MPI_Status *status) {
    int code = request->code;
    struct request *own = um_request_at(*handle);
    um_tell_status(status, &request->status);
    if (own == request) *handle = MPI_REQUEST_NULL;
    else own->active = 0;
    um_free_request(request);
    return code;
}

static int pending(struct request *request, MPI_Status *status) {
    um_tell_status(status, &request->status);
    return MPIX_ERR_PROC_FAILED_PENDING;
}

static void tell_place(const struct request *request) {
    if (!request) return;
    struct call call = um_me->call;
    call.comm = request->comm;
    call.peer = request->peer;
    call.tag = request->tag;
    um_set_call(call);
}

/* Where there is nothing to wait for: no request, or a persistent one that isn't active. */
static int tell_idle(MPI_Request handle, MPI_Status *status) {
    if (status) *status = um_empty_status;
    return handle == MPI_REQUEST_NULL || um_request_at(handle) ? MPI_SUCCESS : um_fail(0, MPI_ERR_REQUEST);
}

int MPI_Wait(MPI_Request *handle, MPI_Status *status) {
    ENTER(0, MPI_UNDEFINED, MPI_UNDEFINED);
    WRITES(0, handle);
    struct request *request = um_active_at(*handle);
    if (!request) return tell_idle(*handle, status);
    tell_place(request);
    struct comm *comm = request->comm;
    return um_answer(comm, um_wait_for(request) ? pending(request, status) : release(handle, request, status));
}

int MPI_Test(MPI_Request *handle, int *flag, MPI_Status *status) {
    ENTER_LOOK(0, MPI_UNDEFINED, MPI_UNDEFINED);
    WRITES(0, handle && flag);
    struct request *request = um_active_at(*handle);
    *flag = 1;
    if (!request) return tell_idle(*handle, status);
    struct comm *comm = request->comm;
    um_progress();
    int pends = um_look_at(request);
    *flag = request->over;
    if (request->over || pends) um_count_call();
    if (request->over) return um_answer(comm, release(handle, request, status));
    return pends ? um_answer(comm, pending(request, status)) : MPI_SUCCESS;
}

int MPI_Request_get_status(MPI_Request handle, int *flag, MPI_Status *status) {
    struct request *request = um_active_at(handle);
    ENTER_LOOK(0, MPI_UNDEFINED, MPI_UNDEFINED);
    WRITES(0, flag);
    *flag = 1;
    if (!request) return tell_idle(handle, status);
    um_progress();
    um_look_at(request);
    *flag = request->over;
    if (request->over) um_tell_status(status, &request->status);
    return MPI_SUCCESS;
}

/* ---- Several requests ---- */

struct several {
    int count;
    MPI_Request *handles;
    int active, over, failed; /* how many there are, are over, have an error or pend */
    int broken;               /* how many of those by a failure or a revocation */
    int first;                /* the first one that is over or pends, or -1 */
    bool wants_all, wants_one;
    int next, looks; /* all before `next` are over without an error; how often it looked */
    int came;        /* messages that came and may be those of further requests */
};
enum { LOOKS_AT_NEXT = 64 };

static bool is_broken(const struct request *request) {
    return request->over && (request->code == MPIX_ERR_PROC_FAILED || request->code == MPIX_ERR_REVOKED);
}

static void look_at_several(struct several *several) {
    several->active = several->over = several->failed = several->broken = 0;
    several->first = -1;
    for (int k = 0; k < several->count; k++) {
        struct request *request = um_active_at(several->handles[k]);
        if (!request) continue;
        several->active++;
        int pends = um_look_at(request);
        several->over += request->over;
        several->failed += pends || (request->over && request->code != MPI_SUCCESS);
        several->broken += pends || is_broken(request);
        if (several->first < 0 && (request->over || pends)) several->first = k;
        if (several->wants_one && several->first >= 0) return;
    }
}

/* Looks at the next ones in turn, until one isn't over, or as many were as messages came. Whether none is left, or one has an error or pends. */
static bool are_next_done(struct several *several) {
    several->came++;
    for (; several->next < several->count; several->next++) {
        struct request *request = um_active_at(several->handles[several->next]);
        if (!request) continue;
        bool was_over = request->over;
        if (!was_over && several->came == 0) return false;
        int pends = um_look_at(request);
        several->failed = pends || (request->over && request->code != MPI_SUCCESS);
        if (several->failed) return true;
        if (!request->over) return false;
        several->came -= !was_over;
    }
    return true;
}

/* Messages mostly come in the order of their receives, so where something came and all are wanted, it looks at the next ones alone; at all of them now and
   then, for an error. */
static bool are_done(void *of, bool is_settled) {
    struct several *several = of;
    if (several->wants_all && !is_settled && several->looks++ % LOOKS_AT_NEXT) return are_next_done(several);
    look_at_several(several);
    several->came = 0;
    if (several->failed || several->active == 0) return true;
    return several->wants_all ? several->over == several->active : several->over > 0;
}

/* The error of the first request that has one, else of the first one that pends, for the handler of its communicator. */
static int error_of(const struct several *several, struct comm **comm) {
    int pends = MPI_SUCCESS;
    for (int k = 0; several->failed && k < several->count; k++) {
        struct request *request = um_active_at(several->handles[k]);
        bool has_failed = request && request->over && request->code != MPI_SUCCESS;
        if (!has_failed && (pends || !request || !um_look_at(request))) continue;
        *comm = request->comm;
        if (has_failed) return request->code;
        pends = MPIX_ERR_PROC_FAILED_PENDING;
    }
    return pends;
}

/* Why these can't be requests, or MPI_SUCCESS; `writes` says that no pointer to write to is null. */
static int check_requests(int count, const MPI_Request handles[], bool writes) {
    if (count < 0 || (count > 0 && !handles) || !writes) return MPI_ERR_ARG;
    for (int k = 0; k < count; k++)
        if (handles[k] != MPI_REQUEST_NULL && !um_request_at(handles[k])) return MPI_ERR_REQUEST;
    return MPI_SUCCESS;
}

/* Waits for them. A look that is dear is made when all that came was taken. */
static void wait_for(struct several *several, bool is_dear) {
    if (um_footprints) um_begin_ends(several->wants_all);
    for (int k = 0; um_footprints && k < several->count; k++) {
        const struct request *request = um_active_at(several->handles[k]);
        if (request && !request->over) um_add_end(request);
    }
    um_wait_until(are_done, several, is_dear);
    if (um_footprints) um_finish_ends();
}

/* Tells how all requests ended, or stand, and releases those that are over. */
static int release_all(struct several *several, MPI_Status statuses[]) {
    struct comm *comm = 0;
    int failure = error_of(several, &comm);
    for (int k = 0; k < several->count; k++) {
        struct request *request = um_active_at(several->handles[k]);
        MPI_Status *status = statuses ? &statuses[k] : 0;
        int error = !request ? MPI_SUCCESS : um_look_at(request) ? MPIX_ERR_PROC_FAILED_PENDING : MPI_ERR_PENDING;
        if (request && request->over) error = release(&several->handles[k], request, status);
        else if (request) um_tell_status(status, &request->status);
        else if (status) *status = um_empty_status;
        if (status && several->failed) status->MPI_ERROR = error;
    }
    return um_answer_several(comm, failure);
}

/* The last one that isn't over, or null. */
static const struct request *last_open(const struct several *several) {
    for (int k = several->count - 1; k >= 0; k--) {
        const struct request *request = um_active_at(several->handles[k]);
        if (request && !request->over) return request;
    }
    return 0;
}

int MPI_Waitall(int count, MPI_Request handles[], MPI_Status statuses[]) {
    struct several several = {.count = count, .handles = handles, .wants_all = true};
    ENTER(0, MPI_UNDEFINED, MPI_UNDEFINED);
    int code = check_requests(count, handles, true);
    if (code != MPI_SUCCESS) return um_fail(0, code);
    tell_place(last_open(&several));
    wait_for(&several, false);
    return release_all(&several, statuses);
}

int MPI_Testall(int count, MPI_Request handles[], int *flag, MPI_Status statuses[]) {
    struct several several = {.count = count, .handles = handles};
    ENTER_LOOK(0, MPI_UNDEFINED, MPI_UNDEFINED);
    int code = check_requests(count, handles, flag);
    if (code != MPI_SUCCESS) return um_fail(0, code);
    um_progress();
    look_at_several(&several);
    *flag = several.over == several.active || several.broken;
    if (!*flag) return MPI_SUCCESS;
    if (several.active) um_count_call();
    return release_all(&several, statuses);
}

/* Tells of one that is over or pends. */
static int release_one(struct several *several, int *index, MPI_Status *status) {
    *index = several->first < 0 ? MPI_UNDEFINED : several->first;
    if (several->first < 0 && status) *status = um_empty_status;
    if (several->first < 0) return MPI_SUCCESS;
    struct request *request = um_active_at(several->handles[several->first]);
    struct comm *comm = request->comm;
    return um_answer(comm, request->over ? release(&several->handles[several->first], request, status) : pending(request, status));
}

int MPI_Waitany(int count, MPI_Request handles[], int *index, MPI_Status *status) {
    struct several several = {.count = count, .handles = handles, .wants_one = true};
    ENTER(0, MPI_UNDEFINED, MPI_UNDEFINED);
    int code = check_requests(count, handles, index);
    if (code != MPI_SUCCESS) return um_fail(0, code);
    wait_for(&several, false);
    return release_one(&several, index, status);
}

int MPI_Testany(int count, MPI_Request handles[], int *index, int *flag, MPI_Status *status) {
    struct several several = {.count = count, .handles = handles, .wants_one = true};
    ENTER_LOOK(0, MPI_UNDEFINED, MPI_UNDEFINED);
    int code = check_requests(count, handles, index && flag);
    if (code != MPI_SUCCESS) return um_fail(0, code);
    um_progress();
    *flag = are_done(&several, true);
    if (*flag && several.active) um_count_call();
    return release_one(&several, index, status);
}

/* Tells of all that are over or pend. */
static int release_some(struct several *several, int *outcount, int indices[], MPI_Status statuses[]) {
    struct comm *comm = 0;
    int failure = error_of(several, &comm);
    int found = 0;
    *outcount = several->active ? 0 : MPI_UNDEFINED;
    for (int k = 0; several->active && k < several->count; k++) {
        struct request *request = um_active_at(several->handles[k]);
        if (!request || (!request->over && !(several->failed && um_look_at(request)))) continue; /* where none failed, none pends */
        MPI_Status *status = statuses ? &statuses[found] : 0;
        int error = request->over ? release(&several->handles[k], request, status) : pending(request, status);
        if (status && several->failed) status->MPI_ERROR = error;
        indices[found++] = k;
    }
    if (several->active) *outcount = found;
    return um_answer_several(comm, failure);
}

int MPI_Waitsome(int incount, MPI_Request handles[], int *outcount, int indices[], MPI_Status statuses[]) {
    struct several several = {.count = incount, .handles = handles};
    ENTER(0, MPI_UNDEFINED, MPI_UNDEFINED);
    int code = check_requests(incount, handles, outcount && (indices || incount == 0));
    if (code != MPI_SUCCESS) return um_fail(0, code);
    wait_for(&several, true);
    return release_some(&several, outcount, indices, statuses);
}

int MPI_Testsome(int incount, MPI_Request handles[], int *outcount, int indices[], MPI_Status statuses[]) {
    struct several several = {.count = incount, .handles = handles};
    ENTER_LOOK(0, MPI_UNDEFINED, MPI_UNDEFINED);
    int code = check_requests(incount, handles, outcount && (indices || incount == 0));
    if (code != MPI_SUCCESS) return um_fail(0, code);
    um_progress();
    if (are_done(&several, true) && several.active) um_count_call();
    return release_some(&several, outcount, indices, statuses);
}
