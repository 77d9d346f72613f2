/* Errors: classes, texts, and handlers (MPI 4.0, 9.3 and 9.4). */
#include "mpi/calls.h"
#include "play/play.h"
#include "progress/progress.h"
#include "windows/windows.h"
#include <stdlib.h>
#include <string.h>

/* Of communicators, or of windows. */
struct errhandler {
    MPI_Comm_errhandler_function *function;
    MPI_Win_errhandler_function *of_windows;
};
enum { FIRST_OWN = 4 };

static const struct {
    int code;
    const char *text;
} texts[] = {
    {MPI_SUCCESS, "MPI_SUCCESS: no error"},
    {MPI_ERR_BUFFER, "MPI_ERR_BUFFER: a buffer is null"},
    {MPI_ERR_COUNT, "MPI_ERR_COUNT: a count is negative, or too large"},
    {MPI_ERR_TYPE, "MPI_ERR_TYPE: this is no datatype, or not one for this operation"},
    {MPI_ERR_TAG, "MPI_ERR_TAG: a tag is 0 to 32767"},
    {MPI_ERR_COMM, "MPI_ERR_COMM: this is no communicator"},
    {MPI_ERR_RANK, "MPI_ERR_RANK: the communicator has no such rank"},
    {MPI_ERR_ROOT, "MPI_ERR_ROOT: the communicator has no such root"},
    {MPI_ERR_GROUP, "MPI_ERR_GROUP: this is no group"},
    {MPI_ERR_OP, "MPI_ERR_OP: this is no operation"},
    {MPI_ERR_TOPOLOGY, "MPI_ERR_TOPOLOGY: the communicator has no topology, or not this one"},
    {MPI_ERR_DIMS, "MPI_ERR_DIMS: a dimension isn't allowed"},
    {MPI_ERR_ARG, "MPI_ERR_ARG: an argument isn't allowed"},
    {MPI_ERR_TRUNCATE, "MPI_ERR_TRUNCATE: the message was longer than the receive's room"},
    {MPI_ERR_OTHER, "MPI_ERR_OTHER: another error"},
    {MPI_ERR_INTERN, "MPI_ERR_INTERN: the engine refused what it shouldn't"},
    {MPI_ERR_IN_STATUS, "MPI_ERR_IN_STATUS: the statuses say which request has which error"},
    {MPI_ERR_PENDING, "MPI_ERR_PENDING: the request isn't over"},
    {MPI_ERR_REQUEST, "MPI_ERR_REQUEST: this is no request or message"},
    {MPI_ERR_INFO, "MPI_ERR_INFO: this is no info object"},
    {MPI_ERR_INFO_KEY, "MPI_ERR_INFO_KEY: a key is null, empty, or longer than 255 bytes"},
    {MPI_ERR_INFO_VALUE, "MPI_ERR_INFO_VALUE: a value is null, or longer than 1024 bytes"},
    {MPI_ERR_INFO_NOKEY, "MPI_ERR_INFO_NOKEY: the info object has no such key"},
    {MPI_ERR_KEYVAL, "MPI_ERR_KEYVAL: this is no key of attributes, or one that a program can't change"},
    {MPI_ERR_NO_MEM, "MPI_ERR_NO_MEM: no memory is left"},
    {MPI_ERR_UNKNOWN, "MPI_ERR_UNKNOWN: an unknown error"},
    {MPI_ERR_ACCESS, "MPI_ERR_ACCESS: the file may not be opened so"},
    {MPI_ERR_AMODE, "MPI_ERR_AMODE: this is no way to open a file"},
    {MPI_ERR_ASSERT, "MPI_ERR_ASSERT: this is no assertion of a window"},
    {MPI_ERR_BAD_FILE, "MPI_ERR_BAD_FILE: this is no name of a file"},
    {MPI_ERR_BASE, "MPI_ERR_BASE: memory is freed that MPI_Alloc_mem didn't give"},
    {MPI_ERR_CONVERSION, "MPI_ERR_CONVERSION: the data can't be converted"},
    {MPI_ERR_DISP, "MPI_ERR_DISP: a displacement isn't allowed"},
    {MPI_ERR_DUP_DATAREP, "MPI_ERR_DUP_DATAREP: the representation of data is defined already"},
    {MPI_ERR_FILE, "MPI_ERR_FILE: this is no file handle"},
    {MPI_ERR_FILE_EXISTS, "MPI_ERR_FILE_EXISTS: the file exists"},
    {MPI_ERR_FILE_IN_USE, "MPI_ERR_FILE_IN_USE: the file is open"},
    {MPI_ERR_IO, "MPI_ERR_IO: reading or writing failed"},
    {MPI_ERR_LOCKTYPE, "MPI_ERR_LOCKTYPE: this is no kind of lock"},
    {MPI_ERR_NAME, "MPI_ERR_NAME: no service has this name"},
    {MPI_ERR_NOT_SAME, "MPI_ERR_NOT_SAME: the ranks' arguments differ"},
    {MPI_ERR_NO_SPACE, "MPI_ERR_NO_SPACE: there is no room on the device"},
    {MPI_ERR_NO_SUCH_FILE, "MPI_ERR_NO_SUCH_FILE: there is no such file"},
    {MPI_ERR_PORT, "MPI_ERR_PORT: this is no port"},
    {MPI_ERR_PROC_ABORTED, "MPI_ERR_PROC_ABORTED: a process was aborted"},
    {MPI_ERR_QUOTA, "MPI_ERR_QUOTA: the quota is used up"},
    {MPI_ERR_READ_ONLY, "MPI_ERR_READ_ONLY: the file can only be read"},
    {MPI_ERR_RMA_ATTACH, "MPI_ERR_RMA_ATTACH: the memory can't be attached"},
    {MPI_ERR_RMA_CONFLICT, "MPI_ERR_RMA_CONFLICT: accesses to a window conflict"},
    {MPI_ERR_RMA_FLAVOR, "MPI_ERR_RMA_FLAVOR: this isn't for such a window"},
    {MPI_ERR_RMA_RANGE, "MPI_ERR_RMA_RANGE: the memory is outside of the window"},
    {MPI_ERR_RMA_SHARED, "MPI_ERR_RMA_SHARED: the memory can't be shared"},
    {MPI_ERR_RMA_SYNC, "MPI_ERR_RMA_SYNC: calls of a window are in a wrong order"},
    {MPI_ERR_SERVICE, "MPI_ERR_SERVICE: this is no name of a service"},
    {MPI_ERR_SESSION, "MPI_ERR_SESSION: this is no session"},
    {MPI_ERR_SIZE, "MPI_ERR_SIZE: a size isn't allowed"},
    {MPI_ERR_SPAWN, "MPI_ERR_SPAWN: processes couldn't be spawned"},
    {MPI_ERR_UNSUPPORTED_DATAREP, "MPI_ERR_UNSUPPORTED_DATAREP: this representation of data isn't there"},
    {MPI_ERR_UNSUPPORTED_OPERATION, "MPI_ERR_UNSUPPORTED_OPERATION: this operation isn't there"},
    {MPI_ERR_VALUE_TOO_LARGE, "MPI_ERR_VALUE_TOO_LARGE: a value is too large for where it goes"},
    {MPI_ERR_WIN, "MPI_ERR_WIN: this is no window"},
    {MPIX_ERR_PROC_FAILED, "MPIX_ERR_PROC_FAILED: a process failed"},
    {MPIX_ERR_PROC_FAILED_PENDING, "MPIX_ERR_PROC_FAILED_PENDING: a process failed that might have sent the message"},
    {MPIX_ERR_REVOKED, "MPIX_ERR_REVOKED: the communicator is revoked"},
    {NO_CONTEXTS, "MPI_ERR_OTHER: no context is left for a new communicator (1,024 of one group at a time, 17 shrinks in a row)"},
    {NO_COLLECTIVES, "MPI_ERR_OTHER: no context is left for the collectives of this communicator"},
    {NOT_ON_PARTS, "MPI_ERR_COMM: shrink and agree need a communicator of a whole group: the world, what was shrunk, their duplicates"},
    {ONE_AT_A_TIME, "MPI_ERR_OTHER: a shrink or an agreement of this communicator isn't over yet"},
    {TAKEN_FOR_FAILED, "MPI_ERR_OTHER: the other members took this rank for failed"},
};

int MPI_Error_class(int errorcode, int *errorclass) {
    if (!errorclass) return MPI_ERR_ARG;
    *errorclass = errorcode & 255;
    return MPI_SUCCESS;
}

static const char *text_of(int code) {
    const char *added = um_text_of_added(code);
    if (added) return added;
    for (size_t k = 0; k < sizeof texts / sizeof *texts; k++)
        if (texts[k].code == code) return texts[k].text;
    return code & ~255 ? text_of(code & 255) : "an unknown error";
}

int MPI_Error_string(int errorcode, char *string, int *length) {
    if (!string || !length) return MPI_ERR_ARG;
    *length = snprintf(string, MPI_MAX_ERROR_STRING, "%s", text_of(errorcode));
    return MPI_SUCCESS;
}

bool um_is_handler(MPI_Errhandler handler) {
    uintptr_t number = (uintptr_t)handler;
    return (number && number < FIRST_OWN) || (number >= FIRST_OWN && number - FIRST_OWN < (uintptr_t)um_me->mpi.handler_count);
}

/* An error is fatal: says where and which, and ends the run. */
static void end_by(const char *name, int code) {
    const char *call = um_me->call.name;
    char line[256];
    if (um_is_played) um_wait_to_end_all();
    um_begin_report();
    fprintf(stderr, "ulfm-mpirun: rank %d: %s%s: %s; errors are fatal on %s: the run ends\n", um_me->number, call,
            um_line_of(&um_me->call, line, sizeof line), text_of(code), name);
    um_write_rests(true);
    um_tell_table("fatal %d %s %d\n", um_me->number, call, code & 255);
    um_end_run(STATUS_FATAL);
}

/* What came in the call, which ends here, is looked at. */
static void end_call(void) {
    if (um_is_played) um_look_as_played();
}

/* Hands an error on a communicator, or on a window of it, to a handler, and returns it. */
int um_fail_by(MPI_Errhandler handler, struct comm *comm, void *window, const char *name, int code) {
    end_call();
    if (code == MPIX_ERR_PROC_FAILED || code == MPIX_ERR_PROC_FAILED_PENDING) um_me->recovery.is_told = true;
    uintptr_t number = (uintptr_t)handler;
    if (handler == MPI_ERRORS_RETURN) return code;
    if (number < FIRST_OWN || !um_is_handler(handler)) end_by(name, code);
    const struct errhandler *own = &um_me->mpi.handlers[number - FIRST_OWN];
    MPI_Comm handle = um_handle_of(comm);
    int told = code;
    um_me->mpi.is_starting = false; /* the handler may jump out of the call */
    comm->repeats = 0;
    if (window && own->of_windows) own->of_windows(window, &told);
    else if (own->function) own->function(&handle, &told);
    return code;
}

/* Hands an error to the handler of its communicator, of MPI_COMM_WORLD where there is none (9.3), and returns it. */
int um_fail(struct comm *comm, int code) {
    if (!comm) comm = um_comm_at(MPI_COMM_WORLD);
    return um_fail_by(comm->handler, comm, 0, comm->name[0] ? comm->name : "this communicator", code);
}

/* What a call answers that went well. */
int um_succeed(void) {
    end_call();
    return MPI_SUCCESS;
}

/* What a call answers: a communicator that it took away isn't there any more where it went well. */
int um_answer(struct comm *comm, int code) { return code == MPI_SUCCESS ? um_succeed() : um_fail(comm, code); }

/* What a call of several requests answers, by the first error: a handler gets that, and the call returns MPI_ERR_IN_STATUS (9.3.1). */
int um_answer_several(struct comm *comm, int code) {
    if (code == MPI_SUCCESS) return um_succeed();
    um_me->recovery.is_told = true;
    um_fail(comm, code);
    return MPI_ERR_IN_STATUS;
}

static int add_handler(struct errhandler made, MPI_Errhandler *handler) {
    if (!um_grow(&um_me->mpi.handlers, um_me->mpi.handler_count, sizeof *um_me->mpi.handlers)) return um_fail(0, MPI_ERR_NO_MEM);
    um_me->mpi.handlers[um_me->mpi.handler_count] = made;
    *handler = (MPI_Errhandler)(uintptr_t)(FIRST_OWN + um_me->mpi.handler_count++);
    return MPI_SUCCESS;
}

int MPI_Comm_create_errhandler(MPI_Comm_errhandler_function *function, MPI_Errhandler *handler) {
    ENTER_LOOK(0, MPI_UNDEFINED, MPI_UNDEFINED);
    WRITES(0, function && handler);
    return add_handler((struct errhandler){function, 0}, handler);
}

int MPI_Win_create_errhandler(MPI_Win_errhandler_function *function, MPI_Errhandler *handler) {
    ENTER_LOOK(0, MPI_UNDEFINED, MPI_UNDEFINED);
    WRITES(0, function && handler);
    return add_handler((struct errhandler){0, function}, handler);
}

int MPI_Comm_set_errhandler(MPI_Comm comm, MPI_Errhandler handler) {
    struct comm *of = um_comm_at(comm);
    ENTER_LOOK(of, MPI_UNDEFINED, MPI_UNDEFINED);
    if (!of) return um_fail(0, MPI_ERR_COMM);
    if (!um_is_handler(handler)) return um_fail(of, MPI_ERR_ARG);
    of->handler = handler;
    return MPI_SUCCESS;
}

int MPI_Comm_get_errhandler(MPI_Comm comm, MPI_Errhandler *handler) {
    struct comm *of = um_comm_at(comm);
    ENTER_LOOK(of, MPI_UNDEFINED, MPI_UNDEFINED);
    if (!of) return um_fail(0, MPI_ERR_COMM);
    WRITES(of, handler);
    *handler = of->handler;
    return MPI_SUCCESS;
}

int MPI_Comm_call_errhandler(MPI_Comm comm, int errorcode) {
    struct comm *of = um_comm_at(comm);
    ENTER_LOOK(of, MPI_UNDEFINED, MPI_UNDEFINED);
    if (!of) return um_fail(0, MPI_ERR_COMM);
    (void)um_answer(of, errorcode);
    return MPI_SUCCESS;
}

/* The handle goes; communicators that have the handler keep it (9.3.4). */
int MPI_Errhandler_free(MPI_Errhandler *handler) {
    ENTER_LOOK(0, MPI_UNDEFINED, MPI_UNDEFINED);
    if (!handler || !um_is_handler(*handler)) return um_fail(0, MPI_ERR_ARG);
    *handler = MPI_ERRHANDLER_NULL;
    return MPI_SUCCESS;
}

void um_clear_handlers(void) {
    free(um_me->mpi.handlers);
    um_me->mpi.handlers = 0;
    um_me->mpi.handler_count = 0;
}

/* Of MPI-1 (17.1). */
ALSO(MPI_Errhandler_create, MPI_Comm_create_errhandler);
ALSO(MPI_Errhandler_set, MPI_Comm_set_errhandler);
ALSO(MPI_Errhandler_get, MPI_Comm_get_errhandler);
