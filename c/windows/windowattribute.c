/* What windows have besides their memory: attributes (MPI 4.0, 7.7.3 and 12.2.6), names, groups and handlers of errors. */
#include "mpi/attribute.h"
#include "mpi/calls.h"
#include "windows/windows.h"

int MPI_WIN_NULL_COPY_FN(MPI_Win win, int keyval, void *more, void *in, void *out, int *flag) {
    (void)win, (void)keyval, (void)more, (void)in, (void)out;
    *flag = 0;
    return MPI_SUCCESS;
}

int MPI_WIN_DUP_FN(MPI_Win win, int keyval, void *more, void *in, void *out, int *flag) {
    (void)win, (void)keyval, (void)more;
    *(void **)out = in;
    *flag = 1;
    return MPI_SUCCESS;
}

int MPI_WIN_NULL_DELETE_FN(MPI_Win win, int keyval, void *value, void *more) {
    (void)win, (void)keyval, (void)value, (void)more;
    return MPI_SUCCESS;
}

int MPI_Win_create_keyval(MPI_Win_copy_attr_function *copies, MPI_Win_delete_attr_function *deletes, int *keyval, void *more) {
    ENTER_LOOK(0, MPI_UNDEFINED, MPI_UNDEFINED);
    struct keyval made = {.kind = OF_WINDOWS, .more = more};
    made.win.copies = copies ? copies : MPI_WIN_NULL_COPY_FN;
    made.win.deletes = deletes ? deletes : MPI_WIN_NULL_DELETE_FN;
    return um_create_keyval(&made, keyval);
}

int MPI_Win_free_keyval(int *keyval) {
    ENTER_LOOK(0, MPI_UNDEFINED, MPI_UNDEFINED);
    return um_free_keyval(keyval, OF_WINDOWS);
}

static struct bearer bearer_of(struct window *window, MPI_Win handle) {
    return (struct bearer){.kind = OF_WINDOWS, .win = handle, .first = &window->attributes};
}

int um_delete_window_attributes(struct window *window, MPI_Win handle) {
    struct bearer bearer = bearer_of(window, handle);
    return um_delete_all_attributes(&bearer);
}

int MPI_Win_set_attr(MPI_Win win, int keyval, void *value) {
    WINDOW(win, false);
    struct bearer bearer = bearer_of(of, win);
    return um_answer_window(of, win, um_set_attribute(&bearer, keyval, value));
}

int MPI_Win_delete_attr(MPI_Win win, int keyval) {
    WINDOW(win, false);
    struct bearer bearer = bearer_of(of, win);
    return um_answer_window(of, win, um_delete_attribute(&bearer, keyval));
}

/* Of those that are there, a pointer to the value; of the base, that itself (12.2.6). */
int MPI_Win_get_attr(MPI_Win win, int keyval, void *value, int *flag) {
    WINDOW(win, false);
    if (!value || !flag) return um_fail_window(of, win, MPI_ERR_ARG);
    int own = of->comm->position;
    void *values[] = {0, of->base, &of->sizes[own], &of->units[own], &of->flavor, &of->model};
    struct bearer bearer = bearer_of(of, win);
    if (keyval < MPI_WIN_BASE || keyval > MPI_WIN_MODEL) return um_answer_window(of, win, um_get_attribute(&bearer, keyval, value, flag));
    *(void **)value = values[keyval];
    *flag = 1;
    return MPI_SUCCESS;
}

int MPI_Win_get_group(MPI_Win win, MPI_Group *group) {
    WINDOW(win, false);
    if (!group) return um_fail_window(of, win, MPI_ERR_ARG);
    return um_answer_window(of, win, um_make_group(of->comm->members, of->comm->size, group));
}

/* No hint is heeded, so none is kept. */
int MPI_Win_set_info(MPI_Win win, MPI_Info info) {
    WINDOW(win, false);
    return um_answer_window(of, win, um_is_info(info) ? MPI_SUCCESS : MPI_ERR_INFO);
}

int MPI_Win_get_info(MPI_Win win, MPI_Info *info) {
    WINDOW(win, false);
    if (!info) return um_fail_window(of, win, MPI_ERR_ARG);
    um_me->mpi.is_starting = true;
    int code = MPI_Info_create(info);
    um_me->mpi.is_starting = false;
    return code;
}

int MPI_Win_set_name(MPI_Win win, const char *name) {
    WINDOW(win, false);
    if (!name) return um_fail_window(of, win, MPI_ERR_ARG);
    snprintf(of->name, sizeof of->name, "%s", name);
    return MPI_SUCCESS;
}

int MPI_Win_get_name(MPI_Win win, char *name, int *length) {
    WINDOW(win, false);
    if (!name || !length) return um_fail_window(of, win, MPI_ERR_ARG);
    *length = snprintf(name, MPI_MAX_OBJECT_NAME, "%s", of->name);
    return MPI_SUCCESS;
}

int MPI_Win_set_errhandler(MPI_Win win, MPI_Errhandler handler) {
    WINDOW(win, false);
    if (!um_is_handler(handler)) return um_fail_window(of, win, MPI_ERR_ARG);
    of->handler = handler;
    return MPI_SUCCESS;
}

int MPI_Win_get_errhandler(MPI_Win win, MPI_Errhandler *handler) {
    WINDOW(win, false);
    if (!handler) return um_fail_window(of, win, MPI_ERR_ARG);
    *handler = of->handler;
    return MPI_SUCCESS;
}

int MPI_Win_call_errhandler(MPI_Win win, int errorcode) {
    WINDOW(win, false);
    (void)um_answer_window(of, win, errorcode);
    return MPI_SUCCESS;
}
