/* Windows (MPI 4.0, 12.2): memory of each member that others may put to and get from. A window's messages have a number of their own, as those of a
   collective that is started, so its calls may stand in any order among the collectives of its communicator. */
#include "collective/collective.h"
#include "play/play.h"
#include "progress/progress.h"
#include "windows/windows.h"
#include <stdlib.h>
#include <string.h>

struct window *um_window_at(MPI_Win handle) {
    uintptr_t number = (uintptr_t)handle;
    return number && number <= (uintptr_t)um_me->mpi.window_count ? um_me->mpi.windows[number - 1] : 0;
}

int um_fail_window(const struct window *window, MPI_Win handle, int code) {
    return um_fail_by(window->handler, window->comm, &handle, window->name[0] ? window->name : "this window", code);
}

int um_answer_window(const struct window *window, MPI_Win handle, int code) {
    return code == MPI_SUCCESS ? um_succeed() : um_fail_window(window, handle, code);
}

/* Room for so many bytes more, at an aligned place; null where there is no memory. */
void *um_extend(struct pile *pile, size_t bytes) {
    size_t length = pile->length + (bytes + ALIGNED - 1) / ALIGNED * ALIGNED;
    if (length > pile->room) {
        size_t room = length > 2 * pile->room ? length : 2 * pile->room;
        char *larger = realloc(pile->bytes, room);
        if (!larger) return 0;
        pile->bytes = larger;
        pile->room = room;
    }
    void *at = pile->bytes + pile->length;
    pile->length = length;
    return at;
}

/* Sends each member its pile, and gets one of each whose length is known. Empty ones are sent where all are. The first error. */
int um_exchange(struct window *window, const struct pile *out, struct pile *in, bool also_empty) {
    struct comm *comm = window->comm;
    struct request *made;
    comm->repeats = window->number;
    int code = um_start_collective(comm, &made);
    bool is_open = code == MPI_SUCCESS && !made->over;
    for (int k = 0; k < comm->size && is_open; k++)
        if (out[k].length || also_empty) um_send_bytes(made, k, out[k].bytes, out[k].length);
    for (int k = 0; k < comm->size && is_open; k++)
        if (in[k].length || also_empty) um_post_bytes(made, k, in[k].bytes, in[k].length, 0);
    comm->repeats = 0;
    if (code != MPI_SUCCESS) return code;
    um_wait_for(made);
    code = made->code;
    um_free_request(made);
    return code;
}

/* All members meet, as in a barrier. The first error, of all or here (`code`). */
int um_meet(struct window *window, int code) {
    char verdict[VERDICT];
    window->comm->repeats = window->number;
    int told = um_begin_collective(window->comm);
    if (told == MPI_SUCCESS) told = um_spread_verdict(window->comm, um_gather_all(window->comm, 0, 0, 0), verdict, 0);
    window->comm->repeats = 0;
    return told != MPI_SUCCESS ? told : code;
}

/* Nothing is asked any more. */
void um_forget_epoch(struct window *window) {
    for (int k = 0; k < window->result_count; k++) um_drop_type(window->results[k].type);
    window->result_count = 0;
    for (int k = 0; k < MAX_RANKS; k++) window->asked[k].length = 0;
}

static void free_window(struct window *window) {
    um_forget_epoch(window);
    for (int k = 0; k < MAX_RANKS; k++) free(window->asked[k].bytes);
    struct exposure *own = window->exposures[window->comm->position];
    if (own) free(own->regions);
    free(own);
    free(window->memory);
    um_free_attributes(window->attributes);
    free(window->results);
    free(window);
}

/* A member failed, so others may act on the window still: it stays until the rank's end, closed. */
static void leave_window(struct window *window) {
    struct exposure *own = window->exposures[window->comm->position];
    pthread_mutex_lock(&own->guard);
    own->is_closed = true;
    pthread_mutex_unlock(&own->guard);
    window->next = um_me->mpi.left_windows;
    um_me->mpi.left_windows = window;
}

void um_clear_windows(void) {
    for (int k = 0; k < um_me->mpi.window_count; k++)
        if (um_me->mpi.windows[k]) free_window(um_me->mpi.windows[k]);
    while (um_me->mpi.left_windows) {
        struct window *next = um_me->mpi.left_windows->next;
        free_window(um_me->mpi.left_windows);
        um_me->mpi.left_windows = next;
    }
    free(um_me->mpi.windows);
    um_me->mpi.windows = 0;
    um_me->mpi.window_count = 0;
}

/* What a member tells of its window. */
struct told {
    MPI_Aint size;
    int64_t unit;
    char *base;
    struct exposure *exposure;
};

/* The members tell each other how large their windows are, and where. */
static int tell_sizes(struct window *window, MPI_Aint size, int unit) {
    struct told own = {size, unit, window->base, window->exposures[window->comm->position]}, all[MAX_RANKS] = {{0}};
    struct pile out[MAX_RANKS], in[MAX_RANKS];
    for (int k = 0; k < MAX_RANKS; k++) {
        out[k] = (struct pile){(char *)&own, sizeof own, 0};
        in[k] = (struct pile){(char *)&all[k], sizeof own, 0};
    }
    int code = um_meet(window, um_exchange(window, out, in, true));
    all[window->comm->position] = own;
    for (int k = 0; k < window->comm->size; k++) {
        window->sizes[k] = all[k].size;
        window->units[k] = (int)all[k].unit;
        window->bases[k] = all[k].base;
        window->exposures[k] = all[k].exposure;
    }
    return code;
}

/* Memory in one piece for all members. The first one has it. */
static int make_piece(struct window *window) {
    struct exposure *first = window->exposures[0];
    size_t all = 0;
    for (int k = 0; k < window->comm->size; k++) all += (size_t)window->sizes[k];
    if (window->comm->position == 0) window->memory = first->piece = malloc(all + 1);
    int code = um_meet(window, MPI_SUCCESS);
    if (code != MPI_SUCCESS) return code;
    if (!first->piece) return MPI_ERR_NO_MEM;
    all = 0;
    for (int k = 0; k < window->comm->size; k++) {
        window->bases[k] = first->piece + all;
        all += (size_t)window->sizes[k];
    }
    window->base = window->bases[window->comm->position];
    return MPI_SUCCESS;
}

static struct exposure *new_exposure(void) {
    struct exposure *made = calloc(1, sizeof *made);
    if (made) pthread_mutex_init(&made->guard, 0);
    return made;
}

/* The place for a handle, or -1 where there is no memory. */
static int free_place(void) {
    int place = 0;
    while (place < um_me->mpi.window_count && um_me->mpi.windows[place]) place++;
    if (place < um_me->mpi.window_count) return place;
    return um_grow(&um_me->mpi.windows, place, sizeof *um_me->mpi.windows) ? um_me->mpi.window_count++, um_me->mpi.windows[place] = 0, place : -1;
}

/* A window like this one, before the others know of it; null where there is no memory. */
static struct window *new_window(const struct window *like, struct comm *of) {
    struct window *window = malloc(sizeof *window);
    struct exposure *own = new_exposure();
    if (!window || !own) {
        free(window);
        free(own);
        return 0;
    }
    *window = *like;
    window->comm = of;
    window->exposures[of->position] = own;
    window->model = MPI_WIN_UNIFIED;
    window->handler = MPI_ERRORS_ARE_FATAL;
    return window;
}

/* Makes a window like this one, whose memory it takes. */
static int create(const struct window *like, MPI_Aint size, int unit, struct comm *of, MPI_Win *win) {
    int code = size < 0 ? MPI_ERR_SIZE : unit < 1 ? MPI_ERR_DISP : of->size > 1 && of->hidden == NO_CONTEXT ? NO_COLLECTIVES : MPI_SUCCESS;
    int place = code == MPI_SUCCESS ? free_place() : -1;
    struct window *window = place < 0 ? 0 : new_window(like, of);
    if (!window) {
        free(like->memory);
        return um_refuse_collective(of, code == MPI_SUCCESS ? MPI_ERR_NO_MEM : code);
    }
    window->number = ++of->begun;
    window->hold = um_new_request(NOTHING, of, MPI_UNDEFINED, MPI_UNDEFINED);
    code = tell_sizes(window, size, unit);
    if (code == MPI_SUCCESS && like->flavor == MPI_WIN_FLAVOR_SHARED) code = make_piece(window);
    if (code == MPI_SUCCESS && !window->hold) code = MPI_ERR_NO_MEM;
    if (code == MPI_SUCCESS) {
        um_me->mpi.windows[place] = window;
        *win = (MPI_Win)(uintptr_t)(place + 1);
        return MPI_SUCCESS;
    }
    leave_window(window);
    return code;
}

/* No hint changes what a window does. */
int MPI_Win_create(void *base, MPI_Aint size, int unit, MPI_Info info, MPI_Comm comm, MPI_Win *win) {
    struct comm *of = um_comm_at(comm);
    ENTER(of, MPI_UNDEFINED, MPI_UNDEFINED);
    if (!of) return um_fail(0, MPI_ERR_COMM);
    if (!win || (size > 0 && !base)) return um_fail(of, um_refuse_collective(of, MPI_ERR_ARG));
    *win = MPI_WIN_NULL;
    if (!um_is_info(info)) return um_fail(of, um_refuse_collective(of, MPI_ERR_INFO));
    return um_answer(of, create(&(struct window){.base = base, .flavor = MPI_WIN_FLAVOR_CREATE}, size, unit, of, win));
}

int MPI_Win_allocate(MPI_Aint size, int unit, MPI_Info info, MPI_Comm comm, void *base, MPI_Win *win) {
    struct comm *of = um_comm_at(comm);
    ENTER(of, MPI_UNDEFINED, MPI_UNDEFINED);
    if (!of) return um_fail(0, MPI_ERR_COMM);
    if (!win || !base) return um_fail(of, um_refuse_collective(of, MPI_ERR_ARG));
    *win = MPI_WIN_NULL;
    if (!um_is_info(info)) return um_fail(of, um_refuse_collective(of, MPI_ERR_INFO));
    void *memory = malloc(size > 0 ? (size_t)size : 1);
    struct window like = {.base = memory, .memory = memory, .flavor = MPI_WIN_FLAVOR_ALLOCATE};
    int code = memory ? create(&like, size, unit, of, win) : um_refuse_collective(of, MPI_ERR_NO_MEM);
    if (code == MPI_SUCCESS) *(void **)base = memory;
    return um_answer(of, code);
}

/* Memory in one piece: the hint that it need not be isn't heeded. */
int MPI_Win_allocate_shared(MPI_Aint size, int unit, MPI_Info info, MPI_Comm comm, void *base, MPI_Win *win) {
    struct comm *of = um_comm_at(comm);
    ENTER(of, MPI_UNDEFINED, MPI_UNDEFINED);
    if (!of) return um_fail(0, MPI_ERR_COMM);
    if (!win || !base) return um_fail(of, um_refuse_collective(of, MPI_ERR_ARG));
    *win = MPI_WIN_NULL;
    if (!um_is_info(info)) return um_fail(of, um_refuse_collective(of, MPI_ERR_INFO));
    um_tell_left_out("shares memory by a window", __builtin_return_address(0));
    int code = create(&(struct window){.flavor = MPI_WIN_FLAVOR_SHARED}, size, unit, of, win);
    if (code == MPI_SUCCESS) *(void **)base = um_window_at(*win)->base;
    return um_answer(of, code);
}

/* A window without memory (dynamic.c). */
int MPI_Win_create_dynamic(MPI_Info info, MPI_Comm comm, MPI_Win *win) {
    struct comm *of = um_comm_at(comm);
    ENTER(of, MPI_UNDEFINED, MPI_UNDEFINED);
    if (!of) return um_fail(0, MPI_ERR_COMM);
    if (!win) return um_fail(of, um_refuse_collective(of, MPI_ERR_ARG));
    *win = MPI_WIN_NULL;
    if (!um_is_info(info)) return um_fail(of, um_refuse_collective(of, MPI_ERR_INFO));
    return um_answer(of, create(&(struct window){.flavor = MPI_WIN_FLAVOR_DYNAMIC}, 0, 1, of, win));
}

/* The window goes, also where a member failed: then that is told. */
int MPI_Win_free(MPI_Win *win) {
    struct window *of = win ? um_window_at(*win) : 0;
    ENTER(of ? of->comm : 0, MPI_UNDEFINED, MPI_UNDEFINED);
    if (!of) return um_fail(0, MPI_ERR_WIN);
    if (of->locked || of->has_started || of->is_posted) return um_fail_window(of, *win, MPI_ERR_RMA_SYNC);
    int code = um_delete_window_attributes(of, *win);
    if (code != MPI_SUCCESS) return um_fail_window(of, *win, code);
    code = um_meet(of, MPI_SUCCESS);
    MPI_Errhandler handler = of->handler;
    um_me->mpi.windows[(uintptr_t)*win - 1] = 0;
    struct comm *comm = of->comm;
    struct request *hold = of->hold;
    if (code == MPI_SUCCESS) {
        free_window(of);
        um_free_request(hold);
    } else leave_window(of);
    *win = MPI_WIN_NULL;
    return code == MPI_SUCCESS ? um_succeed() : um_fail_by(handler, comm, win, "this window", code);
}
