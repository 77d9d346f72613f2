/* What is asked of windows (MPI 4.0, 12.3): it is written down, with its data, and goes out in the next fence, or is done at once. Whether it can be is known
   here, by the sizes of all windows. */
#include "mpi/calls.h"
#include "progress/progress.h"
#include "windows/windows.h"
#include <stdlib.h>
#include <string.h>

/* Data of the target's window. */
struct target {
    int rank;
    MPI_Aint disp;
    struct data data;
    bool gives; /* a request */
    MPI_Request *request;
};

/* Writes runs of bytes down. */
struct writing {
    struct pile *pile;
    size_t first; /* where the runs begin in it */
    size_t runs, limit;
    const struct type *element; /* where each is a run of its own, whatever blocks it has */
    struct exposure *attached;  /* where memory is attached to the window */
    size_t blocks;              /* of elements that were seen */
    int code;
};

static bool write_run(void *of, ptrdiff_t at, const struct block *block) {
    struct writing *writing = of;
    const struct type *element = writing->element;
    size_t length = element ? element->size : block->length, reach = element ? (size_t)element->most : length;
    if (element && writing->blocks++ % element->blocks) return true;
    if (at < 0 || (size_t)at > writing->limit || reach > writing->limit - (size_t)at) writing->code = MPI_ERR_RMA_RANGE;
    if (writing->attached && !um_is_attached(writing->attached, (uintptr_t)at, reach)) writing->code = MPI_ERR_RMA_RANGE;
    struct run *runs = (struct run *)(writing->pile->bytes + writing->first), *last = writing->runs && !element ? runs + writing->runs - 1 : 0;
    if (last && last->at + last->length == (size_t)at) {
        last->length += length;
        return writing->code == MPI_SUCCESS;
    }
    struct run *run = um_extend(writing->pile, sizeof *run);
    if (!run) writing->code = MPI_ERR_NO_MEM;
    else *run = (struct run){(size_t)at, length}, writing->runs++;
    return writing->code == MPI_SUCCESS;
}

/* Writes down the bytes of a window that data take there. */
static int write_runs(const struct window *window, const struct target *target, struct writing *writing) {
    const struct type *type = um_type_at(target->data.type);
    ptrdiff_t at, extent = extent_of(type);
    if (__builtin_mul_overflow(target->disp, window->units[target->rank], &at)) return MPI_ERR_DISP;
    bool is_dynamic = window->flavor == MPI_WIN_FLAVOR_DYNAMIC;
    writing->limit = is_dynamic ? PTRDIFF_MAX : (size_t)window->sizes[target->rank];
    writing->attached = is_dynamic ? window->exposures[target->rank] : 0;
    int pieces = type->is_plain && !writing->element ? 0 : target->data.count;
    if (!pieces) write_run(writing, at, &(struct block){.length = (size_t)target->data.count * type->size});
    for (int k = 0; k < pieces && writing->code == MPI_SUCCESS; k++) um_each_run(type, at + k * extent, write_run, writing);
    return writing->code;
}

/* Writes data down: in one piece, or as elements lie in memory. */
static int write_data(struct pile *pile, const struct data *data, const struct type *element, size_t *written) {
    struct type *type = um_type_at(data->type);
    size_t bytes = (size_t)data->count * type->size, count = element ? bytes / element->size : 0;
    *written = element ? count * (size_t)extent_of(element) : bytes;
    char *place = um_extend(pile, *written), *packed = element ? malloc(bytes + 1) : place;
    int code = place && packed ? MPI_SUCCESS : MPI_ERR_NO_MEM;
    if (code == MPI_SUCCESS) um_move_data(type, data->count, um_into(*data), packed, bytes, true);
    if (code == MPI_SUCCESS && element) um_move_data(element, (int)count, place, packed, bytes, false);
    if (element) free(packed);
    return code;
}

/* Notes where what is got goes. */
static int add_result(struct window *window, int from, const struct data *data, size_t bytes) {
    struct result *results = realloc(window->results, ((size_t)window->result_count + 1) * sizeof *results);
    if (!results) return MPI_ERR_NO_MEM;
    window->results = results;
    MPI_Datatype kept = um_keep_type(data->type);
    if (kept == MPI_DATATYPE_NULL) return MPI_ERR_NO_MEM;
    results[window->result_count++] = (struct result){from, um_into(*data), data->count, kept, bytes};
    return MPI_SUCCESS;
}

/* Why data can't be asked for or given, or MPI_SUCCESS; and their bytes. */
static int check_data(const struct data *data, bool has_buffer, size_t *bytes) {
    int code;
    if (!um_check_buffer(data->count, data->type, bytes, &code)) return code;
    return has_buffer && !um_is_buffer(data->at, *bytes, data->type) ? MPI_ERR_BUFFER : MPI_SUCCESS;
}

/* Why it can't be done, or MPI_SUCCESS; and the bytes. `given` and `got` may be null. */
static int check(const struct window *window, const struct data *given, const struct data *got, const struct target *target, size_t *bytes) {
    size_t other;
    if (target->rank != MPI_PROC_NULL && (target->rank < 0 || target->rank >= window->comm->size)) return MPI_ERR_RANK;
    if (target->gives && !target->request) return MPI_ERR_ARG;
    bool is_fenced = window->is_open && !target->gives;
    if (target->rank != MPI_PROC_NULL && !is_fenced && !um_acts_at_once(window, target->rank)) return MPI_ERR_RMA_SYNC;
    int code = check_data(&target->data, false, bytes);
    for (int k = 0; k < 2 && code == MPI_SUCCESS; k++) {
        const struct data *data = k ? got : given;
        if (!data) continue;
        code = check_data(data, true, &other);
        if (code == MPI_SUCCESS && other != *bytes) code = MPI_ERR_TRUNCATE;
    }
    if (code == MPI_SUCCESS && target->rank != MPI_PROC_NULL && target->disp < 0) code = MPI_ERR_DISP;
    return code;
}

/* Writes all down, or nothing. */
static int write_down(struct window *window, struct deed deed, const struct data *given, const struct data *got, const struct target *target,
                      size_t bytes) {
    struct pile *pile = &window->asked[target->rank];
    size_t before = pile->length;
    const struct type *base = um_type_at((MPI_Datatype)(uintptr_t)deed.base);
    const struct type *element = base && !base->is_plain ? base : 0;
    int code = um_extend(pile, sizeof deed) ? MPI_SUCCESS : MPI_ERR_NO_MEM;
    struct writing writing = {.pile = pile, .first = pile->length, .element = element};
    if (code == MPI_SUCCESS) code = write_runs(window, target, &writing);
    if (code == MPI_SUCCESS && given) code = write_data(pile, given, element, &deed.bytes);
    if (code == MPI_SUCCESS && got) code = add_result(window, target->rank, got, bytes);
    deed.runs = writing.runs;
    deed.by_element = element != 0;
    if (code == MPI_SUCCESS) memcpy(pile->bytes + before, &deed, sizeof deed);
    else pile->length = before;
    return code;
}

/* One piece goes to a window, or comes from there, at once. */
static int move_piece(struct window *window, const struct data *given, const struct data *got, const struct target *target, size_t bytes) {
    struct exposure *there = window->exposures[target->rank];
    bool is_dynamic = window->flavor == MPI_WIN_FLAVOR_DYNAMIC;
    size_t size = (size_t)window->sizes[target->rank];
    ptrdiff_t at;
    if (__builtin_mul_overflow(target->disp, window->units[target->rank], &at)) return MPI_ERR_DISP;
    bool fits = is_dynamic ? um_is_attached(there, (uintptr_t)at, bytes) : bytes <= size && (size_t)at <= size - bytes;
    int code = fits ? um_why_no_access(window, target->rank) : MPI_ERR_RMA_RANGE;
    char *place = (char *)((uintptr_t)window->bases[target->rank] + (uintptr_t)at);
    pthread_mutex_lock(&there->guard);
    if (code == MPI_SUCCESS && there->is_closed) code = MPI_ERR_RMA_SYNC;
    if (code == MPI_SUCCESS) memmove(given ? place : um_into(*got), given ? given->at : place, bytes);
    pthread_mutex_unlock(&there->guard);
    return code;
}

/* Does it, now that it can be done. */
static int do_at_once(struct window *window, struct deed deed, const struct data *given, const struct data *got, const struct target *target,
                      size_t bytes) {
    const struct data *own = given ? given : got;
    bool is_move = deed.what == PUT || deed.what == GET;
    if (is_move && um_type_at(own->type)->is_plain && um_type_at(target->data.type)->is_plain) return move_piece(window, given, got, target, bytes);
    int code = write_down(window, deed, given, got, target, bytes);
    return code == MPI_SUCCESS ? um_do_now(window, target->rank) : code;
}

/* A request of what is done. */
static int give_request(struct window *window, const struct target *target) {
    struct request *made = um_new_request(NOTHING, window->comm, target->rank, MPI_UNDEFINED);
    if (!made) return MPI_ERR_NO_MEM;
    made->status = um_empty_status;
    made->over = true;
    *target->request = (MPI_Request)(uintptr_t)made->handle;
    return MPI_SUCCESS;
}

/* Asks for it in the next fence, or does it. Of a swap two values are given. */
static int ask(MPI_Win win, struct window *window, struct deed deed, const struct data *given, const struct data *got, const struct target *target) {
    size_t bytes = 0;
    struct call call = um_me->call;
    call.peer = target->rank;
    um_set_call(call);
    int code = check(window, deed.what == SWAP ? 0 : given, got, target, &bytes);
    bool does_any = code == MPI_SUCCESS && bytes && target->rank != MPI_PROC_NULL;
    if (does_any) code = (um_acts_at_once(window, target->rank) ? do_at_once : write_down)(window, deed, given, got, target, bytes);
    if (code == MPI_SUCCESS && target->gives) code = give_request(window, target);
    return um_answer_window(window, win, code);
}

/* The basic type that a fold is of, in `deed`: one for all data (12.3.4), and an operation of MPI for it. Of no data there is none. */
static int base_of(MPI_Op op, MPI_Datatype type, struct deed *deed) {
    const struct type *of = um_type_at(type);
    if (!of) return MPI_ERR_TYPE;
    deed->base = (uint32_t)(uintptr_t)of->base;
    deed->op = (uint32_t)(uintptr_t)op;
    if (!deed->base && of->size) return MPI_ERR_TYPE;
    if (op == MPI_REPLACE || op == MPI_NO_OP) return MPI_SUCCESS;
    if (!um_is_basic_op(op)) return MPI_ERR_OP;
    return deed->base ? um_check_op(op, of->base) : MPI_SUCCESS;
}

int MPI_Put(const void *buf, int count, MPI_Datatype type, int target, MPI_Aint disp, int targetcount, MPI_Datatype targettype, MPI_Win win) {
    WINDOW(win, true);
    struct target there = {target, disp, {0, targetcount, targettype}, false, 0};
    return ask(win, of, (struct deed){.what = PUT}, &(struct data){buf, count, type}, 0, &there);
}

int MPI_Rput(const void *buf, int count, MPI_Datatype type, int target, MPI_Aint disp, int targetcount, MPI_Datatype targettype, MPI_Win win,
             MPI_Request *request) {
    WINDOW(win, true);
    struct target there = {target, disp, {0, targetcount, targettype}, true, request};
    return ask(win, of, (struct deed){.what = PUT}, &(struct data){buf, count, type}, 0, &there);
}

int MPI_Get(void *buf, int count, MPI_Datatype type, int target, MPI_Aint disp, int targetcount, MPI_Datatype targettype, MPI_Win win) {
    WINDOW(win, true);
    struct target there = {target, disp, {0, targetcount, targettype}, false, 0};
    return ask(win, of, (struct deed){.what = GET}, 0, &(struct data){buf, count, type}, &there);
}

int MPI_Rget(void *buf, int count, MPI_Datatype type, int target, MPI_Aint disp, int targetcount, MPI_Datatype targettype, MPI_Win win,
             MPI_Request *request) {
    WINDOW(win, true);
    struct target there = {target, disp, {0, targetcount, targettype}, true, request};
    return ask(win, of, (struct deed){.what = GET}, 0, &(struct data){buf, count, type}, &there);
}

/* Folds data into a window, and gets what stood there before where `got` isn't null. */
static int fold(MPI_Win win, struct window *window, MPI_Op op, const struct data *given, const struct data *got, const struct target *there) {
    struct deed deed = {.what = got ? GET_AND_FOLD : FOLD};
    int code = base_of(op, there->data.type, &deed);
    if (code != MPI_SUCCESS) return um_fail_window(window, win, code);
    return ask(win, window, deed, got && op == MPI_NO_OP ? 0 : given, got, there);
}

int MPI_Accumulate(const void *buf, int count, MPI_Datatype type, int target, MPI_Aint disp, int targetcount, MPI_Datatype targettype, MPI_Op op,
                   MPI_Win win) {
    WINDOW(win, true);
    struct target there = {target, disp, {0, targetcount, targettype}, false, 0};
    return fold(win, of, op, &(struct data){buf, count, type}, 0, &there);
}

int MPI_Raccumulate(const void *buf, int count, MPI_Datatype type, int target, MPI_Aint disp, int targetcount, MPI_Datatype targettype, MPI_Op op,
                    MPI_Win win, MPI_Request *request) {
    WINDOW(win, true);
    struct target there = {target, disp, {0, targetcount, targettype}, true, request};
    return fold(win, of, op, &(struct data){buf, count, type}, 0, &there);
}

int MPI_Get_accumulate(const void *buf, int count, MPI_Datatype type, void *result, int resultcount, MPI_Datatype resulttype, int target,
                       MPI_Aint disp, int targetcount, MPI_Datatype targettype, MPI_Op op, MPI_Win win) {
    WINDOW(win, true);
    struct target there = {target, disp, {0, targetcount, targettype}, false, 0};
    return fold(win, of, op, &(struct data){buf, count, type}, &(struct data){result, resultcount, resulttype}, &there);
}

int MPI_Rget_accumulate(const void *buf, int count, MPI_Datatype type, void *result, int resultcount, MPI_Datatype resulttype, int target,
                        MPI_Aint disp, int targetcount, MPI_Datatype targettype, MPI_Op op, MPI_Win win, MPI_Request *request) {
    WINDOW(win, true);
    struct target there = {target, disp, {0, targetcount, targettype}, true, request};
    return fold(win, of, op, &(struct data){buf, count, type}, &(struct data){result, resultcount, resulttype}, &there);
}

int MPI_Fetch_and_op(const void *buf, void *result, MPI_Datatype type, int target, MPI_Aint disp, MPI_Op op, MPI_Win win) {
    WINDOW(win, true);
    struct target there = {target, disp, {0, 1, type}, false, 0};
    if (!um_is_basic_type(type)) return um_fail_window(of, win, MPI_ERR_TYPE);
    return fold(win, of, op, &(struct data){buf, 1, type}, &(struct data){result, 1, type}, &there);
}

/* Its data are the new value, and behind it the one that has to be there. */
int MPI_Compare_and_swap(const void *buf, const void *compare, void *result, MPI_Datatype type, int target, MPI_Aint disp, MPI_Win win) {
    WINDOW(win, true);
    enum { MOST = 2 * ALIGNED };
    char both[MOST];
    struct target there = {target, disp, {0, 1, type}, false, 0};
    if (!um_is_basic_type(type) || um_type_at(type)->size > ALIGNED) return um_fail_window(of, win, MPI_ERR_TYPE);
    if (!buf || !compare) return um_fail_window(of, win, MPI_ERR_BUFFER);
    size_t size = um_type_at(type)->size;
    memcpy(both, buf, size);
    memcpy(both + size, compare, size);
    return ask(win, of, (struct deed){.what = SWAP}, &(struct data){both, (int)(2 * size), MPI_BYTE}, &(struct data){result, 1, type}, &there);
}
