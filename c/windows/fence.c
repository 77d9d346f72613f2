/* Fences (MPI 4.0, 12.5.1): the members tell each other how much they ask, then what, do it in their own windows in the order of ranks, and answer. They meet at the end,
   so that a failure is told as in a barrier. Who met one goes on all the same: the others wait for what it has for them. */
#include "mpi/calls.h"
#include "windows/windows.h"
#include <stdlib.h>
#include <string.h>

/* A run of a fold: into[k] becomes in[k] op into[k]. */
static void fold_run(const struct deed *deed, const char *in, char *into, size_t length) {
    MPI_Datatype base = (MPI_Datatype)(uintptr_t)deed->base;
    MPI_Op op = (MPI_Op)(uintptr_t)deed->op;
    int count = deed->by_element ? 1 : (int)(length / um_type_at(base)->size);
    if (op == MPI_REPLACE) um_copy_data(in, into, count, base);
    else if (op != MPI_NO_OP) um_fold(in, into, count, base, op);
}

/* Appends what stands in a run before. False where there is no memory. */
static bool answer(struct pile *answers, const struct deed *deed, char *at, size_t length) {
    if (answers->length + length > answers->room) {
        size_t room = 2 * (answers->length + length);
        char *larger = realloc(answers->bytes, room);
        if (!larger) return false;
        answers->bytes = larger;
        answers->room = room;
    }
    if (deed->by_element) um_move_data(um_type_at((MPI_Datatype)(uintptr_t)deed->base), 1, at, answers->bytes + answers->length, length, true);
    else memcpy(answers->bytes + answers->length, at, length);
    answers->length += length;
    return true;
}

/* Does one of them in the window that begins there. */
static int do_deed(char *base, const struct deed *deed, const struct run *run, const char *data, struct pile *answers) {
    bool is_asked = deed->what == GET || deed->what == GET_AND_FOLD || deed->what == SWAP;
    for (size_t k = 0; k < deed->runs; k++) {
        char *at = (char *)((uintptr_t)base + run[k].at);
        size_t length = run[k].length;
        if (is_asked && !answer(answers, deed, at, length)) return MPI_ERR_NO_MEM;
        if (deed->what == PUT || (deed->what == SWAP && memcmp(at, data + length, length) == 0)) memcpy(at, data, length);
        if (deed->what == FOLD || deed->what == GET_AND_FOLD) fold_run(deed, data, at, length);
        if (deed->bytes) data += deed->by_element ? (size_t)extent_of(um_type_at((MPI_Datatype)(uintptr_t)deed->base)) : length;
    }
    return MPI_SUCCESS;
}

/* Does all that a rank asked. */
int um_do_all(char *base, const struct pile *asked, struct pile *answers) {
    int code = MPI_SUCCESS;
    for (size_t at = 0; at < asked->length && code == MPI_SUCCESS;) {
        const struct deed *deed = (const struct deed *)(asked->bytes + at);
        const struct run *run = (const struct run *)(deed + 1);
        const char *data = (const char *)(run + deed->runs);
        code = do_deed(base, deed, run, data, answers);
        at += sizeof *deed + deed->runs * sizeof *run + (deed->bytes + ALIGNED - 1) / ALIGNED * ALIGNED;
    }
    return code;
}

/* How many bytes a rank asks, and how many it wants back. */
struct amounts {
    uint64_t asked, wanted;
};

static int tell_amounts(struct window *window, struct pile in[], struct pile answers[], struct pile results[]) {
    struct amounts own[MAX_RANKS] = {{0, 0}}, all[MAX_RANKS] = {{0, 0}};
    struct pile out[MAX_RANKS], back[MAX_RANKS];
    for (int k = 0; k < window->result_count; k++) own[window->results[k].from].wanted += window->results[k].bytes;
    for (int k = 0; k < MAX_RANKS; k++) {
        own[k].asked = window->asked[k].length;
        results[k].length = own[k].wanted;
        out[k] = (struct pile){(char *)&own[k], sizeof own[k], 0};
        back[k] = (struct pile){(char *)&all[k], sizeof all[k], 0};
    }
    int code = um_exchange(window, out, back, true);
    for (int k = 0; k < MAX_RANKS; k++) {
        in[k].length = all[k].asked;
        answers[k].room = all[k].wanted;
    }
    return code;
}

/* Room for so many bytes as are known to come. */
static int make_room(struct pile piles[]) {
    for (int k = 0; k < MAX_RANKS; k++)
        if (piles[k].length && !(piles[k].bytes = malloc(piles[k].length))) return MPI_ERR_NO_MEM;
    return MPI_SUCCESS;
}

/* Puts what came where it was wanted, in the order in which it was asked. */
void um_hand_out(const struct window *window, const struct pile results[]) {
    size_t at[MAX_RANKS] = {0};
    for (int k = 0; k < window->result_count; k++) {
        const struct result *of = &window->results[k];
        um_unpack_data(results[of->from].bytes + at[of->from], of->bytes, of->buffer, of->count, of->type);
        at[of->from] += of->bytes;
    }
}

static void note(int *code, int other) {
    if (*code == MPI_SUCCESS) *code = other;
}

/* Answers all others, and gets their answers. */
static int do_epoch(struct window *window, struct pile in[], struct pile answers[], struct pile results[]) {
    int own = window->comm->position, code = tell_amounts(window, in, answers, results);
    for (int k = 0; k < MAX_RANKS; k++) answers[k].bytes = answers[k].room ? malloc(answers[k].room) : 0;
    note(&code, make_room(in));
    note(&code, make_room(results));
    if (code == MPI_ERR_NO_MEM) return code;
    note(&code, um_exchange(window, window->asked, in, false));
    for (int k = 0; k < window->comm->size; k++) note(&code, um_do_all(window->base, k == own ? &window->asked[own] : &in[k], &answers[k]));
    note(&code, um_exchange(window, answers, results, false));
    if (answers[own].length) memcpy(results[own].bytes, answers[own].bytes, answers[own].length);
    if (code == MPI_SUCCESS) um_hand_out(window, results);
    return code;
}

int MPI_Win_fence(int assertion, MPI_Win win) {
    struct pile in[MAX_RANKS] = {{0}}, answers[MAX_RANKS] = {{0}}, results[MAX_RANKS] = {{0}};
    WINDOW(win, true);
    if (assertion & ~(MPI_MODE_NOCHECK | MPI_MODE_NOSTORE | MPI_MODE_NOPUT | MPI_MODE_NOPRECEDE | MPI_MODE_NOSUCCEED))
        return um_fail_window(of, win, MPI_ERR_ASSERT);
    int code = do_epoch(of, in, answers, results);
    for (int k = 0; k < MAX_RANKS; k++) {
        free(in[k].bytes);
        free(answers[k].bytes);
        free(results[k].bytes);
    }
    um_forget_epoch(of);
    code = um_meet(of, code);
    of->is_open = !(assertion & MPI_MODE_NOSUCCEED);
    return um_answer_window(of, win, code);
}
