/* Info objects (MPI 4.0, 10): pairs of a key and a value, in the order in which they were set. No call here heeds one. */
#include "mpi/calls.h"
#include "progress/progress.h"
#include <stdlib.h>
#include <string.h>

struct pair {
    char *key, *value;
};

struct info {
    struct pair *pairs;
    int count;
};

enum { FIRST_OWN = 2 };

static struct info *info_at(MPI_Info handle) {
    uintptr_t number = (uintptr_t)handle;
    return number >= FIRST_OWN && number - FIRST_OWN < (uintptr_t)um_me->mpi.info_count ? um_me->mpi.infos[number - FIRST_OWN] : 0;
}

/* What is only looked at may be MPI_INFO_ENV too, which has none of its keys: each may be left out (11.2.1). */
static const struct info *seen_at(MPI_Info handle) {
    static const struct info environment;
    return handle == MPI_INFO_ENV ? &environment : info_at(handle);
}

bool um_is_info(MPI_Info handle) { return handle == MPI_INFO_NULL || seen_at(handle); }

static bool is_text(const char *text, size_t most) { return text && strlen(text) <= most; }

static int place_of(const struct info *info, const char *key) {
    for (int k = 0; k < info->count; k++)
        if (!strcmp(info->pairs[k].key, key)) return k;
    return -1;
}

static int put(struct info *info, const char *key, const char *value) {
    int place = place_of(info, key);
    struct pair made = {strdup(key), strdup(value)};
    if (!made.key || !made.value || (place < 0 && !um_grow(&info->pairs, info->count, sizeof *info->pairs))) {
        free(made.key);
        free(made.value);
        return MPI_ERR_NO_MEM;
    }
    if (place < 0) place = info->count++;
    else free(info->pairs[place].key), free(info->pairs[place].value);
    info->pairs[place] = made;
    return MPI_SUCCESS;
}

static void free_info(struct info *info) {
    for (int k = 0; info && k < info->count; k++) free(info->pairs[k].key), free(info->pairs[k].value);
    if (info) free(info->pairs);
    free(info);
}

void um_clear_infos(void) {
    for (int k = 0; k < um_me->mpi.info_count; k++) free_info(um_me->mpi.infos[k]);
    free(um_me->mpi.infos);
    um_me->mpi.infos = 0;
    um_me->mpi.info_count = 0;
}

/* Makes one with the pairs of another, or with none where that is null. */
static int make_info(const struct info *like, MPI_Info *made) {
    int place = 0, code = MPI_SUCCESS;
    while (place < um_me->mpi.info_count && um_me->mpi.infos[place]) place++;
    if (place == um_me->mpi.info_count && !um_grow(&um_me->mpi.infos, place, sizeof *um_me->mpi.infos)) return MPI_ERR_NO_MEM;
    struct info *info = calloc(1, sizeof *info);
    if (!info) return MPI_ERR_NO_MEM;
    for (int k = 0; like && k < like->count && code == MPI_SUCCESS; k++) code = put(info, like->pairs[k].key, like->pairs[k].value);
    if (code != MPI_SUCCESS) {
        free_info(info);
        return code;
    }
    if (place == um_me->mpi.info_count) um_me->mpi.info_count++;
    um_me->mpi.infos[place] = info;
    *made = (MPI_Info)(uintptr_t)(FIRST_OWN + place);
    return MPI_SUCCESS;
}

/* These calls may be made before MPI_Init and after MPI_Finalize too (11.4.1); then there is no error handler. */
#define LOOK() \
    if (!um_me || (um_me->life.has_begun && !um_me->life.has_finalized)) ENTER_LOOK(0, MPI_UNDEFINED, MPI_UNDEFINED)
#define NEEDS(pointer) \
    if (!(pointer)) return refuse(MPI_ERR_ARG)

static int refuse(int code) { return um_me->life.has_begun && !um_me->life.has_finalized ? um_answer(0, code) : code; }

int MPI_Info_create(MPI_Info *made) {
    LOOK();
    NEEDS(made);
    return refuse(make_info(0, made));
}

/* Begins a call that changes an info object, and one that looks at it. */
#define INFO(handle) \
    LOOK(); \
    struct info *of = info_at(handle); \
    if (!of) return refuse(MPI_ERR_INFO)
#define SEEN(handle) \
    LOOK(); \
    const struct info *of = seen_at(handle); \
    if (!of) return refuse(MPI_ERR_INFO)
#define KEY(key) \
    if (!is_text(key, MPI_MAX_INFO_KEY) || !*key) return refuse(MPI_ERR_INFO_KEY)

int MPI_Info_dup(MPI_Info info, MPI_Info *made) {
    SEEN(info);
    NEEDS(made);
    return refuse(make_info(of, made));
}

int MPI_Info_free(MPI_Info *info) {
    INFO(info ? *info : MPI_INFO_NULL);
    um_me->mpi.infos[(uintptr_t)*info - FIRST_OWN] = 0;
    free_info(of);
    *info = MPI_INFO_NULL;
    return MPI_SUCCESS;
}

int MPI_Info_set(MPI_Info info, const char *key, const char *value) {
    INFO(info);
    KEY(key);
    return refuse(is_text(value, MPI_MAX_INFO_VAL) ? put(of, key, value) : MPI_ERR_INFO_VALUE);
}

int MPI_Info_delete(MPI_Info info, const char *key) {
    INFO(info);
    KEY(key);
    int place = place_of(of, key);
    if (place < 0) return refuse(MPI_ERR_INFO_NOKEY);
    free(of->pairs[place].key);
    free(of->pairs[place].value);
    of->count--;
    memmove(&of->pairs[place], &of->pairs[place + 1], sizeof *of->pairs * (size_t)(of->count - place));
    return MPI_SUCCESS;
}

/* At most `length` bytes of the value, and a zero behind them. */
int MPI_Info_get(MPI_Info info, const char *key, int length, char *value, int *flag) {
    SEEN(info);
    KEY(key);
    if (length < 0) return refuse(MPI_ERR_ARG);
    NEEDS(flag);
    if (!value) return refuse(MPI_ERR_INFO_VALUE);
    int place = place_of(of, key);
    *flag = place >= 0;
    if (*flag) snprintf(value, (size_t)length + 1, "%s", of->pairs[place].value);
    return MPI_SUCCESS;
}

/* The value and the zero behind it as far as the buffer's room goes; then the room that all of it needs. */
int MPI_Info_get_string(MPI_Info info, const char *key, int *room, char *value, int *flag) {
    SEEN(info);
    KEY(key);
    NEEDS(room && flag && *room >= 0 && (value || *room == 0));
    int place = place_of(of, key);
    *flag = place >= 0;
    if (!*flag) return MPI_SUCCESS;
    if (*room > 0) snprintf(value, (size_t)*room, "%s", of->pairs[place].value);
    *room = (int)strlen(of->pairs[place].value) + 1;
    return MPI_SUCCESS;
}

int MPI_Info_get_valuelen(MPI_Info info, const char *key, int *length, int *flag) {
    SEEN(info);
    KEY(key);
    NEEDS(length && flag);
    int place = place_of(of, key);
    *flag = place >= 0;
    if (*flag) *length = (int)strlen(of->pairs[place].value);
    return MPI_SUCCESS;
}

int MPI_Info_get_nkeys(MPI_Info info, int *count) {
    SEEN(info);
    NEEDS(count);
    *count = of->count;
    return MPI_SUCCESS;
}

int MPI_Info_get_nthkey(MPI_Info info, int n, char *key) {
    SEEN(info);
    NEEDS(key);
    if (n < 0 || n >= of->count) return refuse(MPI_ERR_ARG);
    strcpy(key, of->pairs[n].key);
    return MPI_SUCCESS;
}

/* A communicator keeps no hints: an object with none (7.4.4). */
int MPI_Comm_set_info(MPI_Comm comm, MPI_Info info) {
    struct comm *of = um_comm_at(comm);
    ENTER_LOOK(of, MPI_UNDEFINED, MPI_UNDEFINED);
    if (!of) return um_fail(0, MPI_ERR_COMM);
    return seen_at(info) ? MPI_SUCCESS : um_fail(of, MPI_ERR_INFO);
}

int MPI_Comm_get_info(MPI_Comm comm, MPI_Info *made) {
    struct comm *of = um_comm_at(comm);
    ENTER_LOOK(of, MPI_UNDEFINED, MPI_UNDEFINED);
    if (!of) return um_fail(0, MPI_ERR_COMM);
    WRITES(of, made);
    return um_answer(of, make_info(0, made));
}
