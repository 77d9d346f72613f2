/* The contexts of the communicators of one group, plane by plane, and what the members of a communicator share. */
#include "engine/engine.h"
#include "mpi/calls.h"
#include "mpi/dup.h"
#include "progress/progress.h"
#include <stdlib.h>

__typeof__(ulfm_dup_again) __real_ulfm_dup_again;

/* ---- What members share ---- */

static struct common *all_commons;
static pthread_mutex_t commons_lock = PTHREAD_MUTEX_INITIALIZER;

/* What so many members will share, or null where there is no memory. */
struct common *um_new_common(int users) {
    struct common *common = calloc(1, sizeof *common);
    if (!common) return 0;
    common->users = users;
    pthread_mutex_lock(&commons_lock);
    common->next = all_commons;
    if (all_commons) all_commons->previous = common;
    all_commons = common;
    pthread_mutex_unlock(&commons_lock);
    return common;
}

static void unlink_common(struct common *common) {
    if (common->next) common->next->previous = common->previous;
    if (common->previous) common->previous->next = common->next;
    else all_commons = common->next;
}

/* A member has it no more. The last one frees it. */
void um_leave_common(struct common *common) {
    if (!common) return;
    pthread_mutex_lock(&commons_lock);
    bool is_last = --common->users == 0;
    if (is_last) unlink_common(common);
    pthread_mutex_unlock(&commons_lock);
    if (is_last) free(common);
}

/* At the end: those that members which failed had, too. */
void um_free_commons(void) {
    while (all_commons) {
        struct common *next = all_commons->next;
        free(all_commons);
        all_commons = next;
    }
    um_free_ledgers();
}

/* ---- Chains ---- */

static bool add_plane(struct chain *chain, uint64_t context, uint64_t hidden, bool is_free) {
    if (!um_grow(&chain->plane, chain->planes, sizeof *chain->plane)) return false;
    chain->plane[chain->planes++] = (struct plane){.context = context, .hidden = hidden, .is_free = is_free};
    return true;
}

/* The chain of a context, with its first plane. It has no context for collectives where it was revoked before it was adopted here, or where the engine has
   no further number for one. */
struct chain *um_new_chain(uint64_t context) {
    struct chain *chain = calloc(1, sizeof *chain);
    uint64_t hidden = NO_CONTEXT;
    if (!chain) return 0;
    chain->half = NO_CONTEXT;
    chain->ledger = um_open_ledger(context);
    if (ulfm_dup_again(um_me->slot, context, &hidden) != ULFM_OK) hidden = NO_CONTEXT;
    if (chain->ledger && add_plane(chain, context, hidden, false)) return chain;
    um_free_chain(chain);
    return 0;
}

void um_free_chain(struct chain *chain) {
    if (chain->ledger) um_close_ledger(chain->ledger);
    free(chain->plane);
    free(chain);
}

/* The next duplicate of the context for collectives of plane 0. Nobody revokes that, so this is no event of a run that is played. */
static int next_context(const struct chain *chain, uint64_t *made) {
    uint64_t of = chain->plane[0].hidden;
    return of == NO_CONTEXT ? NO_COLLECTIVES : um_class_of(__real_ulfm_dup_again(um_me->slot, of, made));
}

static int lengthen_by_one(struct chain *chain) {
    uint64_t hidden;
    int code = chain->half == NO_CONTEXT ? next_context(chain, &chain->half) : MPI_SUCCESS;
    if (code == MPI_SUCCESS && !um_grow(&chain->plane, chain->planes, sizeof *chain->plane)) code = MPI_ERR_NO_MEM;
    if (code == MPI_SUCCESS) code = next_context(chain, &hidden);
    if (code != MPI_SUCCESS) return code;
    chain->plane[chain->planes++] = (struct plane){.context = chain->half, .hidden = hidden, .is_free = true};
    chain->half = NO_CONTEXT;
    return MPI_SUCCESS;
}

/* Makes the planes of a chain up to this one. */
int um_lengthen(struct chain *chain, int plane) {
    int code = plane < PLANES ? MPI_SUCCESS : NO_CONTEXTS;
    while (code == MPI_SUCCESS && chain->planes <= plane) code = lengthen_by_one(chain);
    return code;
}

/* The collectives that began on a plane before. */
unsigned um_begun_on(const struct chain *chain, int plane) { return plane < chain->planes ? chain->plane[plane].begun : 0; }
