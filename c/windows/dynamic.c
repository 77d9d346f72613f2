/* Windows to which memory is attached later (MPI 4.0, 12.2.4): a displacement there is an address at its target. And what others ask of those in one piece
   (12.2.3). */
#include "mpi/calls.h"
#include "progress/progress.h"
#include "windows/windows.h"
#include <stdlib.h>

/* Whether memory is part of a region, or goes on from one into others that stand right behind. */
static bool is_covered(const struct exposure *exposure, uintptr_t at, size_t length) {
    for (int k = 0; k < exposure->region_count; k++) {
        const struct region *region = &exposure->regions[k];
        size_t into = at - (uintptr_t)region->at, rest = region->length - into;
        if (at < (uintptr_t)region->at || into > region->length) continue;
        if (length <= rest) return true;
        if (rest > 0) return is_covered(exposure, at + rest, length - rest);
    }
    return false;
}

bool um_is_attached(struct exposure *exposure, uintptr_t at, size_t length) {
    pthread_mutex_lock(&exposure->guard);
    bool is = is_covered(exposure, at, length);
    pthread_mutex_unlock(&exposure->guard);
    return is;
}

/* Adds a region. Regions don't overlap (12.2.4). */
static int attach(struct exposure *own, const char *at, size_t length) {
    for (int k = 0; k < own->region_count; k++)
        if (length && (uintptr_t)at < (uintptr_t)own->regions[k].at + own->regions[k].length &&
            (uintptr_t)own->regions[k].at < (uintptr_t)at + length)
            return MPI_ERR_RMA_ATTACH;
    struct region *regions = realloc(own->regions, ((size_t)own->region_count + 1) * sizeof *regions);
    if (!regions) return MPI_ERR_NO_MEM;
    own->regions = regions;
    regions[own->region_count++] = (struct region){at, length};
    return MPI_SUCCESS;
}

int MPI_Win_attach(MPI_Win win, void *base, MPI_Aint size) {
    WINDOW(win, false);
    if (of->flavor != MPI_WIN_FLAVOR_DYNAMIC) return um_fail_window(of, win, MPI_ERR_RMA_FLAVOR);
    if (size < 0 || (size > 0 && !base)) return um_fail_window(of, win, size < 0 ? MPI_ERR_SIZE : MPI_ERR_ARG);
    struct exposure *own = of->exposures[of->comm->position];
    pthread_mutex_lock(&own->guard);
    int code = attach(own, base, (size_t)size);
    pthread_mutex_unlock(&own->guard);
    return um_answer_window(of, win, code);
}

int MPI_Win_detach(MPI_Win win, const void *base) {
    WINDOW(win, false);
    if (of->flavor != MPI_WIN_FLAVOR_DYNAMIC) return um_fail_window(of, win, MPI_ERR_RMA_FLAVOR);
    struct exposure *own = of->exposures[of->comm->position];
    pthread_mutex_lock(&own->guard);
    int place = 0;
    while (place < own->region_count && own->regions[place].at != base) place++;
    bool is_there = place < own->region_count;
    if (is_there) own->regions[place] = own->regions[--own->region_count];
    pthread_mutex_unlock(&own->guard);
    return um_answer_window(of, win, is_there ? MPI_SUCCESS : MPI_ERR_ARG);
}

/* Where a member's part of the piece is, null where it is empty; by MPI_PROC_NULL the first one that isn't. */
int MPI_Win_shared_query(MPI_Win win, int rank, MPI_Aint *size, int *unit, void *base) {
    WINDOW(win, false);
    if (!size || !unit || !base) return um_fail_window(of, win, MPI_ERR_ARG);
    if (of->flavor != MPI_WIN_FLAVOR_SHARED) return um_fail_window(of, win, MPI_ERR_RMA_FLAVOR);
    if (rank != MPI_PROC_NULL && (rank < 0 || rank >= of->comm->size)) return um_fail_window(of, win, MPI_ERR_RANK);
    if (rank == MPI_PROC_NULL)
        for (rank = 0; rank < of->comm->size - 1 && !of->sizes[rank];) rank++;
    *size = of->sizes[rank];
    *unit = of->units[rank];
    *(void **)base = of->sizes[rank] ? of->bases[rank] : 0;
    return um_succeed();
}
