/* The parts of a collective in a buffer (MPI 4.0, 6.5 to 6.8). */
#include "collective/layout.h"

static int count_at(const struct layout *layout, int k) { return layout->has_counts ? layout->counts[k] : layout->count; }
static MPI_Datatype type_at(const struct layout *layout, int k) { return layout->has_types ? layout->types[k] : layout->type; }

/* How many bytes from the buffer's address the part of a position stands. */
static ptrdiff_t place_of(const struct layout *layout, int k) {
    if (layout->has_types) return layout->displs[k];
    ptrdiff_t element = layout->has_counts ? layout->displs[k] : (ptrdiff_t)layout->count * k;
    return element * extent_of(um_type_at(layout->type));
}

/* The part of a position. */
struct data um_part_at(const struct layout *layout, int k) {
    return (struct data){layout->at + place_of(layout, k), count_at(layout, k), type_at(layout, k)};
}

/* Why a layout can't be, or MPI_SUCCESS. */
int um_check_layout(const struct layout *layout, const struct comm *comm) {
    size_t bytes;
    int code;
    if (!layout->has_types && !um_check_buffer(layout->has_counts ? 0 : layout->count, layout->type, &bytes, &code)) return code;
    if (layout->has_counts && (!layout->counts || !layout->displs || (layout->has_types && !layout->types))) return MPI_ERR_ARG;
    for (int k = 0; k < comm->size; k++) {
        /* Where nothing goes, programs have MPI_DATATYPE_NULL, as with MPICH and Open MPI. */
        if (layout->has_types && count_at(layout, k) == 0) continue;
        if (!um_check_buffer(count_at(layout, k), type_at(layout, k), &bytes, &code)) return code;
        if (!um_is_buffer(layout->at, bytes, type_at(layout, k))) return MPI_ERR_BUFFER;
    }
    return MPI_SUCCESS;
}
