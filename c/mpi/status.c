/* What a status says in elements of a type (MPI 4.0, 3.2.5 and 5.1.11), and what a program writes into one (13.3). */
#include "mpi/calls.h"
#include "types/types.h"
#include <limits.h>

/* The basic elements of one of a block. */
static size_t elements_of(const struct block *block) { return block->of ? block->of->elements : block->length / block->element; }

/* The bytes of so many basic elements of a type's data. */
static size_t bytes_of(const struct type *type, size_t elements) {
    size_t each = type->elements, rest = each ? elements % each : 0, bytes = each ? elements / each * type->size : 0;
    for (size_t k = 0; k < type->blocks && rest > 0; k++) {
        const struct block *block = &type->block[k];
        size_t here = elements_of(block), taken = here && rest / here < block->count ? rest / here : block->count;
        bytes += taken * block->length;
        rest -= taken * here;
        if (taken == block->count || rest == 0) continue;
        return bytes + (block->of ? bytes_of(block->of, rest) : rest * block->element);
    }
    return bytes;
}

/* The basic elements in so many bytes of a type's data, or MPI_UNDEFINED where an element isn't whole. */
static MPI_Count elements_in(const struct type *type, size_t bytes) {
    size_t rest = type->size ? bytes % type->size : bytes, elements = type->size ? bytes / type->size * type->elements : 0;
    for (size_t k = 0; k < type->blocks && rest > 0; k++) {
        const struct block *block = &type->block[k];
        size_t taken = rest / block->length < block->count ? rest / block->length : block->count;
        elements += taken * elements_of(block);
        rest -= taken * block->length;
        if (taken == block->count || rest == 0) continue;
        MPI_Count part = block->of ? elements_in(block->of, rest) : rest % block->element ? MPI_UNDEFINED : (MPI_Count)(rest / block->element);
        return part == MPI_UNDEFINED ? MPI_UNDEFINED : (MPI_Count)elements + part;
    }
    return rest ? MPI_UNDEFINED : (MPI_Count)elements;
}

int MPI_Get_elements(const MPI_Status *status, MPI_Datatype type, int *count) {
    ENTER_LOOK(0, MPI_UNDEFINED, MPI_UNDEFINED);
    const struct type *of = um_type_at(type);
    if (!of) return um_fail(0, MPI_ERR_TYPE);
    WRITES(0, status && count);
    MPI_Count all = elements_in(of, status->bytes);
    *count = all > INT_MAX ? MPI_UNDEFINED : (int)all;
    return MPI_SUCCESS;
}

int MPI_Get_elements_x(const MPI_Status *status, MPI_Datatype type, MPI_Count *count) {
    ENTER_LOOK(0, MPI_UNDEFINED, MPI_UNDEFINED);
    const struct type *of = um_type_at(type);
    if (!of) return um_fail(0, MPI_ERR_TYPE);
    WRITES(0, status && count);
    *count = elements_in(of, status->bytes);
    return MPI_SUCCESS;
}

static int set_elements(MPI_Status *status, MPI_Datatype type, MPI_Count count) {
    const struct type *of = um_type_at(type);
    if (!of) return um_fail(0, MPI_ERR_TYPE);
    WRITES(0, status);
    if (count < 0) return um_fail(0, MPI_ERR_COUNT);
    status->bytes = bytes_of(of, (size_t)count);
    return MPI_SUCCESS;
}

int MPI_Status_set_elements(MPI_Status *status, MPI_Datatype type, int count) {
    ENTER_LOOK(0, MPI_UNDEFINED, MPI_UNDEFINED);
    return set_elements(status, type, count);
}

int MPI_Status_set_elements_x(MPI_Status *status, MPI_Datatype type, MPI_Count count) {
    ENTER_LOOK(0, MPI_UNDEFINED, MPI_UNDEFINED);
    return set_elements(status, type, count);
}

int MPI_Status_set_cancelled(MPI_Status *status, int flag) {
    ENTER_LOOK(0, MPI_UNDEFINED, MPI_UNDEFINED);
    WRITES(0, status);
    status->cancelled = flag != 0;
    return MPI_SUCCESS;
}

/* By the names of MPI 4.0. */
ALSO(MPI_Get_elements_c, MPI_Get_elements_x);
ALSO(MPI_Status_set_elements_c, MPI_Status_set_elements_x);
