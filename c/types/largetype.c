/* Datatypes by counts that an int doesn't hold (MPI 4.0, 2.5.8 and 5.1). */
#include "mpi/calls.h"
#include "types/types.h"
#include <stdlib.h>

/* Makes a type of pieces, and frees them. `aligns`: as a structure is. */
static int make(struct piece *pieces, MPI_Count count, bool aligns, MPI_Datatype *made) {
    struct type *type = 0;
    int code = pieces ? um_join(pieces, (size_t)count, &type) : MPI_ERR_NO_MEM;
    free(pieces);
    if (code == MPI_SUCCESS && aligns) code = um_align_type(type);
    if (code == MPI_SUCCESS) return um_add_type(type, made);
    if (type) um_free_type(type);
    return code;
}

/* Blocks of elements, as the call has them: lengths, or all of `length`; displacements in bytes, or in extents of the type; each of its own type where
   there are several. */
struct blocks {
    MPI_Count count, length;
    const MPI_Count *lengths, *displs;
    bool is_bytes, has_several;
    const MPI_Datatype *types;
};

/* Writes one of them; MPI_SUCCESS, or why there is no such one. */
static int cut(const struct blocks *blocks, MPI_Count k, struct piece *piece) {
    struct type *of = um_type_at(blocks->types[blocks->has_several ? k : 0]);
    MPI_Count length = blocks->lengths ? blocks->lengths[k] : blocks->length;
    ptrdiff_t at = (ptrdiff_t)blocks->displs[k];
    if (!of) return MPI_ERR_TYPE;
    if (length < 0 || (!blocks->is_bytes && __builtin_mul_overflow(at, extent_of(of), &at))) return MPI_ERR_ARG;
    *piece = (struct piece){(size_t)length, at, extent_of(of), of};
    return MPI_SUCCESS;
}

static int make_blocks(const struct blocks *blocks, MPI_Datatype *made) {
    int code = MPI_SUCCESS;
    if (blocks->count < 0) return MPI_ERR_COUNT;
    if (!made || !blocks->types || (blocks->count > 0 && !blocks->displs)) return MPI_ERR_ARG;
    struct piece *pieces = malloc(((size_t)blocks->count + 1) * sizeof *pieces);
    for (MPI_Count k = 0; pieces && k < blocks->count && code == MPI_SUCCESS; k++) code = cut(blocks, k, &pieces[k]);
    if (code == MPI_SUCCESS) return make(pieces, blocks->count, blocks->has_several, made);
    free(pieces);
    return code;
}

/* Blocks of one length and type, `stride` bytes or extents from one to the next. */
static int make_vector(MPI_Count count, MPI_Count length, MPI_Count stride, bool is_bytes, MPI_Datatype type, MPI_Datatype *made) {
    struct type *of = um_type_at(type), *row, *whole;
    ptrdiff_t step = (ptrdiff_t)stride;
    if (count < 0) return um_fail(0, MPI_ERR_COUNT);
    if (!of) return um_fail(0, MPI_ERR_TYPE);
    if (!made || length < 0 || (!is_bytes && __builtin_mul_overflow(step, extent_of(of), &step))) return um_fail(0, MPI_ERR_ARG);
    int code = um_join(&(struct piece){(size_t)length, 0, extent_of(of), of}, 1, &row);
    if (code != MPI_SUCCESS) return um_fail(0, code);
    code = um_join(&(struct piece){length ? (size_t)count : 0, 0, step, row}, 1, &whole);
    um_free_type(row);
    return um_answer(0, code == MPI_SUCCESS ? um_add_type(whole, made) : code);
}

int MPI_Type_contiguous_c(MPI_Count count, MPI_Datatype type, MPI_Datatype *made) {
    ENTER_LOOK(0, MPI_UNDEFINED, MPI_UNDEFINED);
    return make_vector(count, 1, 1, false, type, made);
}

int MPI_Type_vector_c(MPI_Count count, MPI_Count length, MPI_Count stride, MPI_Datatype type, MPI_Datatype *made) {
    ENTER_LOOK(0, MPI_UNDEFINED, MPI_UNDEFINED);
    return make_vector(count, length, stride, false, type, made);
}

int MPI_Type_create_hvector_c(MPI_Count count, MPI_Count length, MPI_Count stride, MPI_Datatype type, MPI_Datatype *made) {
    ENTER_LOOK(0, MPI_UNDEFINED, MPI_UNDEFINED);
    return make_vector(count, length, stride, true, type, made);
}

int MPI_Type_indexed_c(MPI_Count count, const MPI_Count lengths[], const MPI_Count displs[], MPI_Datatype type, MPI_Datatype *made) {
    ENTER_LOOK(0, MPI_UNDEFINED, MPI_UNDEFINED);
    WRITES(0, count <= 0 || lengths);
    return um_answer(0, make_blocks(&(struct blocks){.count = count, .lengths = lengths, .displs = displs, .types = &type}, made));
}

int MPI_Type_create_hindexed_c(MPI_Count count, const MPI_Count lengths[], const MPI_Count displs[], MPI_Datatype type, MPI_Datatype *made) {
    ENTER_LOOK(0, MPI_UNDEFINED, MPI_UNDEFINED);
    WRITES(0, count <= 0 || lengths);
    return um_answer(0, make_blocks(&(struct blocks){.count = count, .lengths = lengths, .displs = displs, .is_bytes = true, .types = &type}, made));
}

int MPI_Type_create_indexed_block_c(MPI_Count count, MPI_Count length, const MPI_Count displs[], MPI_Datatype type, MPI_Datatype *made) {
    ENTER_LOOK(0, MPI_UNDEFINED, MPI_UNDEFINED);
    return um_answer(0, make_blocks(&(struct blocks){.count = count, .length = length, .displs = displs, .types = &type}, made));
}

int MPI_Type_create_hindexed_block_c(MPI_Count count, MPI_Count length, const MPI_Count displs[], MPI_Datatype type, MPI_Datatype *made) {
    ENTER_LOOK(0, MPI_UNDEFINED, MPI_UNDEFINED);
    return um_answer(0, make_blocks(&(struct blocks){.count = count, .length = length, .displs = displs, .is_bytes = true, .types = &type}, made));
}

int MPI_Type_create_struct_c(MPI_Count count, const MPI_Count lengths[], const MPI_Count displs[], const MPI_Datatype types[], MPI_Datatype *made) {
    ENTER_LOOK(0, MPI_UNDEFINED, MPI_UNDEFINED);
    WRITES(0, count <= 0 || lengths);
    struct blocks blocks = {.count = count, .lengths = lengths, .displs = displs, .is_bytes = true, .types = types, .has_several = true};
    return um_answer(0, make_blocks(&blocks, made));
}

int MPI_Get_count_c(const MPI_Status *status, MPI_Datatype type, MPI_Count *count) {
    ENTER_LOOK(0, MPI_UNDEFINED, MPI_UNDEFINED);
    const struct type *of = um_type_at(type);
    if (!of) return um_fail(0, MPI_ERR_TYPE);
    WRITES(0, status && count);
    size_t whole = of->size ? status->bytes / of->size : 0;
    *count = whole * of->size == status->bytes ? (MPI_Count)whole : MPI_UNDEFINED;
    return MPI_SUCCESS;
}
