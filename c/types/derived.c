/* Derived datatypes (MPI 4.0, 5.1.2): each is made of pieces, several elements of another type in a row at a displacement. */
#include "mpi/calls.h"
#include "types/types.h"
#include <limits.h>
#include <stdlib.h>
#include <string.h>

/* Why a type of `count` pieces of one type can't be made, or MPI_SUCCESS. */
static int check(int count, MPI_Datatype of, const void *made) {
    if (count < 0) return MPI_ERR_COUNT;
    if (!um_type_at(of)) return MPI_ERR_TYPE;
    return made ? MPI_SUCCESS : MPI_ERR_ARG;
}

/* Makes the type of pieces, and its handle. */
static int make(const struct piece *pieces, size_t count, MPI_Datatype *made) {
    struct type *type;
    int code = um_join(pieces, count, &type);
    return code == MPI_SUCCESS ? um_add_type(type, made) : code;
}

static int contiguous(int count, MPI_Datatype of, MPI_Datatype *made) {
    int code = check(count, of, made);
    if (code != MPI_SUCCESS) return code;
    struct type *type = um_type_at(of);
    return make(&(struct piece){(size_t)count, 0, extent_of(type), type}, 1, made);
}

int MPI_Type_contiguous(int count, MPI_Datatype type, MPI_Datatype *made) {
    ENTER_LOOK(0, MPI_UNDEFINED, MPI_UNDEFINED);
    struct arguments arguments = {.combiner = MPI_COMBINER_CONTIGUOUS, .ints = {{1, &count}}, .types = 1, .type = &type};
    return um_answer(0, um_describe(contiguous(count, type, made), made, &arguments));
}

int MPI_Type_dup(MPI_Datatype type, MPI_Datatype *made) {
    ENTER_LOOK(0, MPI_UNDEFINED, MPI_UNDEFINED);
    struct arguments arguments = {.combiner = MPI_COMBINER_DUP, .types = 1, .type = &type};
    int code = um_describe(contiguous(1, type, made), made, &arguments);
    if (code != MPI_SUCCESS) return um_fail(0, code);
    um_type_at(*made)->is_committed = um_type_at(type)->is_committed;
    code = um_copy_type_attributes(type, *made);
    if (code == MPI_SUCCESS) return MPI_SUCCESS;
    um_drop_type(*made); /* a copy function failed: there is no duplicate (7.7.4) */
    *made = MPI_DATATYPE_NULL;
    return um_answer(0, code);
}

/* Blocks of one type: lengths in elements, or all of `length`; displacements in bytes (`at`), or in extents (`displs`). */
struct blocks {
    int count, length;
    const int *lengths, *displs;
    const MPI_Aint *at;
};

static int make_blocks(const struct blocks *blocks, MPI_Datatype of, MPI_Datatype *made) {
    int code = check(blocks->count, of, made);
    if (code != MPI_SUCCESS) return code;
    struct piece *pieces = malloc(((size_t)blocks->count + 1) * sizeof *pieces);
    struct type *type = um_type_at(of);
    if (!pieces) return MPI_ERR_NO_MEM;
    for (int k = 0; k < blocks->count && code == MPI_SUCCESS; k++) {
        int length = blocks->lengths ? blocks->lengths[k] : blocks->length;
        ptrdiff_t at = blocks->at ? blocks->at[k] : 0;
        bool is_over = !blocks->at && __builtin_mul_overflow(blocks->displs[k], extent_of(type), &at);
        pieces[k] = (struct piece){(size_t)length, at, extent_of(type), type};
        if (length < 0 || is_over) code = MPI_ERR_ARG;
    }
    if (code == MPI_SUCCESS) code = make(pieces, (size_t)blocks->count, made);
    free(pieces);
    return code;
}

/* As many blocks of one length, `stride` bytes from one to the next. */
static int vector(int count, int length, ptrdiff_t stride, MPI_Datatype of, MPI_Datatype *made) {
    struct type *row, *type = um_type_at(of);
    int code = check(count, of, made);
    if (code == MPI_SUCCESS && length < 0) code = MPI_ERR_ARG;
    if (code == MPI_SUCCESS) code = um_join(&(struct piece){(size_t)length, 0, extent_of(type), type}, 1, &row);
    if (code != MPI_SUCCESS) return code;
    code = make(&(struct piece){length ? (size_t)count : 0, 0, stride, row}, 1, made);
    um_free_type(row);
    return code;
}

int MPI_Type_vector(int count, int length, int stride, MPI_Datatype type, MPI_Datatype *made) {
    ENTER_LOOK(0, MPI_UNDEFINED, MPI_UNDEFINED);
    ptrdiff_t bytes = 0;
    if (um_type_at(type) && __builtin_mul_overflow(stride, extent_of(um_type_at(type)), &bytes)) return um_fail(0, MPI_ERR_ARG);
    struct arguments arguments = {MPI_COMBINER_VECTOR, {{1, &count}, {1, &length}, {1, &stride}}, 0, 0, 1, &type};
    return um_answer(0, um_describe(vector(count, length, bytes, type, made), made, &arguments));
}

int MPI_Type_create_hvector(int count, int length, MPI_Aint stride, MPI_Datatype type, MPI_Datatype *made) {
    ENTER_LOOK(0, MPI_UNDEFINED, MPI_UNDEFINED);
    struct arguments arguments = {MPI_COMBINER_HVECTOR, {{1, &count}, {1, &length}}, 1, &stride, 1, &type};
    return um_answer(0, um_describe(vector(count, length, stride, type, made), made, &arguments));
}

int MPI_Type_indexed(int count, const int lengths[], const int displs[], MPI_Datatype type, MPI_Datatype *made) {
    ENTER_LOOK(0, MPI_UNDEFINED, MPI_UNDEFINED);
    if (count > 0 && (!lengths || !displs)) return um_fail(0, MPI_ERR_ARG);
    struct blocks blocks = {.count = count, .lengths = lengths, .displs = displs};
    struct arguments arguments = {MPI_COMBINER_INDEXED, {{1, &count}, {count, lengths}, {count, displs}}, 0, 0, 1, &type};
    return um_answer(0, um_describe(make_blocks(&blocks, type, made), made, &arguments));
}

int MPI_Type_create_hindexed(int count, const int lengths[], const MPI_Aint displs[], MPI_Datatype type, MPI_Datatype *made) {
    ENTER_LOOK(0, MPI_UNDEFINED, MPI_UNDEFINED);
    if (count > 0 && (!lengths || !displs)) return um_fail(0, MPI_ERR_ARG);
    struct blocks blocks = {.count = count, .lengths = lengths, .at = displs};
    struct arguments arguments = {MPI_COMBINER_HINDEXED, {{1, &count}, {count, lengths}}, count, displs, 1, &type};
    return um_answer(0, um_describe(make_blocks(&blocks, type, made), made, &arguments));
}

int MPI_Type_create_indexed_block(int count, int length, const int displs[], MPI_Datatype type, MPI_Datatype *made) {
    ENTER_LOOK(0, MPI_UNDEFINED, MPI_UNDEFINED);
    if (count > 0 && !displs) return um_fail(0, MPI_ERR_ARG);
    struct blocks blocks = {.count = count, .length = length, .displs = displs};
    struct arguments arguments = {MPI_COMBINER_INDEXED_BLOCK, {{1, &count}, {1, &length}, {count, displs}}, 0, 0, 1, &type};
    return um_answer(0, um_describe(make_blocks(&blocks, type, made), made, &arguments));
}

int MPI_Type_create_hindexed_block(int count, int length, const MPI_Aint displs[], MPI_Datatype type, MPI_Datatype *made) {
    ENTER_LOOK(0, MPI_UNDEFINED, MPI_UNDEFINED);
    if (count > 0 && !displs) return um_fail(0, MPI_ERR_ARG);
    struct blocks blocks = {.count = count, .length = length, .at = displs};
    struct arguments arguments = {MPI_COMBINER_HINDEXED_BLOCK, {{1, &count}, {1, &length}}, count, displs, 1, &type};
    return um_answer(0, um_describe(make_blocks(&blocks, type, made), made, &arguments));
}

/* The upper bound of a structure is rounded up, so that the next one is aligned as C has it (5.1.6). */
int um_align_type(struct type *type) {
    ptrdiff_t most = type->alignment && type->alignment <= _Alignof(max_align_t) ? (ptrdiff_t)type->alignment : 1, rest = extent_of(type) % most;
    ptrdiff_t upper = type->upper;
    if (!type->has_upper && rest && __builtin_add_overflow(upper, most - rest, &upper)) return MPI_ERR_ARG;
    return um_set_bounds(type, type->lower, upper);
}

int MPI_Type_create_struct(int count, const int lengths[], const MPI_Aint displs[], const MPI_Datatype types[], MPI_Datatype *made) {
    ENTER_LOOK(0, MPI_UNDEFINED, MPI_UNDEFINED);
    if (count < 0) return um_fail(0, MPI_ERR_COUNT);
    if (!made || (count > 0 && (!lengths || !displs || !types))) return um_fail(0, MPI_ERR_ARG);
    struct piece *pieces = malloc(((size_t)count + 1) * sizeof *pieces);
    int code = pieces ? MPI_SUCCESS : MPI_ERR_NO_MEM;
    for (int k = 0; k < count && code == MPI_SUCCESS; k++) {
        struct type *of = um_type_at(types[k]);
        pieces[k] = (struct piece){(size_t)lengths[k], displs[k], of ? extent_of(of) : 0, of};
        if (!of) code = MPI_ERR_TYPE;
        else if (lengths[k] < 0) code = MPI_ERR_ARG;
    }
    struct type *type = 0;
    MPI_Datatype handle = MPI_DATATYPE_NULL; /* `made` may be one of `types` */
    if (code == MPI_SUCCESS) code = um_join(pieces, (size_t)count, &type);
    if (code == MPI_SUCCESS) code = um_align_type(type);
    if (code == MPI_SUCCESS) code = um_add_type(type, &handle);
    else if (type) um_free_type(type);
    free(pieces);
    struct arguments arguments = {MPI_COMBINER_STRUCT, {{1, &count}, {count, lengths}}, count, displs, count, types};
    code = um_describe(code, &handle, &arguments);
    if (code == MPI_SUCCESS) *made = handle;
    return um_answer(0, code);
}

int MPI_Type_create_resized(MPI_Datatype type, MPI_Aint lower, MPI_Aint extent, MPI_Datatype *made) {
    ENTER_LOOK(0, MPI_UNDEFINED, MPI_UNDEFINED);
    struct arguments arguments = {
        .combiner = MPI_COMBINER_RESIZED, .addresses = 2, .address = (MPI_Aint[]){lower, extent}, .types = 1, .type = &type};
    struct type *sized;
    int code = check(0, type, made);
    if (code == MPI_SUCCESS) code = um_resize(um_type_at(type), lower, extent, &sized);
    if (code == MPI_SUCCESS) code = um_add_type(sized, made);
    return um_answer(0, um_describe(code, made, &arguments));
}

/* MPI_Count is as wide as MPI_Aint. */
int MPI_Type_create_resized_c(MPI_Datatype type, MPI_Count lower, MPI_Count extent, MPI_Datatype *made) {
    return MPI_Type_create_resized(type, (MPI_Aint)lower, (MPI_Aint)extent, made);
}

/* Of MPI-1 (17.1). */
ALSO(MPI_Type_struct, MPI_Type_create_struct);
ALSO(MPI_Type_hindexed, MPI_Type_create_hindexed);
ALSO(MPI_Type_hvector, MPI_Type_create_hvector);
