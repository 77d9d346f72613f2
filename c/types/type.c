/* Datatypes (MPI 4.0, 3.2.2 and 5.1): what a type is, its handle, sizes and counts. derived.c makes new ones, pack.c moves their data. */
#include "mpi/calls.h"
#include "progress/progress.h"
#include "types/types.h"
#include <limits.h>
#include <stdlib.h>
#include <string.h>
#include <wchar.h>

enum { FIRST_PAIR = 30, FIRST_COMPLEX = 36, LOWER_MARK = 39, UPPER_MARK = 40, FIRST_OF_FORTRAN = 41, BASIC = BASIC_TYPES };

/* clang-format off */
#define PAIR(first, second) {sizeof(first), sizeof(struct { first value; second place; }), sizeof(second)}
static const size_t sizes[FIRST_PAIR] = {0, 1, 1, 1, 1, 1, sizeof(short), sizeof(short), sizeof(int), sizeof(int), sizeof(long), sizeof(long),
                                         sizeof(long long), sizeof(long long), sizeof(float), sizeof(double), sizeof(long double), sizeof(wchar_t),
                                         sizeof(_Bool), 1, 2, 4, 8, 1, 2, 4, 8, sizeof(MPI_Aint), sizeof(MPI_Offset), sizeof(MPI_Count)};
/* clang-format on */
/* Of pairs (6.9.4): the bytes of the value, of the pair in memory, and of the place; behind those of C two of Fortran. */
struct pair {
    size_t value, whole, place;
};
static const struct pair pairs[FIRST_COMPLEX - FIRST_PAIR + BASIC - FIRST_OF_FORTRAN] = {
    PAIR(float, int), PAIR(double, int),      PAIR(long, int),    PAIR(int, int),
    PAIR(short, int), PAIR(long double, int), PAIR(float, float), PAIR(double, double)};
static const size_t parts_of_complex[LOWER_MARK - FIRST_COMPLEX] = {sizeof(float), sizeof(double), sizeof(long double)};
struct type um_basic_types[BASIC];
static struct block basic_blocks[BASIC][2];

static struct block block_at(size_t at, size_t element, size_t alignment, enum external external) {
    return (struct block){(ptrdiff_t)at, 1, 0, 0, element, (uint32_t)element, (uint32_t)alignment, external};
}

/* Of the value of a type (14.5.2). */
static enum external external_of(uintptr_t number) {
    MPI_Datatype type = (MPI_Datatype)number;
    if (type == MPI_LONG || type == MPI_LONG_INT) return sizeof(long) == 8 ? HALF : SAME;
    if (type == MPI_UNSIGNED_LONG) return sizeof(long) == 8 ? UNSIGNED_HALF : SAME;
    if (type == MPI_WCHAR) return sizeof(wchar_t) == 4 ? UNSIGNED_HALF : SAME;
    return type == MPI_LONG_DOUBLE || type == MPI_LONG_DOUBLE_INT || type == MPI_C_LONG_DOUBLE_COMPLEX ? QUAD : SAME;
}

static const struct pair *pair_at(int number) {
    if (number >= FIRST_OF_FORTRAN) return &pairs[FIRST_COMPLEX - FIRST_PAIR + number - FIRST_OF_FORTRAN];
    return number >= FIRST_PAIR && number < FIRST_COMPLEX ? &pairs[number - FIRST_PAIR] : 0;
}

static void make_basic(int number) {
    struct block *block = basic_blocks[number];
    const struct pair *pair = pair_at(number);
    bool is_complex = number >= FIRST_COMPLEX && !pair;
    size_t part = is_complex ? parts_of_complex[number - FIRST_COMPLEX] : pair ? pair->value : sizes[number], place = pair ? pair->place : 0;
    size_t first = is_complex ? 2 * part : part, whole = pair ? pair->whole : first;
    enum external external = external_of((uintptr_t)number);
    block[0] = block_at(0, first, part, external);
    block[1] = block_at(first < place ? place : first, place, place, SAME);
    um_basic_types[number] = (struct type){.users = 1,
                                           .is_committed = true,
                                           .is_basic = true,
                                           .is_plain = first + place == whole,
                                           .size = first + place,
                                           .upper = (ptrdiff_t)whole,
                                           .blocks = pair ? 2 : 1,
                                           .elements = pair ? 2 : 1,
                                           .most = pair ? block[1].at + (ptrdiff_t)place : (ptrdiff_t)first,
                                           .alignment = (uint32_t)(part < place ? place : part),
                                           .external = (external == HALF || external == UNSIGNED_HALF ? first / 2
                                                        : external == QUAD                            ? first / part * 16
                                                                                                      : first) +
                                                       place,
                                           .block = block,
                                           .base = (MPI_Datatype)(uintptr_t)number};
}

/* Before any program asks for them. */
static void __attribute__((constructor)) make_basics(void) {
    for (int k = 1; k < BASIC; k++)
        if (k < LOWER_MARK || k > UPPER_MARK) make_basic(k);
    for (int k = LOWER_MARK; k <= UPPER_MARK; k++)
        um_basic_types[k] = (struct type){.users = 1,
                                          .is_committed = true,
                                          .is_basic = true,
                                          .is_plain = true,
                                          .alignment = 1,
                                          .has_lower = k == LOWER_MARK,
                                          .has_upper = k == UPPER_MARK};
}

void um_free_type(struct type *type) {
    if (type->is_basic || --type->users > 0) return;
    for (size_t k = 0; k < type->blocks; k++)
        if (type->block[k].of) um_free_type(type->block[k].of);
    free(type->block);
    um_free_recipe(type->recipe);
    um_free_attributes(type->attributes);
    free(type);
}

MPI_Datatype um_handle_of_basic(const struct type *type) { return (MPI_Datatype)(uintptr_t)(type - um_basic_types); }

int um_add_type(struct type *type, MPI_Datatype *made) {
    int place = 0;
    if (!type) return MPI_ERR_NO_MEM;
    while (place < um_me->mpi.type_count && um_me->mpi.types[place]) place++;
    if (place == um_me->mpi.type_count) {
        if (!um_grow(&um_me->mpi.types, place, sizeof *um_me->mpi.types)) {
            um_free_type(type);
            return MPI_ERR_NO_MEM;
        }
        um_me->mpi.type_count++;
    }
    um_me->mpi.types[place] = type;
    *made = (MPI_Datatype)(uintptr_t)(FIRST_OWN_TYPE + place);
    if (!type->handle) type->handle = *made;
    return MPI_SUCCESS;
}

/* Another handle of a type, which stays when the program frees its own; MPI_DATATYPE_NULL where there is no memory. */
MPI_Datatype um_keep_type(MPI_Datatype handle) {
    struct type *type = um_type_at(handle);
    MPI_Datatype kept = MPI_DATATYPE_NULL;
    if (type->is_basic) return handle;
    type->users++;
    return um_add_type(type, &kept) == MPI_SUCCESS ? kept : MPI_DATATYPE_NULL;
}

void um_drop_type(MPI_Datatype handle) {
    struct type *type = um_type_at(handle);
    if (!type || type->is_basic) return;
    um_me->mpi.types[(uintptr_t)handle - FIRST_OWN_TYPE] = 0;
    um_free_type(type);
}

bool um_is_basic_type(MPI_Datatype handle) {
    const struct type *type = um_type_at(handle);
    return type && type->is_basic;
}

bool um_check_buffer(int count, MPI_Datatype type, size_t *bytes, int *code) { return um_check_type(count, type, bytes, code) != 0; }

int MPI_Type_size(MPI_Datatype type, int *size) {
    ENTER_LOOK(0, MPI_UNDEFINED, MPI_UNDEFINED);
    const struct type *of = um_type_at(type);
    if (!of) return um_fail(0, MPI_ERR_TYPE);
    WRITES(0, size);
    *size = of->size > INT_MAX ? MPI_UNDEFINED : (int)of->size;
    return MPI_SUCCESS;
}

/* Where what a type takes begins, and how many bytes that is: of its extent, or of its data alone (5.1.7, 5.1.8). */
static int tell_extent(MPI_Datatype type, bool is_true, bool has_room, MPI_Count *lower, MPI_Count *extent) {
    const struct type *of = um_type_at(type);
    if (!of) return um_fail(0, MPI_ERR_TYPE);
    WRITES(0, has_room);
    ptrdiff_t least = of->lower, most = least + extent_of(of);
    if (is_true) least = of->least, most = of->most;
    *lower = least;
    *extent = most - least;
    return MPI_SUCCESS;
}

int MPI_Type_get_extent(MPI_Datatype type, MPI_Aint *lower, MPI_Aint *extent) {
    ENTER_LOOK(0, MPI_UNDEFINED, MPI_UNDEFINED);
    MPI_Count from = 0, bytes = 0;
    int code = tell_extent(type, false, lower && extent, &from, &bytes);
    if (code != MPI_SUCCESS) return code;
    *lower = (MPI_Aint)from;
    *extent = (MPI_Aint)bytes;
    return MPI_SUCCESS;
}

int MPI_Type_get_true_extent(MPI_Datatype type, MPI_Aint *lower, MPI_Aint *extent) {
    ENTER_LOOK(0, MPI_UNDEFINED, MPI_UNDEFINED);
    MPI_Count from = 0, bytes = 0;
    int code = tell_extent(type, true, lower && extent, &from, &bytes);
    if (code != MPI_SUCCESS) return code;
    *lower = (MPI_Aint)from;
    *extent = (MPI_Aint)bytes;
    return MPI_SUCCESS;
}

int MPI_Type_size_x(MPI_Datatype type, MPI_Count *size) {
    ENTER_LOOK(0, MPI_UNDEFINED, MPI_UNDEFINED);
    const struct type *of = um_type_at(type);
    if (!of) return um_fail(0, MPI_ERR_TYPE);
    WRITES(0, size);
    *size = (MPI_Count)of->size;
    return MPI_SUCCESS;
}

int MPI_Type_get_extent_x(MPI_Datatype type, MPI_Count *lower, MPI_Count *extent) {
    ENTER_LOOK(0, MPI_UNDEFINED, MPI_UNDEFINED);
    return tell_extent(type, false, lower && extent, lower, extent);
}

int MPI_Type_get_true_extent_x(MPI_Datatype type, MPI_Count *lower, MPI_Count *extent) {
    ENTER_LOOK(0, MPI_UNDEFINED, MPI_UNDEFINED);
    return tell_extent(type, true, lower && extent, lower, extent);
}

/* Of MPI-1 (17.1). */
int MPI_Type_extent(MPI_Datatype type, MPI_Aint *extent) {
    ENTER_LOOK(0, MPI_UNDEFINED, MPI_UNDEFINED);
    MPI_Count lower = 0, bytes = 0;
    int code = tell_extent(type, false, extent, &lower, &bytes);
    if (code == MPI_SUCCESS) *extent = (MPI_Aint)bytes;
    return code;
}

int MPI_Type_lb(MPI_Datatype type, MPI_Aint *lower) {
    ENTER_LOOK(0, MPI_UNDEFINED, MPI_UNDEFINED);
    MPI_Count from = 0, bytes = 0;
    int code = tell_extent(type, false, lower, &from, &bytes);
    if (code == MPI_SUCCESS) *lower = (MPI_Aint)from;
    return code;
}

int MPI_Type_ub(MPI_Datatype type, MPI_Aint *upper) {
    ENTER_LOOK(0, MPI_UNDEFINED, MPI_UNDEFINED);
    MPI_Count from = 0, bytes = 0;
    int code = tell_extent(type, false, upper, &from, &bytes);
    if (code == MPI_SUCCESS) *upper = (MPI_Aint)(from + bytes);
    return code;
}

int MPI_Type_commit(MPI_Datatype *type) {
    ENTER_LOOK(0, MPI_UNDEFINED, MPI_UNDEFINED);
    struct type *of = type ? um_type_at(*type) : 0;
    if (!of) return um_fail(0, MPI_ERR_TYPE);
    if (!of->is_basic) of->is_committed = true;
    return MPI_SUCCESS;
}

/* Receives that are open keep what they need of it (5.1.9). */
int MPI_Type_free(MPI_Datatype *type) {
    ENTER_LOOK(0, MPI_UNDEFINED, MPI_UNDEFINED);
    struct type *of = type ? um_type_at(*type) : 0;
    if (!of || of->is_basic) return um_fail(0, MPI_ERR_TYPE);
    int code = of->handle == *type ? um_delete_type_attributes(*type) : MPI_SUCCESS;
    if (code != MPI_SUCCESS) return um_fail(0, code);
    um_drop_type(*type);
    *type = MPI_DATATYPE_NULL;
    return MPI_SUCCESS;
}

int MPI_Get_count(const MPI_Status *status, MPI_Datatype type, int *count) {
    ENTER_LOOK(0, MPI_UNDEFINED, MPI_UNDEFINED);
    const struct type *of = um_type_at(type);
    if (!of) return um_fail(0, MPI_ERR_TYPE);
    WRITES(0, status && count);
    size_t bytes = status->bytes, whole = of->size ? bytes / of->size : 0;
    *count = whole * of->size == bytes && whole <= INT_MAX ? (int)whole : MPI_UNDEFINED;
    return MPI_SUCCESS;
}

/* The first type of a class that has so many bytes, in the order of sizes (19.1.9). */
int MPI_Type_match_size(int typeclass, int size, MPI_Datatype *type) {
    static const MPI_Datatype classes[][4] = {{MPI_FLOAT, MPI_DOUBLE, MPI_LONG_DOUBLE},
                                              {MPI_INT8_T, MPI_INT16_T, MPI_INT32_T, MPI_INT64_T},
                                              {MPI_C_FLOAT_COMPLEX, MPI_C_DOUBLE_COMPLEX, MPI_C_LONG_DOUBLE_COMPLEX}};
    ENTER_LOOK(0, MPI_UNDEFINED, MPI_UNDEFINED);
    WRITES(0, type);
    for (int k = 0; k < 4 && typeclass >= MPI_TYPECLASS_REAL && typeclass <= MPI_TYPECLASS_COMPLEX; k++) {
        MPI_Datatype found = classes[typeclass - MPI_TYPECLASS_REAL][k];
        if (found && um_type_at(found)->size == (size_t)size) {
            *type = found;
            return MPI_SUCCESS;
        }
    }
    return um_fail(0, MPI_ERR_ARG);
}

void um_clear_types(void) {
    for (int k = 0; k < um_me->mpi.type_count; k++)
        if (um_me->mpi.types[k]) um_free_type(um_me->mpi.types[k]);
    um_clear_basic_attributes();
    free(um_me->mpi.types);
    free(um_me->mpi.type_names);
    um_me->mpi.types = 0;
    um_me->mpi.type_names = 0;
    um_me->mpi.type_count = 0;
}

/* By the names of MPI 4.0. */
ALSO(MPI_Type_size_c, MPI_Type_size_x);
ALSO(MPI_Type_get_extent_c, MPI_Type_get_extent_x);
ALSO(MPI_Type_get_true_extent_c, MPI_Type_get_true_extent_x);
