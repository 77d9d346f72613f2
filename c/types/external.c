/* Data in the form "external32" (MPI 4.0, 5.3 and 14.5.2): the highest byte first, integers and numbers of fixed lengths, whatever the machine. */
#include "mpi/calls.h"
#include "mpi/large.h"
#include <limits.h>
#include <string.h>

/* A number of 16 bytes (IEEE 754). */
#if __LDBL_MANT_DIG__ == 113
typedef long double quad;
#else
typedef __float128 quad;
#endif

struct turning {
    char *memory, *packed;
    bool is_out;
};

/* Turns the bytes of one number, here `size` of them, in the order of this machine or of the form. */
static void turn(char *own, char *other, size_t size, bool is_out) {
    bool is_small_first = __BYTE_ORDER__ == __ORDER_LITTLE_ENDIAN__;
    for (size_t k = 0; k < size; k++) {
        size_t at = is_small_first ? size - 1 - k : k;
        if (is_out) other[k] = own[at];
        else own[at] = other[k];
    }
}

static void turn_quad(char *own, char *other, bool is_out) {
    long double number;
    quad wide;
    if (is_out) {
        memcpy(&number, own, sizeof number);
        wide = number;
    }
    turn((char *)&wide, other, sizeof wide, is_out);
    if (is_out) return;
    number = (long double)wide;
    memcpy(own, &number, sizeof number);
}

/* An integer of half the bytes: what it loses is its upper half (MPI_LONG has 4 bytes there). */
static void turn_half(char *own, char *other, size_t size, bool has_sign, bool is_out) {
    bool is_small_first = __BYTE_ORDER__ == __ORDER_LITTLE_ENDIAN__;
    char *low = is_small_first ? own : own + size / 2, *high = is_small_first ? own + size / 2 : own;
    turn(low, other, size / 2, is_out);
    if (!is_out) memset(high, has_sign && other[0] & 0x80 ? 0xff : 0, size / 2);
}

static bool turn_run(void *of, ptrdiff_t at, const struct block *block) {
    struct turning *turning = of;
    bool is_half = block->external == HALF || block->external == UNSIGNED_HALF;
    size_t own = block->alignment, other = is_half ? own / 2 : block->external == QUAD ? 16 : own;
    for (size_t k = 0; k < block->length; k += own, turning->packed += other) {
        char *place = turning->memory + at + k;
        if (block->external == QUAD) turn_quad(place, turning->packed, turning->is_out);
        else if (is_half) turn_half(place, turning->packed, own, block->external == HALF, turning->is_out);
        else turn(place, turning->packed, own, turning->is_out);
    }
    return true;
}

/* Why they can't be packed or unpacked at a position, or MPI_SUCCESS; and how many bytes they are in the form. */
static int check(const char *form, const struct packing *of, MPI_Count position, size_t *bytes) {
    int code;
    if (!form || of->room < 0 || position < 0) return MPI_ERR_ARG;
    if (strcmp(form, "external32")) return MPI_ERR_UNSUPPORTED_DATAREP;
    const struct type *type = um_check_type(um_small(of->count), of->type, bytes, &code);
    if (!type) return code;
    if (__builtin_mul_overflow((size_t)of->count, type->external, bytes)) return MPI_ERR_COUNT;
    if (!um_is_buffer(of->buffer, *bytes, of->type) || !um_is_buffer(of->packed, *bytes, MPI_PACKED)) return MPI_ERR_BUFFER;
    return position > of->room || *bytes > (size_t)(of->room - position) ? MPI_ERR_TRUNCATE : MPI_SUCCESS;
}

/* What is done with the data: they are counted, packed or unpacked. */
enum what { SIZE, OUT, IN };

/* Does it at a position, and moves that on. */
static int pack(const char *form, struct packing of, MPI_Count *position, enum what what) {
    struct large large = {0};
    size_t bytes = 0;
    um_hold_count(&large, &of.count, &of.type);
    int code = large.code == MPI_SUCCESS ? check(form, &of, *position, &bytes) : large.code;
    if (code == MPI_SUCCESS && what != SIZE) {
        struct type *type = um_type_at(of.type);
        struct turning turning = {of.buffer, of.packed + *position, what == OUT};
        for (int k = 0; k < um_small(of.count); k++) um_each_run(type, k * extent_of(type), turn_run, &turning);
    }
    if (code == MPI_SUCCESS) *position += (MPI_Count)bytes;
    return um_end_large(&large, code);
}

int MPI_Pack_external_c(const char form[], const void *buffer, MPI_Count count, MPI_Datatype type, void *packed, MPI_Count room,
                        MPI_Count *position) {
    ENTER_LOOK(0, MPI_UNDEFINED, MPI_UNDEFINED);
    WRITES(0, position);
    return um_answer(0, pack(form, (struct packing){(void *)(uintptr_t)buffer, count, type, packed, room}, position, OUT));
}

int MPI_Unpack_external_c(const char form[], const void *packed, MPI_Count room, MPI_Count *position, void *buffer, MPI_Count count,
                          MPI_Datatype type) {
    ENTER_LOOK(0, MPI_UNDEFINED, MPI_UNDEFINED);
    WRITES(0, position);
    return um_answer(0, pack(form, (struct packing){buffer, count, type, (char *)(uintptr_t)packed, room}, position, IN));
}

int MPI_Pack_external_size_c(const char form[], MPI_Count count, MPI_Datatype type, MPI_Count *size) {
    MPI_Count bytes = 0;
    ENTER_LOOK(0, MPI_UNDEFINED, MPI_UNDEFINED);
    int code = pack(form, (struct packing){&bytes, count, type, (char *)&bytes, LLONG_MAX}, &bytes, SIZE);
    if (code != MPI_SUCCESS) return um_fail(0, code);
    WRITES(0, size);
    *size = bytes;
    return MPI_SUCCESS;
}

/* An MPI_Aint and an MPI_Count hold the same numbers. */
int MPI_Pack_external(const char form[], const void *buffer, int count, MPI_Datatype type, void *packed, MPI_Aint room, MPI_Aint *position) {
    MPI_Count at = position ? *position : -1;
    ENTER_LOOK(0, MPI_UNDEFINED, MPI_UNDEFINED);
    int code = pack(form, (struct packing){(void *)(uintptr_t)buffer, count, type, packed, room}, &at, OUT);
    if (code == MPI_SUCCESS) *position = (MPI_Aint)at;
    return um_answer(0, code);
}

int MPI_Unpack_external(const char form[], const void *packed, MPI_Aint room, MPI_Aint *position, void *buffer, int count, MPI_Datatype type) {
    MPI_Count at = position ? *position : -1;
    ENTER_LOOK(0, MPI_UNDEFINED, MPI_UNDEFINED);
    int code = pack(form, (struct packing){buffer, count, type, (char *)(uintptr_t)packed, room}, &at, IN);
    if (code == MPI_SUCCESS) *position = (MPI_Aint)at;
    return um_answer(0, code);
}

int MPI_Pack_external_size(const char form[], int count, MPI_Datatype type, MPI_Aint *size) {
    MPI_Count bytes = 0;
    ENTER_LOOK(0, MPI_UNDEFINED, MPI_UNDEFINED);
    int code = pack(form, (struct packing){&bytes, count, type, (char *)&bytes, LLONG_MAX}, &bytes, SIZE);
    if (code != MPI_SUCCESS) return um_fail(0, code);
    WRITES(0, size);
    *size = (MPI_Aint)bytes;
    return MPI_SUCCESS;
}
