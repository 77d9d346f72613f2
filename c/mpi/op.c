/* Operations of reductions (MPI 4.0, 6.9). */
#include "mpi/calls.h"
#include "progress/progress.h"
#include "windows/windows.h"
#include <stdlib.h>
#include <string.h>
#include <wchar.h>

/* What a program folds by: a function that has the count as an int, or as an MPI_Count. */
struct op {
    MPI_User_function *function;
    bool commutes;
    MPI_User_function_c *large;
};
enum { FIRST_OWN = 32, LAST_BASIC = 14 };

static const struct op *own_at(MPI_Op op) {
    uintptr_t number = (uintptr_t)op;
    if (number < FIRST_OWN || number - FIRST_OWN >= (uintptr_t)um_me->mpi.op_count) return 0;
    const struct op *own = &um_me->mpi.ops[number - FIRST_OWN];
    return own->function || own->large ? own : 0;
}

bool um_is_basic_op(MPI_Op op) { return (uintptr_t)op && (uintptr_t)op <= LAST_BASIC; }

bool um_is_op(MPI_Op op) { return um_is_basic_op(op) || own_at(op); }

/* clang-format off */
#define EACH(operation) \
    for (int k = 0; k < count; k++) operation; \
    return true

/* The operations of numbers of one C type: b[k] becomes a[k] op b[k]. False where it isn't one for this type. */
#define SUMS(T) \
    case 1: EACH(b[k] = (T)(a[k] + b[k])); \
    case 2: EACH(b[k] = (T)(a[k] * b[k]));
#define ARITHMETIC(T) SUMS(T) \
    case 3: EACH(if (a[k] > b[k]) b[k] = a[k]); \
    case 4: EACH(if (a[k] < b[k]) b[k] = a[k]);
#define LOGICAL(T) \
    case 5: EACH(b[k] = (T)(a[k] && b[k])); \
    case 6: EACH(b[k] = (T)(a[k] || b[k])); \
    case 7: EACH(b[k] = (T)(!a[k] != !b[k]));
#define BITWISE(T) \
    case 8: EACH(b[k] = (T)(a[k] & b[k])); \
    case 9: EACH(b[k] = (T)(a[k] | b[k])); \
    case 10: EACH(b[k] = (T)(a[k] ^ b[k]));
#define FOLD(name, T, operations) \
    static bool name(const void *in, void *into, int count, int op) { \
        const T *a = in; \
        T *b = into; \
        switch (op) { operations default: return false; } \
    }
#define INTEGER(name, T) FOLD(name, T, ARITHMETIC(T) LOGICAL(T) BITWISE(T))

INTEGER(fold_char, signed char)
INTEGER(fold_uchar, unsigned char)
INTEGER(fold_short, short)
INTEGER(fold_ushort, unsigned short)
INTEGER(fold_int, int)
INTEGER(fold_uint, unsigned)
INTEGER(fold_long, long)
INTEGER(fold_ulong, unsigned long)
INTEGER(fold_llong, long long)
INTEGER(fold_ullong, unsigned long long)
FOLD(fold_float, float, ARITHMETIC(float))
FOLD(fold_double, double, ARITHMETIC(double))
FOLD(fold_ldouble, long double, ARITHMETIC(long double))
FOLD(fold_cfloat, float _Complex, SUMS(float _Complex))
FOLD(fold_cdouble, double _Complex, SUMS(double _Complex))
FOLD(fold_cldouble, long double _Complex, SUMS(long double _Complex))
FOLD(fold_bool, _Bool, LOGICAL(_Bool))
FOLD(fold_byte, unsigned char, BITWISE(unsigned char))

/* MAXLOC and MINLOC (6.9.4): the value, and the least of the places where it is. */
#define LOCATE(name, T, P) \
    static bool name(const void *in, void *into, int count, int op) { \
        const struct { T value; P place; } *a = in; \
        struct { T value; P place; } *b = into; \
        if (op != 11 && op != 12) return false; \
        for (int k = 0; k < count; k++) { \
            bool wins = op == 11 ? a[k].value > b[k].value : a[k].value < b[k].value; \
            if (wins || (a[k].value == b[k].value && a[k].place < b[k].place)) memcpy(&b[k], &a[k], sizeof b[k]); \
        } \
        return true; \
    }

LOCATE(locate_float, float, int)
LOCATE(locate_double, double, int)
LOCATE(locate_long, long, int)
LOCATE(locate_int, int, int)
LOCATE(locate_short, short, int)
LOCATE(locate_ldouble, long double, int)
LOCATE(locate_reals, float, float)
LOCATE(locate_doubles, double, double)

typedef bool folding(const void *, void *, int, int);
static folding *const foldings[] = {
    0, fold_char, fold_char, fold_uchar, fold_byte, 0, fold_short, fold_ushort, fold_int, fold_uint, fold_long, fold_ulong, fold_llong,
    fold_ullong, fold_float, fold_double, fold_ldouble, 0, fold_bool, fold_char, fold_short, fold_int, fold_long, fold_uchar,
    fold_ushort, fold_uint, fold_ulong, fold_long, fold_llong, fold_llong, locate_float, locate_double, locate_long, locate_int,
    locate_short, locate_ldouble, fold_cfloat, fold_cdouble, fold_cldouble, 0, 0, locate_reals, locate_doubles,
};
/* clang-format on */

/* Whether the operation is one for this type: MPI_SUCCESS, MPI_ERR_OP or MPI_ERR_TYPE. Those of MPI are for basic types alone (6.9.2); MPI_REPLACE
   and MPI_NO_OP are for one-sided calls. */
int um_check_op(MPI_Op op, MPI_Datatype type) {
    uintptr_t base = (uintptr_t)type;
    if (own_at(op)) return type ? MPI_SUCCESS : MPI_ERR_TYPE;
    bool is_basic = base < sizeof foldings / sizeof *foldings && foldings[base];
    return is_basic && um_is_op(op) && foldings[base](0, 0, 0, (int)(uintptr_t)op) ? MPI_SUCCESS : MPI_ERR_OP;
}

/* into[k] becomes in[k] op into[k], where the operation is one for this type. A program's function may take it that there is an element, as with
   MPICH and Open MPI, so for none it isn't called. */
int um_fold(const void *in, void *into, int count, MPI_Datatype type, MPI_Op op) {
    const struct op *own = own_at(op);
    if (count == 0) return MPI_SUCCESS;
    if (own && own->large) own->large((void *)(uintptr_t)in, into, &(MPI_Count){count}, &type);
    else if (own) own->function((void *)(uintptr_t)in, into, &count, &type);
    else return foldings[(uintptr_t)type](in, into, count, (int)(uintptr_t)op) ? MPI_SUCCESS : MPI_ERR_OP;
    return MPI_SUCCESS;
}

/* A handle of an operation, or MPI_OP_NULL where there is no memory. */
static MPI_Op add_op(struct op op) {
    int place = 0;
    while (place < um_me->mpi.op_count && (um_me->mpi.ops[place].function || um_me->mpi.ops[place].large)) place++;
    if (place == um_me->mpi.op_count) {
        if (!um_grow(&um_me->mpi.ops, place, sizeof *um_me->mpi.ops)) return MPI_OP_NULL;
        um_me->mpi.op_count++;
    }
    um_me->mpi.ops[place] = op;
    return (MPI_Op)(uintptr_t)(FIRST_OWN + place);
}

/* Another handle of an operation, which stays when the program frees its own (6.9.5); MPI_OP_NULL where there is no memory. */
MPI_Op um_keep_op(MPI_Op op) { return own_at(op) ? add_op(*own_at(op)) : op; }

void um_drop_op(MPI_Op op) {
    if (own_at(op)) um_me->mpi.ops[(uintptr_t)op - FIRST_OWN] = (struct op){0};
}

int MPI_Op_create(MPI_User_function *function, int commutes, MPI_Op *op) {
    ENTER_LOOK(0, MPI_UNDEFINED, MPI_UNDEFINED);
    WRITES(0, function && op);
    *op = add_op((struct op){function, commutes != 0, 0});
    return *op == MPI_OP_NULL ? um_fail(0, MPI_ERR_NO_MEM) : MPI_SUCCESS;
}

int MPI_Op_create_c(MPI_User_function_c *function, int commutes, MPI_Op *op) {
    ENTER_LOOK(0, MPI_UNDEFINED, MPI_UNDEFINED);
    WRITES(0, function && op);
    *op = add_op((struct op){0, commutes != 0, function});
    return *op == MPI_OP_NULL ? um_fail(0, MPI_ERR_NO_MEM) : MPI_SUCCESS;
}

int MPI_Op_free(MPI_Op *op) {
    ENTER_LOOK(0, MPI_UNDEFINED, MPI_UNDEFINED);
    if (!op || !own_at(*op)) return um_fail(0, MPI_ERR_OP);
    um_drop_op(*op);
    *op = MPI_OP_NULL;
    return MPI_SUCCESS;
}

int MPI_Op_commutative(MPI_Op op, int *commutes) {
    ENTER_LOOK(0, MPI_UNDEFINED, MPI_UNDEFINED);
    if (!um_is_op(op)) return um_fail(0, MPI_ERR_OP);
    WRITES(0, commutes);
    *commutes = own_at(op) ? own_at(op)->commutes : op != MPI_REPLACE;
    return MPI_SUCCESS;
}

int MPI_Reduce_local(const void *inbuf, void *inoutbuf, int count, MPI_Datatype type, MPI_Op op) {
    ENTER_LOOK(0, MPI_UNDEFINED, MPI_UNDEFINED);
    size_t bytes;
    int code = um_check_op(op, type);
    if (code != MPI_SUCCESS || !um_check_buffer(count, type, &bytes, &code)) return um_fail(0, code);
    if (!um_is_buffer(inbuf, bytes, type) || !um_is_buffer(inoutbuf, bytes, type)) return um_fail(0, MPI_ERR_BUFFER);
    return um_answer(0, um_fold(inbuf, inoutbuf, count, type, op));
}

void um_clear_ops(void) {
    free(um_me->mpi.ops);
    um_me->mpi.ops = 0;
    um_me->mpi.op_count = 0;
}
