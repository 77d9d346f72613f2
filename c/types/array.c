/* Datatypes of parts of arrays (MPI 4.0, 5.1.3 and 5.1.4): one part, or what is a process's of an array that is divided among all. */
#include "mpi/calls.h"
#include "types/types.h"
#include <stdlib.h>

/* A list of ints, or of large counts. */
struct numbers {
    const int *few;
    const MPI_Count *many;
};

static MPI_Count number_at(struct numbers of, int k) { return of.few ? of.few[k] : of.many[k]; }
static bool is_given(struct numbers of) { return of.few || of.many; }

/* An array of so many dimensions; the first one varies the slowest, or with MPI_ORDER_FORTRAN the fastest. */
struct array {
    int dims;
    struct numbers sizes;
    bool is_fortran;
    struct type *of;
};

/* Another lower bound and extent of the same data. */
int um_resize(struct type *of, ptrdiff_t lower, ptrdiff_t extent, struct type **made) {
    ptrdiff_t upper;
    int code = __builtin_add_overflow(lower, extent, &upper) ? MPI_ERR_ARG : um_join(&(struct piece){1, 0, 0, of}, 1, made);
    if (code != MPI_SUCCESS) return code;
    (*made)->has_lower = (*made)->has_upper = true;
    code = um_set_bounds(*made, lower, upper);
    if (code != MPI_SUCCESS) um_free_type(*made);
    return code;
}

/* Makes of the type of a row that of the next dimension, `stride` bytes from an index to the next one. */
typedef int taking(const void *what, int dim, ptrdiff_t stride, struct type *row, struct type **made);

/* Goes through the dimensions, from the one that varies the fastest. */
static int make_array(const struct array *array, taking *take, const void *what, MPI_Datatype *made) {
    struct type *type = array->of, *next;
    ptrdiff_t stride = extent_of(type);
    int code = MPI_SUCCESS;
    for (int k = 0; k < array->dims && code == MPI_SUCCESS; k++) {
        int dim = array->is_fortran ? k : array->dims - 1 - k;
        code = take(what, dim, stride, type, &next);
        if (type != array->of) um_free_type(type);
        type = code == MPI_SUCCESS ? next : array->of;
        if (__builtin_mul_overflow(stride, number_at(array->sizes, dim), &stride)) code = MPI_ERR_ARG;
    }
    if (code == MPI_SUCCESS) code = um_resize(type, 0, stride, &next);
    if (type != array->of) um_free_type(type);
    return code == MPI_SUCCESS ? um_add_type(next, made) : code;
}

/* Elements in a row of a dimension. */
static int take_row(MPI_Count first, MPI_Count count, ptrdiff_t stride, struct type *row, struct type **made) {
    ptrdiff_t at;
    if (__builtin_mul_overflow(first, stride, &at)) return MPI_ERR_ARG;
    return um_join(&(struct piece){(size_t)count, at, stride, row}, 1, made);
}

struct part {
    struct numbers counts, starts;
};

static int take_part(const void *what, int dim, ptrdiff_t stride, struct type *row, struct type **made) {
    const struct part *part = what;
    return take_row(number_at(part->starts, dim), number_at(part->counts, dim), stride, row, made);
}

static bool is_order(int order) { return order == MPI_ORDER_C || order == MPI_ORDER_FORTRAN; }

static int make_part(int dims, struct numbers sizes, const struct part *part, int order, MPI_Datatype type, MPI_Datatype *made) {
    if (!um_type_at(type)) return MPI_ERR_TYPE;
    if (!made || dims < 1 || !is_given(sizes) || !is_given(part->counts) || !is_given(part->starts) || !is_order(order)) return MPI_ERR_ARG;
    for (int k = 0; k < dims; k++) {
        MPI_Count size = number_at(sizes, k), count = number_at(part->counts, k), start = number_at(part->starts, k);
        if (size < 1 || count < 1 || count > size || start < 0 || start > size - count) return MPI_ERR_ARG;
    }
    return make_array(&(struct array){dims, sizes, order == MPI_ORDER_FORTRAN, um_type_at(type)}, take_part, part, made);
}

int MPI_Type_create_subarray(int dims, const int sizes[], const int subsizes[], const int starts[], int order, MPI_Datatype type,
                             MPI_Datatype *made) {
    ENTER_LOOK(0, MPI_UNDEFINED, MPI_UNDEFINED);
    int code = make_part(dims, (struct numbers){sizes, 0}, &(struct part){{subsizes, 0}, {starts, 0}}, order, type, made);
    struct arguments arguments = {MPI_COMBINER_SUBARRAY, {{1, &dims}, {dims, sizes}, {dims, subsizes}, {dims, starts}, {1, &order}}, 0, 0, 1, &type};
    return um_answer(0, um_describe(code, made, &arguments));
}

int MPI_Type_create_subarray_c(int dims, const MPI_Count sizes[], const MPI_Count subsizes[], const MPI_Count starts[], int order, MPI_Datatype type,
                               MPI_Datatype *made) {
    ENTER_LOOK(0, MPI_UNDEFINED, MPI_UNDEFINED);
    return um_answer(0, make_part(dims, (struct numbers){0, sizes}, &(struct part){{0, subsizes}, {0, starts}}, order, type, made));
}

/* What is one process's of an array: which process it is of how many, and how each dimension is divided, among how many, and which of them it is. */
struct division {
    int size, rank;
    struct numbers sizes;
    const int *kinds, *arguments, *processes;
    int *place;
};

/* How many indices a block of a dimension has. */
static MPI_Count block_of(const struct division *of, int dim) {
    MPI_Count size = number_at(of->sizes, dim), processes = of->processes[dim];
    if (of->kinds[dim] == MPI_DISTRIBUTE_NONE) return size;
    if (of->arguments[dim] != MPI_DISTRIBUTE_DFLT_DARG) return of->arguments[dim];
    return of->kinds[dim] == MPI_DISTRIBUTE_BLOCK ? (size - 1) / processes + 1 : 1;
}

/* The whole blocks of a process, and what is left of the last one. */
static int take_division(const void *what, int dim, ptrdiff_t stride, struct type *row, struct type **made) {
    const struct division *of = what;
    MPI_Count size = number_at(of->sizes, dim), block = block_of(of, dim), first = of->place[dim] * block, round = block * of->processes[dim];
    if (of->kinds[dim] == MPI_DISTRIBUTE_NONE) return take_row(0, size, stride, row, made);
    MPI_Count whole = first + block > size ? 0 : (size - first - block) / round + 1, rest = size - first - whole * round;
    struct type *one, *last;
    ptrdiff_t at[3];
    bool is_over = __builtin_mul_overflow(first, stride, &at[0]) || __builtin_mul_overflow(first + whole * round, stride, &at[1]) ||
                   __builtin_mul_overflow(round, stride, &at[2]);
    int code = is_over ? MPI_ERR_ARG : take_row(0, block, stride, row, &one);
    if (code != MPI_SUCCESS) return code;
    code = take_row(0, rest > 0 && rest < block ? rest : 0, stride, row, &last);
    if (code == MPI_SUCCESS) {
        struct piece pieces[] = {{(size_t)whole, at[0], at[2], one}, {rest > 0 && rest < block, at[1], 0, last}};
        code = um_join(pieces, 2, made);
        um_free_type(last);
    }
    um_free_type(one);
    return code;
}

/* Why a dimension can't be divided so, or MPI_SUCCESS. */
static int check_division(const struct division *of, int dim) {
    int kind = of->kinds[dim], argument = of->arguments[dim];
    if (number_at(of->sizes, dim) < 1 || of->processes[dim] < 1 || (argument < 1 && argument != MPI_DISTRIBUTE_DFLT_DARG)) return MPI_ERR_ARG;
    if (kind == MPI_DISTRIBUTE_NONE) return of->processes[dim] == 1 ? MPI_SUCCESS : MPI_ERR_ARG;
    if (kind == MPI_DISTRIBUTE_CYCLIC) return MPI_SUCCESS;
    bool is_short = block_of(of, dim) * of->processes[dim] < number_at(of->sizes, dim);
    return kind != MPI_DISTRIBUTE_BLOCK || is_short ? MPI_ERR_ARG : MPI_SUCCESS;
}

/* The place of a process among those of each dimension; they stand in the order of C, whatever the array's is. */
static int place(const struct division *of, int dims) {
    long long all = 1;
    int rank = of->rank;
    for (int k = dims - 1; k >= 0; k--) {
        int code = check_division(of, k);
        if (code != MPI_SUCCESS) return code;
        of->place[k] = rank % of->processes[k];
        rank /= of->processes[k];
        if (__builtin_mul_overflow(all, of->processes[k], &all)) return MPI_ERR_ARG;
    }
    return all == of->size ? MPI_SUCCESS : MPI_ERR_ARG;
}

static int divide(int dims, struct division division, int order, MPI_Datatype type, MPI_Datatype *made) {
    bool has_all = made && is_given(division.sizes) && division.kinds && division.arguments && division.processes;
    bool is_member = 0 <= division.rank && division.rank < division.size;
    if (!um_type_at(type)) return MPI_ERR_TYPE;
    if (!has_all || !is_member || dims < 1 || !is_order(order)) return MPI_ERR_ARG;
    division.place = malloc((size_t)dims * sizeof(int));
    int code = division.place ? place(&division, dims) : MPI_ERR_NO_MEM;
    struct array array = {dims, division.sizes, order == MPI_ORDER_FORTRAN, um_type_at(type)};
    if (code == MPI_SUCCESS) code = make_array(&array, take_division, &division, made);
    free(division.place);
    return code;
}

int MPI_Type_create_darray(int size, int rank, int dims, const int sizes[], const int distribs[], const int dargs[], const int psizes[], int order,
                           MPI_Datatype type, MPI_Datatype *made) {
    ENTER_LOOK(0, MPI_UNDEFINED, MPI_UNDEFINED);
    int code = divide(dims, (struct division){size, rank, {sizes, 0}, distribs, dargs, psizes, 0}, order, type, made);
    struct arguments arguments = {MPI_COMBINER_DARRAY,
                                  {{1, &size}, {1, &rank}, {1, &dims}, {dims, sizes}, {dims, distribs}, {dims, dargs}, {dims, psizes}, {1, &order}},
                                  0,
                                  0,
                                  1,
                                  &type};
    return um_answer(0, um_describe(code, made, &arguments));
}

int MPI_Type_create_darray_c(int size, int rank, int dims, const MPI_Count sizes[], const int distribs[], const int dargs[], const int psizes[],
                             int order, MPI_Datatype type, MPI_Datatype *made) {
    ENTER_LOOK(0, MPI_UNDEFINED, MPI_UNDEFINED);
    return um_answer(0, divide(dims, (struct division){size, rank, {0, sizes}, distribs, dargs, psizes, 0}, order, type, made));
}
