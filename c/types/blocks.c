/* What datatypes are made of (MPI 4.0, 5.1): blocks of bytes, each at one place or at several, and other types at several places. So a type takes memory
   by how it is described, and not by its data. */
#include "types/types.h"
#include <stdlib.h>
#include <string.h>

enum { FEW = 32 }; /* so many blocks of another type are written out: they are moved faster than by way of it */

static ptrdiff_t plus(ptrdiff_t a, ptrdiff_t b, bool *is_over) {
    ptrdiff_t sum;
    if (__builtin_add_overflow(a, b, &sum)) *is_over = true, sum = 0;
    return sum;
}

static ptrdiff_t times(ptrdiff_t a, ptrdiff_t b, bool *is_over) {
    ptrdiff_t product;
    if (__builtin_mul_overflow(a, b, &product)) *is_over = true, product = 0;
    return product;
}

/* So many more of what there are `each` of. */
static void count_up(size_t *sum, size_t count, size_t each, bool *is_over) {
    *sum = (size_t)plus((ptrdiff_t)*sum, times((ptrdiff_t)count, (ptrdiff_t)each, is_over), is_over);
}

/* Whether a block goes on where the last one ends, or stands as far behind it as that repeats itself: then the last one has it. */
static bool goes_on(struct block *last, const struct block *block) {
    ptrdiff_t step;
    bool is_alike =
        !last->of && !block->of && last->element == block->element && last->alignment == block->alignment && last->external == block->external;
    if (!is_alike || block->count > 1) return false;
    if (last->count == 1 && last->at + (ptrdiff_t)last->length == block->at) {
        last->length += block->length;
        return true;
    }
    if (last->length != block->length || __builtin_sub_overflow(block->at, last->at, &step)) return false;
    if (last->count > 1 && step != (ptrdiff_t)last->count * last->stride) return false;
    if (last->count == 1) last->stride = step;
    last->count++;
    return true;
}

/* False where there is no memory. */
static bool append(struct type *type, struct block block) {
    if (!block.of && block.count > 1 && block.stride == (ptrdiff_t)block.length) block.length *= block.count, block.count = 1;
    if (type->blocks && goes_on(&type->block[type->blocks - 1], &block)) return true;
    if ((type->blocks & (type->blocks - 1)) == 0) {
        struct block *larger = realloc(type->block, (type->blocks ? 2 * type->blocks : 1) * sizeof block);
        if (!larger) return false;
        type->block = larger;
    }
    type->block[type->blocks++] = block;
    if (block.of && !block.of->is_basic) block.of->users++;
    return true;
}

/* Appends the blocks of a piece: as one that repeats itself, written out, or by way of its type. */
static bool append_piece(struct type *type, const struct piece *piece) {
    struct type *of = piece->type;
    const struct block *only = of->blocks == 1 && !of->block[0].of ? &of->block[0] : 0;
    if (only && (only->count == 1 || piece->count == 1 || piece->stride == (ptrdiff_t)only->count * only->stride)) {
        struct block block = *only;
        block.at += piece->at;
        block.count *= piece->count;
        if (only->count == 1) block.stride = piece->stride;
        return append(type, block);
    }
    if (piece->count > FEW / of->blocks) return append(type, (struct block){piece->at, piece->count, piece->stride, of, of->size, 0, 0, SAME});
    for (size_t j = 0; j < piece->count; j++)
        for (size_t b = 0; b < of->blocks; b++) {
            struct block block = of->block[b];
            block.at += piece->at + (ptrdiff_t)j * piece->stride;
            if (!append(type, block)) return false;
        }
    return true;
}

/* Adds a piece's data: false where there is no memory. */
static bool add_piece(struct type *type, const struct piece *piece, bool *is_over) {
    const struct type *of = piece->type;
    bool is_first = type->blocks == 0;
    if (piece->count == 0 || of->blocks == 0) return true;
    ptrdiff_t reach = times(piece->stride, (ptrdiff_t)piece->count - 1, is_over);
    ptrdiff_t least = plus(piece->at, plus(of->least, reach < 0 ? reach : 0, is_over), is_over);
    ptrdiff_t most = plus(piece->at, plus(of->most, reach > 0 ? reach : 0, is_over), is_over);
    if (is_first || least < type->least) type->least = least;
    if (is_first || most > type->most) type->most = most;
    if (of->alignment > type->alignment) type->alignment = of->alignment;
    type->base = is_first || type->base == of->base ? of->base : MPI_DATATYPE_NULL;
    count_up(&type->size, piece->count, of->size, is_over);
    count_up(&type->elements, piece->count, of->elements, is_over);
    count_up(&type->external, piece->count, of->external, is_over);
    return *is_over || append_piece(type, piece);
}

/* The bounds of a type are those of its pieces; where some of them were set, of these alone. */
static void bound(struct type *type, const struct piece *pieces, size_t count, bool *is_over) {
    bool had_lower = false, had_upper = false;
    for (size_t k = 0; k < count; k++) {
        type->has_lower = type->has_lower || (pieces[k].count > 0 && pieces[k].type->has_lower);
        type->has_upper = type->has_upper || (pieces[k].count > 0 && pieces[k].type->has_upper);
    }
    for (size_t k = 0; k < count; k++) {
        const struct piece *piece = &pieces[k];
        const struct type *of = piece->type;
        if (piece->count == 0) continue;
        ptrdiff_t reach = times(piece->stride, (ptrdiff_t)piece->count - 1, is_over);
        ptrdiff_t lower = plus(piece->at, plus(of->lower, reach < 0 ? reach : 0, is_over), is_over);
        ptrdiff_t upper = plus(piece->at, plus(of->upper, reach > 0 ? reach : 0, is_over), is_over);
        /* One without data tells the bounds alone that were set of it. */
        bool tells_lower = of->has_lower == type->has_lower && (of->has_lower || of->blocks > 0);
        bool tells_upper = of->has_upper == type->has_upper && (of->has_upper || of->blocks > 0);
        if (tells_lower && (!had_lower || lower < type->lower)) type->lower = lower, had_lower = true;
        if (tells_upper && (!had_upper || upper > type->upper)) type->upper = upper, had_upper = true;
    }
    plus(type->upper, -type->lower, is_over);
}

/* Whether the data are one piece from 0 to the upper bound. */
static bool is_plain(const struct type *type) {
    ptrdiff_t end = 0;
    for (size_t k = 0; k < type->blocks; k++) {
        if (type->block[k].at != end || type->block[k].of || type->block[k].count > 1) return false;
        end += (ptrdiff_t)type->block[k].length;
    }
    return type->lower == 0 && type->upper == end;
}

int um_set_bounds(struct type *type, ptrdiff_t lower, ptrdiff_t upper) {
    bool is_over = false;
    type->lower = lower;
    type->upper = upper;
    type->is_plain = is_plain(type);
    plus(upper, -lower, &is_over);
    return is_over ? MPI_ERR_ARG : MPI_SUCCESS;
}

/* The type of pieces. MPI_ERR_ARG: it reaches further than addresses go. */
int um_join(const struct piece *pieces, size_t count, struct type **made) {
    struct type *type = calloc(1, sizeof *type);
    bool is_over = false, is_well = type != 0;
    *made = 0;
    if (is_well) type->users = 1;
    for (size_t k = 0; k < count && is_well; k++) is_well = add_piece(type, &pieces[k], &is_over);
    if (is_well) bound(type, pieces, count, &is_over);
    if (is_well && !is_over) {
        type->is_plain = is_plain(type);
        *made = type;
        return MPI_SUCCESS;
    }
    if (type) um_free_type(type);
    return is_over ? MPI_ERR_ARG : MPI_ERR_NO_MEM;
}

/* Visits each run of bytes of an element in turn, until one says no. False then. */
bool um_each_run(const struct type *type, ptrdiff_t at, bool (*visit)(void *of, ptrdiff_t at, const struct block *block), void *of) {
    for (size_t b = 0; b < type->blocks; b++) {
        const struct block *block = &type->block[b];
        for (size_t k = 0; k < block->count; k++) {
            ptrdiff_t here = at + block->at + (ptrdiff_t)k * block->stride;
            if (block->of ? !um_each_run(block->of, here, visit, of) : !visit(of, here, block)) return false;
        }
    }
    return true;
}
