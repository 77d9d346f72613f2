/* Data between memory, where a datatype lays them out, and one piece of bytes, which goes into messages (MPI 4.0, 5.1 and 5.2). */
#include "mpi/calls.h"
#include "mpi/large.h"
#include <limits.h>
#include <stdlib.h>
#include <string.h>

struct motion {
    char *packed;
    size_t left;
    bool is_out;
};

/* Moves the bytes of a block, from or to one place after the other. */
static void move_bytes(struct motion *motion, char *place, const struct block *block) {
    char *packed = motion->packed;
    size_t left = motion->left;
    for (size_t k = 0; k < block->count && left > 0; k++, place += block->stride) {
        size_t length = block->length < left ? block->length : left;
        memcpy(motion->is_out ? packed : place, motion->is_out ? place : packed, length);
        packed += length;
        left -= length;
    }
    motion->packed = packed;
    motion->left = left;
}

static void move_type(struct motion *motion, char *place, const struct type *type) {
    for (size_t b = 0; b < type->blocks && motion->left > 0; b++) {
        const struct block *block = &type->block[b];
        if (!block->of) move_bytes(motion, place + block->at, block);
        else
            for (size_t k = 0; k < block->count && motion->left > 0; k++)
                move_type(motion, place + block->at + (ptrdiff_t)k * block->stride, block->of);
    }
}

/* Copies the data of so many elements from memory to `packed`, or back: at most `bytes` of them. */
void um_move_data(const struct type *type, int count, void *memory, void *packed, size_t bytes, bool is_out) {
    struct motion motion = {packed, bytes, is_out};
    size_t whole = (size_t)count * type->size;
    if (type->is_plain) {
        if (whole && bytes) memcpy(is_out ? packed : memory, is_out ? memory : packed, whole < bytes ? whole : bytes);
        return;
    }
    for (int k = 0; k < count && motion.left > 0; k++) move_type(&motion, (char *)memory + k * extent_of(type), type);
}

struct copying {
    char *to;
    const char *from;
};

static bool copy_run(void *of, ptrdiff_t at, const struct block *block) {
    const struct copying *copying = of;
    memcpy(copying->to + at, copying->from + at, block->length);
    return true;
}

/* Copies the data of so many elements, and nothing between them, to memory that is laid out alike. */
void um_copy_data(const void *from, void *to, int count, MPI_Datatype handle) {
    const struct type *type = um_type_at(handle);
    struct copying copying = {to, from};
    if (type->is_plain) {
        if (count) memcpy(to, from, (size_t)count * type->size);
        return;
    }
    for (int k = 0; k < count; k++) um_each_run(type, k * extent_of(type), copy_run, &copying);
}

/* The bytes of memory that so many elements reach from their address, all of the last one's extent among them; false where they begin before it. */
bool um_reach_of_data(int count, MPI_Datatype handle, size_t *bytes) {
    const struct type *type = um_type_at(handle);
    ptrdiff_t most = extent_of(type) > type->most ? extent_of(type) : type->most;
    *bytes = count > 0 ? (size_t)((count - 1) * extent_of(type) + most) : 0;
    return type->least >= 0 && extent_of(type) >= 0;
}

bool um_is_plain_type(MPI_Datatype handle) { return um_type_at(handle)->is_plain; }

/* The data of so many elements in one piece: the buffer itself where they are, else a copy, which `packed` gets too and the caller frees.
   MPI_ERR_NO_MEM where there is no memory, else MPI_SUCCESS. */
int um_pack_data(const void *buffer, int count, MPI_Datatype handle, const void **data, void **packed) {
    const struct type *type = um_type_at(handle);
    *data = buffer;
    *packed = 0;
    if (!type || type->is_plain || buffer == MPI_IN_PLACE || count <= 0) return MPI_SUCCESS;
    *packed = malloc((size_t)count * type->size + 1);
    if (!*packed) return MPI_ERR_NO_MEM;
    um_move_data(type, count, (void *)(uintptr_t)buffer, *packed, (size_t)count * type->size, true);
    *data = *packed;
    return MPI_SUCCESS;
}

/* Lays data that came in one piece out where they belong. */
void um_unpack_data(const void *data, size_t bytes, void *buffer, int count, MPI_Datatype handle) {
    um_move_data(um_type_at(handle), count, buffer, (void *)(uintptr_t)data, bytes, false);
}

/* Where a receive gets the data of a type that isn't plain: in `bytes`; they are laid out when they are there. */
struct landing {
    struct type *type;
    int count;
    void *memory;
    char bytes[];
};

/* The landing of a receive, or null where it needs none; false where there is no memory. */
bool um_make_landing(void *buffer, int count, MPI_Datatype handle, struct landing **made) {
    struct type *type = um_type_at(handle);
    *made = 0;
    if (count == 0 || type->is_plain) return true;
    *made = malloc(sizeof **made + (size_t)count * type->size);
    if (!*made) return false;
    if (!type->is_basic) type->users++;
    (*made)->type = type;
    (*made)->count = count;
    (*made)->memory = buffer;
    return true;
}

void *um_bytes_of_landing(struct landing *landing) { return landing->bytes; }

void um_land(struct landing *landing, size_t bytes) { um_move_data(landing->type, landing->count, landing->memory, landing->bytes, bytes, false); }

void um_free_landing(struct landing *landing) {
    if (!landing) return;
    um_free_type(landing->type);
    free(landing);
}

/* The bytes of so many elements, as they are packed; MPI_SUCCESS, or why they can't be. */
static int size_of(MPI_Count count, MPI_Datatype type, const struct comm *comm, size_t *bytes) {
    struct large large = {0};
    if (!comm) return MPI_ERR_COMM;
    um_hold_count(&large, &count, &type);
    if (large.code == MPI_SUCCESS) um_check_buffer(um_small(count), type, bytes, &large.code);
    return um_end_large(&large, large.code);
}

int MPI_Pack_size(int count, MPI_Datatype type, MPI_Comm comm, int *size) {
    struct comm *of = um_comm_at(comm);
    size_t bytes;
    ENTER_LOOK(of, MPI_UNDEFINED, MPI_UNDEFINED);
    int code = size_of(count, type, of, &bytes);
    if (code != MPI_SUCCESS) return um_fail(of, code);
    WRITES(of, size);
    *size = bytes > INT_MAX ? MPI_UNDEFINED : (int)bytes;
    return MPI_SUCCESS;
}

int MPI_Pack_size_c(MPI_Count count, MPI_Datatype type, MPI_Comm comm, MPI_Count *size) {
    struct comm *of = um_comm_at(comm);
    size_t bytes;
    ENTER_LOOK(of, MPI_UNDEFINED, MPI_UNDEFINED);
    int code = size_of(count, type, of, &bytes);
    if (code != MPI_SUCCESS) return um_fail(of, code);
    WRITES(of, size);
    *size = (MPI_Count)bytes;
    return MPI_SUCCESS;
}

/* Why they can't be packed or unpacked at a position of a buffer of `room` bytes, or MPI_SUCCESS. */
static int check(const struct packing *of, MPI_Count position, size_t *bytes) {
    int code;
    if (of->room < 0 || position < 0) return MPI_ERR_ARG;
    if (!um_check_buffer(um_small(of->count), of->type, bytes, &code)) return code;
    if (!um_is_buffer(of->buffer, *bytes, of->type) || !um_is_buffer(of->packed, *bytes, MPI_PACKED)) return MPI_ERR_BUFFER;
    return position > of->room || *bytes > (size_t)(of->room - position) ? MPI_ERR_TRUNCATE : MPI_SUCCESS;
}

/* Packs or unpacks at a position, and moves it on. */
static int pack(struct packing of, MPI_Count *position, const struct comm *comm, bool is_out) {
    struct large large = {0};
    size_t bytes = 0;
    if (!comm) return MPI_ERR_COMM;
    um_hold_count(&large, &of.count, &of.type);
    int code = large.code == MPI_SUCCESS ? check(&of, *position, &bytes) : large.code;
    if (code == MPI_SUCCESS) {
        um_move_data(um_type_at(of.type), um_small(of.count), of.buffer, of.packed + *position, bytes, is_out);
        *position += (MPI_Count)bytes;
    }
    return um_end_large(&large, code);
}

int MPI_Pack(const void *buffer, int count, MPI_Datatype type, void *packed, int room, int *position, MPI_Comm comm) {
    struct comm *of = um_comm_at(comm);
    MPI_Count at = position ? *position : -1;
    ENTER_LOOK(of, MPI_UNDEFINED, MPI_UNDEFINED);
    int code = pack((struct packing){(void *)(uintptr_t)buffer, count, type, packed, room}, &at, of, true);
    if (code == MPI_SUCCESS) *position = (int)at;
    return um_answer(of, code);
}

int MPI_Unpack(const void *packed, int room, int *position, void *buffer, int count, MPI_Datatype type, MPI_Comm comm) {
    struct comm *of = um_comm_at(comm);
    MPI_Count at = position ? *position : -1;
    ENTER_LOOK(of, MPI_UNDEFINED, MPI_UNDEFINED);
    int code = pack((struct packing){buffer, count, type, (char *)(uintptr_t)packed, room}, &at, of, false);
    if (code == MPI_SUCCESS) *position = (int)at;
    return um_answer(of, code);
}

int MPI_Pack_c(const void *buffer, MPI_Count count, MPI_Datatype type, void *packed, MPI_Count room, MPI_Count *position, MPI_Comm comm) {
    struct comm *of = um_comm_at(comm);
    ENTER_LOOK(of, MPI_UNDEFINED, MPI_UNDEFINED);
    WRITES(of, position);
    return um_answer(of, pack((struct packing){(void *)(uintptr_t)buffer, count, type, packed, room}, position, of, true));
}

int MPI_Unpack_c(const void *packed, MPI_Count room, MPI_Count *position, void *buffer, MPI_Count count, MPI_Datatype type, MPI_Comm comm) {
    struct comm *of = um_comm_at(comm);
    ENTER_LOOK(of, MPI_UNDEFINED, MPI_UNDEFINED);
    WRITES(of, position);
    return um_answer(of, pack((struct packing){buffer, count, type, (char *)(uintptr_t)packed, room}, position, of, false));
}
