/* Datatypes (MPI 4.0, 5.1): a type is blocks of bytes, each of basic elements, at displacements from a buffer's address; and bounds. Here they are made,
   told of, and their data packed and moved. */
#ifndef UM_TYPES_H
#define UM_TYPES_H

#include "progress/rank.h"

/* What an element of a block is in the form "external32" (14.5.2): as long as here, an integer of half the
   bytes, one without sign, or a number of 16 bytes. */
enum external { SAME, HALF, UNSIGNED_HALF, QUAD };

/* Bytes at one place or several, each `stride` bytes further than the one before; or another type so. */
struct block {
    ptrdiff_t at; /* bytes from the buffer's address */
    size_t count;
    ptrdiff_t stride;
    struct type *of;    /* null: bytes */
    size_t length;      /* the bytes of one */
    uint32_t element;   /* the bytes of one basic element */
    uint32_t alignment; /* what C aligns such an element to: of a complex number, less than its bytes */
    enum external external;
};

/* So many elements of a type, the first one at a displacement in bytes, the others `stride` bytes further each. */
struct piece {
    size_t count;
    ptrdiff_t at, stride;
    struct type *type;
};

struct recipe;

struct type {
    int users; /* its handle, and receives that are open */
    bool is_basic, is_committed;
    bool is_plain;             /* its data are its extent: nothing has to be packed */
    bool has_lower, has_upper; /* bounds that MPI_Type_create_resized set: types made of it have them too (5.1.7) */
    size_t size;               /* bytes of data */
    size_t elements;           /* basic ones */
    size_t external;           /* bytes of data in the form "external32" */
    ptrdiff_t lower, upper;    /* bounds; the extent is between them */
    ptrdiff_t least, most;     /* where the data begin and end */
    uint32_t alignment;        /* the largest one of its elements */
    size_t blocks;
    struct block *block;          /* in the order in which data are sent */
    struct recipe *recipe;        /* how the program made it; null of a basic one */
    struct attribute *attributes; /* but of a basic one */
    MPI_Datatype handle;          /* which it was made with */
    MPI_Datatype base;            /* the basic type of all its data, or null */
    char name[MPI_MAX_OBJECT_NAME];
};
enum { BASIC_TYPES = 43 };

/* The arguments of a call that makes a type, in the order in which MPI_Type_get_contents tells them (5.1.13): lists of ints, addresses, types. */
enum { INT_LISTS = 8 };
struct arguments {
    int combiner;
    struct {
        int count;
        const int *at;
    } ints[INT_LISTS];
    int addresses;
    const MPI_Aint *address;
    int types;
    const MPI_Datatype *type;
};

static inline ptrdiff_t extent_of(const struct type *type) { return type->upper - type->lower; }

/* type.c: the basic types by their numbers, the first of which is none. */
enum { FIRST_OWN_TYPE = 64 };
extern struct type um_basic_types[BASIC_TYPES];
static inline struct type *um_type_at(MPI_Datatype handle) {
    uintptr_t number = (uintptr_t)handle;
    if (number < BASIC_TYPES) return number ? &um_basic_types[number] : 0;
    return number >= FIRST_OWN_TYPE && number - FIRST_OWN_TYPE < (uintptr_t)um_me->mpi.type_count ? um_me->mpi.types[number - FIRST_OWN_TYPE] : 0;
}
/* The type of messages of so many elements, and their bytes; or null, and why they can't be. */
static inline const struct type *um_check_type(int count, MPI_Datatype handle, size_t *bytes, int *code) {
    const struct type *type = um_type_at(handle);
    *bytes = 0;
    *code = count < 0 ? MPI_ERR_COUNT : !type || !type->is_committed ? MPI_ERR_TYPE : MPI_SUCCESS;
    if (*code != MPI_SUCCESS) return 0;
    *bytes = (size_t)count * type->size;
    return type;
}
int um_add_type(struct type *type, MPI_Datatype *made);
void um_free_type(struct type *type);
MPI_Datatype um_handle_of_basic(const struct type *type);

/* typeattribute.c */
int um_copy_type_attributes(MPI_Datatype from, MPI_Datatype to);
int um_delete_type_attributes(MPI_Datatype handle);
void um_clear_basic_attributes(void);

/* describe.c */
int um_describe(int code, MPI_Datatype *made, const struct arguments *arguments);
void um_free_recipe(struct recipe *recipe);

/* blocks.c */
int um_join(const struct piece *pieces, size_t count, struct type **made);
int um_set_bounds(struct type *type, ptrdiff_t lower, ptrdiff_t upper);
bool um_each_run(const struct type *type, ptrdiff_t at, bool (*visit)(void *of, ptrdiff_t at, const struct block *block), void *of);

/* derived.c */
int um_align_type(struct type *type);

/* array.c */
int um_resize(struct type *of, ptrdiff_t lower, ptrdiff_t extent, struct type **made);

/* pack.c */
void um_move_data(const struct type *type, int count, void *memory, void *packed, size_t bytes, bool is_out);

/* Data in the program's memory: so many elements of a type. */
struct data {
    const void *at;
    int count;
    MPI_Datatype type;
};
/* Their address, where they are written. */
static inline void *um_into(struct data data) { return (void *)(uintptr_t)data.at; }

/* What calls ask of a handle of a type (type.c), and of data in memory (pack.c). */
bool um_is_basic_type(MPI_Datatype type);
MPI_Datatype um_keep_type(MPI_Datatype type);
void um_drop_type(MPI_Datatype type);
/* Whether so many bytes of a type can stand there. With displacements from MPI_BOTTOM they can at a null pointer. */
static inline bool um_is_buffer(const void *buffer, size_t bytes, MPI_Datatype type) {
    return bytes == 0 || ((buffer || !um_is_basic_type(type)) && buffer != MPI_IN_PLACE);
}
bool um_check_buffer(int count, MPI_Datatype type, size_t *bytes, int *code);
int um_pack_data(const void *buffer, int count, MPI_Datatype type, const void **data, void **packed);
void um_unpack_data(const void *data, size_t bytes, void *buffer, int count, MPI_Datatype type);
void um_copy_data(const void *from, void *to, int count, MPI_Datatype type);
bool um_reach_of_data(int count, MPI_Datatype type, size_t *bytes);
bool um_is_plain_type(MPI_Datatype type);
bool um_make_landing(void *buffer, int count, MPI_Datatype type, struct landing **made);
void *um_bytes_of_landing(struct landing *landing);
void um_land(struct landing *landing, size_t bytes);
void um_free_landing(struct landing *landing);
void um_clear_types(void);

#endif
