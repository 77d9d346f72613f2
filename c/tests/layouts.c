/* Parts of divided arrays, the form "external32", attributes of types, and types of very many blocks; what it prints is the same with MPICH. */
#include "check.h"
#include <limits.h>
#include <stdint.h>

static int rank;
static unsigned state = 7;

static int any(int least, int most) {
    state = state * 1103515245u + 12345u;
    return least + (int)(state >> 16) % (most - least + 1);
}

/* A random division of an array: what each process has of it, by its numbers in the order in which they are sent. */
static void divide(void) {
    int dims = any(1, 3), sizes[3], kinds[3], arguments[3], processes[3], all = 1, order = any(0, 1) ? MPI_ORDER_C : MPI_ORDER_FORTRAN, cells = 1, seen = 0;
    for (int k = 0; k < dims; k++) {
        sizes[k] = any(1, 7);
        processes[k] = any(1, 3);
        int kind = processes[k] == 1 ? any(0, 2) : any(0, 1), block = (sizes[k] - 1) / processes[k] + 1;
        kinds[k] = kind == 0 ? MPI_DISTRIBUTE_BLOCK : kind == 1 ? MPI_DISTRIBUTE_CYCLIC : MPI_DISTRIBUTE_NONE;
        arguments[k] = any(0, 1) ? MPI_DISTRIBUTE_DFLT_DARG : kind == 0 ? any(block, block + 2) : any(1, 3);
        all *= processes[k];
        cells *= sizes[k];
    }
    int *from = malloc((size_t)cells * sizeof *from), *packed = malloc((size_t)cells * sizeof *packed + 4);
    for (int k = 0; k < cells; k++) from[k] = k;
    for (int process = 0; process < all; process++) {
        MPI_Datatype type;
        MPI_Aint lower, extent;
        int bytes, position = 0;
        unsigned hash = 0;
        MPI_Type_create_darray(all, process, dims, sizes, kinds, arguments, processes, order, MPI_INT, &type);
        MPI_Type_commit(&type);
        MPI_Type_size(type, &bytes);
        MPI_Type_get_extent(type, &lower, &extent);
        MPI_Pack(from, 1, type, packed, cells * (int)sizeof *packed, &position, MPI_COMM_SELF);
        CHECK(position == bytes && lower == 0 && extent == cells * (MPI_Aint)sizeof(int));
        for (int k = 0; k < bytes / (int)sizeof(int); k++) hash = hash * 31 + (unsigned)packed[k];
        seen += bytes / (int)sizeof(int);
        if (rank == 0) printf("%d of %d: %d %u\n", process, all, bytes, hash);
        MPI_Type_free(&type);
    }
    CHECK(seen == cells);
    free(from);
    free(packed);
}

#ifdef ULFM_MPI   /* MPICH 4.0.2 ends by a signal in MPI_Pack_external_size of such a type */
/* Numbers there and back, and the bytes between. */
static void external(void) {
    struct {
        short s[3];
        int i;
        long long l;
        float f;
        double d[2];
        char c;
    } all = {{1, -2, 300}, -70000, 1ll << 40, 1.5f, {-2.25, 1e300}, 'x'}, back;
    unsigned char form[128];
    MPI_Aint at = 0, size, displs[6];
    MPI_Datatype types[6] = {MPI_SHORT, MPI_INT, MPI_LONG_LONG, MPI_FLOAT, MPI_DOUBLE, MPI_CHAR}, type;
    void *places[6] = {all.s, &all.i, &all.l, &all.f, all.d, &all.c};
    for (int k = 0; k < 6; k++) displs[k] = (char *)places[k] - (char *)&all;
    MPI_Type_create_struct(6, (int[]){3, 1, 1, 1, 2, 1}, displs, types, &type);
    MPI_Type_commit(&type);
    MPI_Pack_external_size("external32", 1, type, &size);
    CHECK(size == 6 + 4 + 8 + 4 + 16 + 1);
    memset(form, 0, sizeof form);
    MPI_Pack_external("external32", &all, 1, type, form, sizeof form, &at);
    CHECK(at == size);
    CHECK(!memcmp(form, "\0\1\377\376\1\54\377\376\356\220\0\0\1\0\0\0\0\0\77\300\0\0\300\2\0\0\0\0\0\0\176\67\344\74\210\0\165\234x", 39));
    memset(&back, 0, sizeof back);
    at = 0;
    MPI_Unpack_external("external32", form, size, &at, &back, 1, type);
    CHECK(at == size && back.s[1] == -2 && back.s[2] == 300 && back.i == -70000 && back.l == 1ll << 40 && back.f == 1.5f && back.d[1] == 1e300 && back.c == 'x');
    at = 1;
    CHECK(MPI_Pack_external("external32", &all, 1, type, form, size, &at) != MPI_SUCCESS);
    CHECK(MPI_Pack_external("native", &all, 1, type, form, size, &at) != MPI_SUCCESS);
    MPI_Type_free(&type);
    long numbers[2] = {-5, 7}, numbers_back[2];   /* of 4 bytes there (14.5.2) */
    long double wide = -1.75L, wide_back;
    unsigned long large = 4000000000u, large_back;
    at = 0;
    MPI_Pack_external("external32", numbers, 2, MPI_LONG, form, sizeof form, &at);
    MPI_Pack_external("external32", &large, 1, MPI_UNSIGNED_LONG, form, sizeof form, &at);
    MPI_Pack_external("external32", &wide, 1, MPI_LONG_DOUBLE, form, sizeof form, &at);
    CHECK(at == 28 && !memcmp(form, "\377\377\377\373\0\0\0\7\356\153\050\0\277\377\300\0", 16));
    at = 0;
    MPI_Unpack_external("external32", form, sizeof form, &at, numbers_back, 2, MPI_LONG);
    MPI_Unpack_external("external32", form, sizeof form, &at, &large_back, 1, MPI_UNSIGNED_LONG);
    MPI_Unpack_external("external32", form, sizeof form, &at, &wide_back, 1, MPI_LONG_DOUBLE);
    CHECK(numbers_back[0] == -5 && numbers_back[1] == 7 && large_back == large && wide_back == wide);
}
#endif

static int deleted;

static int copy(MPI_Datatype type, int keyval, void *more, void *in, void *out, int *flag) {
    (void)type, (void)keyval, (void)more;
    *(char **)out = (char *)in + 1;
    *flag = 1;
    return MPI_SUCCESS;
}

static int delete(MPI_Datatype type, int keyval, void *value, void *more) {
    (void)type, (void)keyval;
    deleted = deleted * 10 + (int)((char *)value - (char *)more);
    return value == (char *)more + 9 ? MPI_ERR_OTHER : MPI_SUCCESS;
}

static void attributes(void) {
    static char base[16];
    char *value = 0;
    MPI_Datatype type, twin;
    int key, plain, flag = 5;
    MPI_Type_create_keyval(copy, delete, &key, base);
    MPI_Type_create_keyval(MPI_TYPE_NULL_COPY_FN, MPI_TYPE_NULL_DELETE_FN, &plain, 0);
    MPI_Type_contiguous(2, MPI_INT, &type);
    MPI_Type_get_attr(type, key, &value, &flag);
    CHECK(flag == 0);
    MPI_Type_set_attr(type, key, base + 2);
    MPI_Type_set_attr(type, plain, base);
    MPI_Type_dup(type, &twin);
    MPI_Type_get_attr(twin, key, &value, &flag);
    CHECK(flag && value == base + 3);
    MPI_Type_get_attr(twin, plain, &value, &flag);
    CHECK(!flag && deleted == 0);
    MPI_Type_set_attr(type, key, base + 4);
    CHECK(deleted == 2);
    MPI_Type_delete_attr(type, key);
    MPI_Type_free(&twin);
    CHECK(deleted == 243);
    MPI_Type_set_attr(type, key, base + 9);
#ifdef ULFM_MPI   /* a deletion that fails keeps the type (7.7.4); MPICH frees it */
    CHECK(MPI_Type_free(&type) != MPI_SUCCESS && type != MPI_DATATYPE_NULL);
#else
    MPI_Type_free(&type);
#endif
    MPI_Type_set_attr(MPI_DOUBLE, plain, base + rank);
    MPI_Type_get_attr(MPI_DOUBLE, plain, &value, &flag);
    CHECK(flag && value == base + rank);
    MPI_Type_delete_attr(MPI_DOUBLE, plain);
    MPI_Type_free_keyval(&key);
    MPI_Type_free_keyval(&plain);
    CHECK(key == MPI_KEYVAL_INVALID && MPI_Type_set_attr(MPI_INT, MPI_TAG_UB, base) != MPI_SUCCESS);
}

/* Types of 2^31 - 1 blocks, whose data nobody has: their sizes, and a part of one. */
static void very_many(void) {
    MPI_Datatype one, pairs, many, both;
    MPI_Count bytes, lower, extent;
    MPI_Status status;
    int count;
    char *memory = calloc(1, 64);
    MPI_Type_vector(INT_MAX, 1, 2, MPI_INT, &one);
    MPI_Type_create_struct(2, (int[]){1, 1}, (MPI_Aint[]){0, 12}, (MPI_Datatype[]){MPI_INT, MPI_SHORT}, &pairs);
    MPI_Type_contiguous(INT_MAX, pairs, &many);
    MPI_Type_contiguous(1 << 20, many, &both);
    MPI_Type_size_x(one, &bytes);
    MPI_Type_get_extent_x(one, &lower, &extent);
    CHECK(bytes == 4ll * INT_MAX && extent == 8ll * INT_MAX - 4);
    MPI_Type_size_x(both, &bytes);
    MPI_Type_get_true_extent_x(both, &lower, &extent);
    CHECK(bytes == (6ll * INT_MAX) << 20 && extent == ((16ll * INT_MAX) << 20) - 2);
    MPI_Type_commit(&many);
    MPI_Sendrecv("abcdefghijklmnopqr", 18, MPI_BYTE, 0, 0, memory, 1, many, 0, 0, MPI_COMM_SELF, &status);
    MPI_Get_elements(&status, many, &count);
    CHECK(count == 6 && !memcmp(memory + 12, "ef\0\0ghij", 8) && !memcmp(memory + 44, "qr", 2));
    MPI_Type_free(&one);
    MPI_Type_free(&pairs);
    MPI_Type_free(&many);
    MPI_Type_free(&both);
    free(memory);
#ifdef ULFM_MPI
    CHECK(class_of(MPI_Type_create_hindexed(1, (int[]){2}, (MPI_Aint[]){PTRDIFF_MAX - 2}, MPI_INT, &one)) == MPI_ERR_ARG);
    CHECK(class_of(MPI_Type_create_hvector(3, 1, PTRDIFF_MAX / 2, MPI_INT, &one)) == MPI_ERR_ARG);
    CHECK(class_of(MPI_Type_create_resized(MPI_INT, 8, PTRDIFF_MAX, &one)) == MPI_ERR_ARG);
#endif
}

int main(int argc, char **argv) {
    int all = 0;
    MPI_Init(&argc, &argv);
    MPI_Comm_rank(MPI_COMM_WORLD, &rank);
    MPI_Comm_set_errhandler(MPI_COMM_WORLD, MPI_ERRORS_RETURN);
    for (int k = 0; k < 300; k++) divide();
#ifdef ULFM_MPI
    external();
#endif
    attributes();
    very_many();
    MPI_Reduce(&faults, &all, 1, MPI_INT, MPI_SUM, 0, MPI_COMM_WORLD);
    if (rank == 0) printf("faults: %d\n", all);
    MPI_Finalize();
    return faults != 0;
}
