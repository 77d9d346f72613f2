/* Small calls: classes of errors, those that a program adds, names of types and how they were made. What it prints is the same with each MPI. */
#include "check.h"
#include <stdbool.h>

static int rank, size, seen;
static MPI_Comm world = MPI_COMM_WORLD;

/* Programs have them in their switches, so that no two are alike. */
static void classes(void) {
    static const int all[] = {
        MPI_SUCCESS, MPI_ERR_BUFFER, MPI_ERR_COUNT, MPI_ERR_TYPE, MPI_ERR_TAG, MPI_ERR_COMM, MPI_ERR_RANK, MPI_ERR_REQUEST, MPI_ERR_ROOT,
        MPI_ERR_GROUP, MPI_ERR_OP, MPI_ERR_TOPOLOGY, MPI_ERR_DIMS, MPI_ERR_ARG, MPI_ERR_UNKNOWN, MPI_ERR_TRUNCATE, MPI_ERR_OTHER, MPI_ERR_INTERN,
        MPI_ERR_PENDING, MPI_ERR_IN_STATUS, MPI_ERR_ACCESS, MPI_ERR_AMODE, MPI_ERR_ASSERT, MPI_ERR_BAD_FILE, MPI_ERR_BASE, MPI_ERR_CONVERSION,
        MPI_ERR_DISP, MPI_ERR_DUP_DATAREP, MPI_ERR_FILE_EXISTS, MPI_ERR_FILE_IN_USE, MPI_ERR_FILE, MPI_ERR_INFO_KEY, MPI_ERR_INFO_NOKEY,
        MPI_ERR_INFO_VALUE, MPI_ERR_INFO, MPI_ERR_IO, MPI_ERR_KEYVAL, MPI_ERR_LOCKTYPE, MPI_ERR_NAME, MPI_ERR_NO_MEM, MPI_ERR_NOT_SAME,
        MPI_ERR_NO_SPACE, MPI_ERR_NO_SUCH_FILE, MPI_ERR_PORT, MPI_ERR_PROC_ABORTED, MPI_ERR_QUOTA, MPI_ERR_READ_ONLY, MPI_ERR_RMA_ATTACH,
        MPI_ERR_RMA_CONFLICT, MPI_ERR_RMA_RANGE, MPI_ERR_RMA_SHARED, MPI_ERR_RMA_SYNC, MPI_ERR_RMA_FLAVOR, MPI_ERR_SERVICE, MPI_ERR_SESSION,
        MPI_ERR_SIZE, MPI_ERR_SPAWN, MPI_ERR_UNSUPPORTED_DATAREP, MPI_ERR_UNSUPPORTED_OPERATION, MPI_ERR_VALUE_TOO_LARGE, MPI_ERR_WIN};
    char text[MPI_MAX_ERROR_STRING], unknown[MPI_MAX_ERROR_STRING];
    int length, count = (int)(sizeof all / sizeof *all);
    MPI_Error_string(MPI_ERR_UNKNOWN, unknown, &length);
    for (int k = 0; k < count; k++) {
        for (int j = 0; j < k; j++) CHECK(all[j] != all[k]);
        CHECK(all[k] < MPI_ERR_LASTCODE && class_of(all[k]) == all[k]);
        MPI_Error_string(all[k], text, &length);
        CHECK(length > 0 && length == (int)strlen(text) && (all[k] == MPI_ERR_UNKNOWN || strcmp(text, unknown)));
    }
    CHECK(count == 61);
}

static void see(MPI_Comm *comm, int *code, ...) {
    (void)comm;
    seen = *code;
}

/* A program's own classes and codes. */
static void added(void) {
    char text[MPI_MAX_ERROR_STRING];
    int class, other, code, more, flag, length, *last, before;
    MPI_Errhandler handler;
    MPI_Comm_get_attr(world, MPI_LASTUSEDCODE, &last, &flag);
    before = *last;
    CHECK(flag && before >= MPI_ERR_LASTCODE);
    MPI_Add_error_class(&class);
    MPI_Add_error_class(&other);
    MPI_Add_error_code(class, &code);
    MPI_Add_error_code(MPI_ERR_ARG, &more);
    CHECK(class > MPI_ERR_LASTCODE && other > MPI_ERR_LASTCODE && class != other && code != class && code != more);
    CHECK(class_of(class) == class && class_of(other) == other && class_of(code) == class && class_of(more) == MPI_ERR_ARG);
    MPI_Error_string(code, text, &length);
    CHECK(length == 0 && !*text);
    MPI_Add_error_string(class, "our class");
    MPI_Add_error_string(code, "our code");
    MPI_Add_error_string(code, "our own code");
    MPI_Error_string(class, text, &length);
    CHECK(!strcmp(text, "our class") && length == 9);
    MPI_Error_string(code, text, &length);
    CHECK(!strcmp(text, "our own code"));
    MPI_Comm_get_attr(world, MPI_LASTUSEDCODE, &last, &flag);
    CHECK(flag && *last >= before && *last >= class);
    MPI_Comm_create_errhandler(see, &handler);
    MPI_Comm_set_errhandler(world, handler);
    MPI_Comm_call_errhandler(world, code);
    CHECK(seen == code);
    MPI_Comm_set_errhandler(world, MPI_ERRORS_RETURN);
    MPI_Errhandler_free(&handler);
#ifdef ULFM_MPI
    CHECK(class_of(MPI_Add_error_string(MPI_ERR_ARG, "no")) == MPI_ERR_ARG);
    CHECK(class_of(MPI_Add_error_code(MPI_ERR_LASTCODE + 20, &more)) == MPI_ERR_ARG);
#endif
}

static bool is_called(MPI_Datatype type, const char *name) {
    char text[MPI_MAX_OBJECT_NAME] = "?";
    int length = -1;
    MPI_Type_get_name(type, text, &length);
    return !strcmp(text, name) && length == (int)strlen(name);
}

static void names(void) {
    MPI_Datatype type, again;
    MPI_Type_contiguous(2, MPI_INT, &type);
    CHECK(is_called(MPI_DOUBLE, "MPI_DOUBLE") && is_called(MPI_2INT, "MPI_2INT") && is_called(MPI_C_DOUBLE_COMPLEX, "MPI_C_DOUBLE_COMPLEX"));
    CHECK(is_called(MPI_2REAL, "MPI_2REAL") && is_called(MPI_UB, "MPI_UB") && class_of(MPI_Type_match_size(MPI_TYPECLASS_REAL, 3, &again)) == MPI_ERR_ARG);
#ifdef ULFM_MPI   /* MPICH 4.0.2 has types of their own for these: MPI_INTEGER2 and MPI_COMPLEX16 */
    CHECK(MPI_Type_match_size(MPI_TYPECLASS_INTEGER, 2, &again) == MPI_SUCCESS && again == MPI_INT16_T);
    CHECK(MPI_Type_match_size(MPI_TYPECLASS_COMPLEX, 16, &again) == MPI_SUCCESS && again == MPI_C_DOUBLE_COMPLEX);
#endif
    CHECK(is_called(MPI_COUNT, "MPI_COUNT") && is_called(MPI_UINT64_T, "MPI_UINT64_T") && is_called(type, ""));
    MPI_Type_set_name(type, "two");
    MPI_Type_set_name(MPI_SHORT, "less");
    MPI_Type_dup(type, &again);
    CHECK(is_called(type, "two") && is_called(again, "") && is_called(MPI_SHORT, "less") && is_called(MPI_INT, "MPI_INT"));
    CHECK(class_of(MPI_Type_set_name(MPI_DATATYPE_NULL, "none")) == MPI_ERR_TYPE);
    MPI_Type_free(&type);
    MPI_Type_free(&again);
}

/* Whether a type was made so; frees it, and what it was made of. `wanted` has the ints, `at` the addresses. */
static bool is_made(MPI_Datatype *type, int combiner, int ints, const int wanted[], int addresses, const MPI_Aint at[], int types, MPI_Datatype first) {
    int counts[3] = {-1, -1, -1}, how, number[16];
    MPI_Aint address[4];
    MPI_Datatype of[4];
    bool is_so = true;
    MPI_Type_get_envelope(*type, &counts[0], &counts[1], &counts[2], &how);
    if (how != combiner || counts[0] != ints || counts[1] != addresses || counts[2] != types) return false;
    MPI_Type_get_contents(*type, ints, addresses, types, number, address, of);
    for (int k = 0; k < ints; k++) is_so = is_so && number[k] == wanted[k];
    for (int k = 0; k < addresses; k++) is_so = is_so && address[k] == at[k];
    is_so = is_so && (first == MPI_DATATYPE_NULL || of[0] == first);
    for (int k = 0; k < types; k++) {
        MPI_Type_get_envelope(of[k], &counts[0], &counts[1], &counts[2], &how);
        if (how != MPI_COMBINER_NAMED) MPI_Type_free(&of[k]);
    }
    MPI_Type_free(type);
    return is_so;
}

static void recipes(void) {
    MPI_Datatype type, pair, types[2] = {MPI_CHAR, MPI_INT};
    int lengths[2] = {1, 3}, displs[2] = {4, 0}, whole[2] = {5, 6}, part[2] = {2, 3}, from[2] = {1, 2}, counts[3], how;
    MPI_Aint at[2] = {16, 0};
    MPI_Type_get_envelope(MPI_DOUBLE_INT, &counts[0], &counts[1], &counts[2], &how);
    CHECK(how == MPI_COMBINER_NAMED && !counts[0] && !counts[1] && !counts[2]);
    CHECK(class_of(MPI_Type_get_contents(MPI_INT, 1, 1, 1, counts, at, types)) == MPI_ERR_TYPE);
    MPI_Type_vector(2, 3, 4, MPI_INT, &type);
    CHECK(class_of(MPI_Type_get_contents(type, 2, 0, 1, counts, at, types)) != MPI_SUCCESS);
    CHECK(is_made(&type, MPI_COMBINER_VECTOR, 3, (int[]){2, 3, 4}, 0, NULL, 1, MPI_INT));
    MPI_Type_create_hvector(2, 3, 40, MPI_INT, &type);
    CHECK(is_made(&type, MPI_COMBINER_HVECTOR, 2, (int[]){2, 3}, 1, (MPI_Aint[]){40}, 1, MPI_INT));
    MPI_Type_indexed(2, lengths, displs, MPI_DOUBLE, &type);
    CHECK(is_made(&type, MPI_COMBINER_INDEXED, 5, (int[]){2, 1, 3, 4, 0}, 0, NULL, 1, MPI_DOUBLE));
    MPI_Type_create_hindexed(2, lengths, at, MPI_CHAR, &type);
    CHECK(is_made(&type, MPI_COMBINER_HINDEXED, 3, (int[]){2, 1, 3}, 2, at, 1, MPI_CHAR));
    MPI_Type_create_indexed_block(2, 3, displs, MPI_INT, &type);
    CHECK(is_made(&type, MPI_COMBINER_INDEXED_BLOCK, 4, (int[]){2, 3, 4, 0}, 0, NULL, 1, MPI_INT));
    MPI_Type_create_hindexed_block(2, 3, at, MPI_INT, &type);
    CHECK(is_made(&type, MPI_COMBINER_HINDEXED_BLOCK, 2, (int[]){2, 3}, 2, at, 1, MPI_INT));
    MPI_Type_create_subarray(2, whole, part, from, MPI_ORDER_C, MPI_INT, &type);
    CHECK(is_made(&type, MPI_COMBINER_SUBARRAY, 8, (int[]){2, 5, 6, 2, 3, 1, 2, MPI_ORDER_C}, 0, NULL, 1, MPI_INT));
    MPI_Type_create_resized(MPI_INT, -4, 32, &type);
    CHECK(is_made(&type, MPI_COMBINER_RESIZED, 0, NULL, 2, (MPI_Aint[]){-4, 32}, 1, MPI_INT));
    MPI_Type_create_struct(2, lengths, at, types, &pair);
    MPI_Type_contiguous(7, pair, &type);
    MPI_Type_dup(type, &types[1]);
    CHECK(is_made(&pair, MPI_COMBINER_STRUCT, 3, (int[]){2, 1, 3}, 2, at, 2, MPI_CHAR));
    CHECK(is_made(&type, MPI_COMBINER_CONTIGUOUS, 1, (int[]){7}, 0, NULL, 1, MPI_DATATYPE_NULL));
    CHECK(is_made(&types[1], MPI_COMBINER_DUP, 0, NULL, 0, NULL, 1, MPI_DATATYPE_NULL));
}

static void sizes(void) {
    MPI_Datatype type;
    MPI_Count size = 0, lower = 1, extent = 0;
    MPI_Status status;
    int x[6] = {0};
    MPI_Type_vector(2, 1, 3, MPI_INT, &type);
    MPI_Type_commit(&type);
    MPI_Type_size_x(type, &size);
    MPI_Type_get_extent_x(type, &lower, &extent);
    CHECK(size == 2 * sizeof(int) && lower == 0 && extent == 4 * sizeof(int));
    MPI_Type_get_true_extent_x(type, &lower, &extent);
    CHECK(lower == 0 && extent == 4 * sizeof(int));
    MPI_Sendrecv(x, 1, type, 0, 1, x, 1, type, 0, 1, MPI_COMM_SELF, &status);
    MPI_Get_elements_x(&status, type, &size);
    CHECK(size == 2);
    MPI_Type_free(&type);
}

static void communicators(void) {
    MPI_Comm parent = world, dup;
    int last = -1, flag, *number, sum = 0;
    CHECK(MPI_Comm_get_parent(&parent) == MPI_SUCCESS && parent == MPI_COMM_NULL);
    CHECK(MPI_Pcontrol(0) == MPI_SUCCESS && MPI_Pcontrol(1, "more") == MPI_SUCCESS);
    for (int k = 0; k < 12; k++) {
        MPI_Comm_dup(world, &dup);
        MPI_Allreduce(&rank, &sum, 1, MPI_INT, MPI_SUM, dup);
        CHECK(MPI_Comm_disconnect(&dup) == MPI_SUCCESS && dup == MPI_COMM_NULL && sum == size * (size - 1) / 2);
    }
    CHECK(class_of(MPI_Comm_disconnect(&dup)) == MPI_ERR_COMM);
    MPI_Comm_get_attr(world, MPI_APPNUM, &number, &flag);
    if (flag) last = *number;
    CHECK(flag && last == 0);
}

int main(int argc, char **argv) {
    int all = 0;
    MPI_Init(&argc, &argv);
    MPI_Comm_rank(world, &rank);
    MPI_Comm_size(world, &size);
    MPI_Comm_set_errhandler(world, MPI_ERRORS_RETURN);
    classes();
    added();
    names();
    recipes();
    sizes();
    communicators();
    MPI_Reduce(&faults, &all, 1, MPI_INT, MPI_SUM, 0, world);
    if (rank == 0) printf("faults: %d\n", all);
    MPI_Finalize();
    return faults != 0;
}
