/* Attributes of datatypes (MPI 4.0, 7.7.4). */
#include "mpi/attribute.h"
#include "mpi/calls.h"
#include "types/types.h"
#include <stdlib.h>

int MPI_TYPE_NULL_COPY_FN(MPI_Datatype type, int keyval, void *more, void *in, void *out, int *flag) {
    (void)type, (void)keyval, (void)more, (void)in, (void)out;
    *flag = 0;
    return MPI_SUCCESS;
}

int MPI_TYPE_DUP_FN(MPI_Datatype type, int keyval, void *more, void *in, void *out, int *flag) {
    (void)type, (void)keyval, (void)more;
    *(void **)out = in;
    *flag = 1;
    return MPI_SUCCESS;
}

int MPI_TYPE_NULL_DELETE_FN(MPI_Datatype type, int keyval, void *value, void *more) {
    (void)type, (void)keyval, (void)value, (void)more;
    return MPI_SUCCESS;
}

int MPI_Type_create_keyval(MPI_Type_copy_attr_function *copies, MPI_Type_delete_attr_function *deletes, int *keyval, void *more) {
    ENTER_LOOK(0, MPI_UNDEFINED, MPI_UNDEFINED);
    struct keyval made = {.kind = OF_TYPES, .more = more};
    made.type.copies = copies ? copies : MPI_TYPE_NULL_COPY_FN;
    made.type.deletes = deletes ? deletes : MPI_TYPE_NULL_DELETE_FN;
    return um_create_keyval(&made, keyval);
}

int MPI_Type_free_keyval(int *keyval) {
    ENTER_LOOK(0, MPI_UNDEFINED, MPI_UNDEFINED);
    return um_free_keyval(keyval, OF_TYPES);
}

/* What bears the attributes of a type. All ranks share the basic types, whose attributes are the rank's own. False where there is no memory. */
static bool find_bearer(MPI_Datatype handle, struct bearer *bearer) {
    struct type *type = um_type_at(handle);
    if (type->is_basic && !um_me->mpi.basic_attributes) um_me->mpi.basic_attributes = calloc(BASIC_TYPES, sizeof(struct attribute *));
    if (type->is_basic && !um_me->mpi.basic_attributes) return false;
    *bearer = (struct bearer){
        .kind = OF_TYPES, .type = handle, .first = type->is_basic ? &um_me->mpi.basic_attributes[(uintptr_t)handle] : &type->attributes};
    return true;
}

/* Begins a call on a type. */
#define TYPE(type) \
    struct bearer bearer; \
    ENTER_LOOK(0, MPI_UNDEFINED, MPI_UNDEFINED); \
    if (!um_type_at(type)) return um_fail(0, MPI_ERR_TYPE); \
    if (!find_bearer(type, &bearer)) return um_fail(0, MPI_ERR_NO_MEM)

int MPI_Type_set_attr(MPI_Datatype type, int keyval, void *value) {
    TYPE(type);
    return um_answer(0, um_set_attribute(&bearer, keyval, value));
}

int MPI_Type_get_attr(MPI_Datatype type, int keyval, void *value, int *flag) {
    TYPE(type);
    WRITES(0, value && flag);
    return um_answer(0, um_get_attribute(&bearer, keyval, value, flag));
}

int MPI_Type_delete_attr(MPI_Datatype type, int keyval) {
    TYPE(type);
    return um_answer(0, um_delete_attribute(&bearer, keyval));
}

/* A duplicate of a type, which a copy function that fails takes back. */
int um_copy_type_attributes(MPI_Datatype from, MPI_Datatype to) {
    struct bearer bearer;
    return find_bearer(from, &bearer) ? um_copy_all_attributes(&bearer, &um_type_at(to)->attributes) : MPI_ERR_NO_MEM;
}

/* The type is freed by the handle that it was made with. */
int um_delete_type_attributes(MPI_Datatype handle) {
    struct bearer bearer = {.kind = OF_TYPES, .type = handle, .first = &um_type_at(handle)->attributes};
    return um_delete_all_attributes(&bearer);
}

void um_clear_basic_attributes(void) {
    for (int k = 0; k < BASIC_TYPES && um_me->mpi.basic_attributes; k++) um_free_attributes(um_me->mpi.basic_attributes[k]);
    free(um_me->mpi.basic_attributes);
    um_me->mpi.basic_attributes = 0;
}
