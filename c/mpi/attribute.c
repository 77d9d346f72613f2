/* Attributes of communicators (MPI 4.0, 7.7 and 9.1): those that are there, and a program's own, with what copies and deletes them. */
#include "mpi/attribute.h"
#include "mpi/calls.h"
#include "progress/progress.h"
#include <stdlib.h>

enum { FIRST_OWN = 64 };

int MPI_COMM_NULL_COPY_FN(MPI_Comm comm, int keyval, void *more, void *in, void *out, int *flag) {
    (void)comm, (void)keyval, (void)more, (void)in, (void)out;
    *flag = 0;
    return MPI_SUCCESS;
}

int MPI_COMM_DUP_FN(MPI_Comm comm, int keyval, void *more, void *in, void *out, int *flag) {
    (void)comm, (void)keyval, (void)more;
    *(void **)out = in;
    *flag = 1;
    return MPI_SUCCESS;
}

int MPI_COMM_NULL_DELETE_FN(MPI_Comm comm, int keyval, void *value, void *more) {
    (void)comm, (void)keyval, (void)value, (void)more;
    return MPI_SUCCESS;
}

static struct keyval *keyval_at(int keyval, enum kind_of_bearer kind) {
    struct keyval *at = keyval >= FIRST_OWN && keyval - FIRST_OWN < um_me->mpi.keyval_count ? &um_me->mpi.keyvals[keyval - FIRST_OWN] : 0;
    return at && at->kind == kind ? at : 0;
}

int um_create_keyval(const struct keyval *made, int *keyval) {
    WRITES(0, keyval);
    if (!um_grow(&um_me->mpi.keyvals, um_me->mpi.keyval_count, sizeof *um_me->mpi.keyvals)) return um_fail(0, MPI_ERR_NO_MEM);
    um_me->mpi.keyvals[um_me->mpi.keyval_count] = *made;
    *keyval = FIRST_OWN + um_me->mpi.keyval_count++;
    return MPI_SUCCESS;
}

/* MPI_COMM_NULL_COPY_FN and MPI_COMM_NULL_DELETE_FN are null pointers in MPICH, and programs pass null for them. */
int MPI_Comm_create_keyval(MPI_Comm_copy_attr_function *copies, MPI_Comm_delete_attr_function *deletes, int *keyval, void *more) {
    ENTER_LOOK(0, MPI_UNDEFINED, MPI_UNDEFINED);
    struct keyval made = {.more = more};
    made.comm.copies = copies ? copies : MPI_COMM_NULL_COPY_FN;
    made.comm.deletes = deletes ? deletes : MPI_COMM_NULL_DELETE_FN;
    return um_create_keyval(&made, keyval);
}

/* The handle goes; attributes with it stay (7.7.2). */
int um_free_keyval(int *keyval, enum kind_of_bearer kind) {
    WRITES(0, keyval);
    if (!keyval_at(*keyval, kind)) return um_fail(0, MPI_ERR_KEYVAL);
    *keyval = MPI_KEYVAL_INVALID;
    return MPI_SUCCESS;
}

int MPI_Comm_free_keyval(int *keyval) {
    ENTER_LOOK(0, MPI_UNDEFINED, MPI_UNDEFINED);
    return um_free_keyval(keyval, OF_COMMS);
}

static struct attribute **place_of(struct attribute **at, int keyval) {
    while (*at && (*at)->keyval != keyval) at = &(*at)->next;
    return at;
}

static int deletes(const struct bearer *bearer, const struct keyval *keyval, const struct attribute *of) {
    if (keyval->kind == OF_COMMS) return keyval->comm.deletes(bearer->comm, of->keyval, of->value, keyval->more);
    if (keyval->kind == OF_TYPES) return keyval->type.deletes(bearer->type, of->keyval, of->value, keyval->more);
    return keyval->win.deletes(bearer->win, of->keyval, of->value, keyval->more);
}

/* Takes an attribute away, where its deletion allows that. */
static int delete_at(const struct bearer *bearer, struct attribute **at) {
    struct attribute *attribute = *at;
    const struct keyval *keyval = &um_me->mpi.keyvals[attribute->keyval - FIRST_OWN];
    int code = deletes(bearer, keyval, attribute);
    if (code != MPI_SUCCESS) return code;
    *at = attribute->next;
    free(attribute);
    return MPI_SUCCESS;
}

/* Puts an attribute at a place of the list, before the one that stands there. */
static int add(struct attribute **at, int keyval, void *value) {
    struct attribute *attribute = malloc(sizeof *attribute);
    if (!attribute) return MPI_ERR_NO_MEM;
    *attribute = (struct attribute){*at, keyval, value};
    *at = attribute;
    return MPI_SUCCESS;
}

int um_set_attribute(const struct bearer *bearer, int keyval, void *value) {
    if (!keyval_at(keyval, bearer->kind)) return MPI_ERR_KEYVAL;
    struct attribute **at = place_of(bearer->first, keyval);
    int code = *at ? delete_at(bearer, at) : MPI_SUCCESS;
    return code != MPI_SUCCESS ? code : add(bearer->first, keyval, value);
}

int um_delete_attribute(const struct bearer *bearer, int keyval) {
    if (!keyval_at(keyval, bearer->kind)) return MPI_ERR_KEYVAL;
    struct attribute **at = place_of(bearer->first, keyval);
    return *at ? delete_at(bearer, at) : MPI_SUCCESS;
}

int um_get_attribute(const struct bearer *bearer, int keyval, void *value, int *flag) {
    if (!keyval_at(keyval, bearer->kind)) return MPI_ERR_KEYVAL;
    const struct attribute *own = *place_of(bearer->first, keyval);
    *flag = own != 0;
    if (own) *(void **)value = own->value;
    return MPI_SUCCESS;
}

/* A duplicate gets those whose copy function says so (7.7.2), in the same order, so that the last one that was set is the first to be deleted
   there too. */
int um_copy_all_attributes(const struct bearer *from, struct attribute **end) {
    int code = MPI_SUCCESS;
    for (struct attribute *of = *from->first; of && code == MPI_SUCCESS; of = of->next) {
        const struct keyval *keyval = &um_me->mpi.keyvals[of->keyval - FIRST_OWN];
        void *value = 0;
        int flag = 0;
        code = keyval->kind == OF_TYPES ? keyval->type.copies(from->type, of->keyval, keyval->more, of->value, &value, &flag)
                                        : keyval->comm.copies(from->comm, of->keyval, keyval->more, of->value, &value, &flag);
        if (code == MPI_SUCCESS && flag) code = add(end, of->keyval, value);
        if (*end) end = &(*end)->next;
    }
    return code;
}

/* Deletes all, the last one first. The first error ends it. */
int um_delete_all_attributes(const struct bearer *bearer) {
    int code = MPI_SUCCESS;
    while (*bearer->first && code == MPI_SUCCESS) code = delete_at(bearer, bearer->first);
    return code;
}

void um_free_attributes(struct attribute *first) {
    while (first) {
        struct attribute *next = first->next;
        free(first);
        first = next;
    }
}

static struct bearer bearer_of(struct comm *comm) {
    return (struct bearer){.kind = OF_COMMS, .comm = um_handle_of(comm), .first = &comm->attributes};
}

int um_copy_attributes(struct comm *from, struct comm *to) {
    struct bearer bearer = bearer_of(from);
    return um_copy_all_attributes(&bearer, &to->attributes);
}

int um_delete_attributes(struct comm *comm) {
    struct bearer bearer = bearer_of(comm);
    return um_delete_all_attributes(&bearer);
}

int MPI_Comm_set_attr(MPI_Comm comm, int keyval, void *value) {
    struct comm *of = um_comm_at(comm);
    ENTER_LOOK(of, MPI_UNDEFINED, MPI_UNDEFINED);
    if (!of) return um_fail(0, MPI_ERR_COMM);
    struct bearer bearer = bearer_of(of);
    return um_answer(of, um_set_attribute(&bearer, keyval, value));
}

int MPI_Comm_delete_attr(MPI_Comm comm, int keyval) {
    struct comm *of = um_comm_at(comm);
    ENTER_LOOK(of, MPI_UNDEFINED, MPI_UNDEFINED);
    if (!of) return um_fail(0, MPI_ERR_COMM);
    struct bearer bearer = bearer_of(of);
    return um_answer(of, um_delete_attribute(&bearer, keyval));
}

/* The attributes that are there: the value is a pointer to a number. */
static int *value_of(int keyval) {
    static int tags = MPI_TAG_UB_VALUE, host = MPI_PROC_NULL, io = MPI_ANY_SOURCE, is_global = 1, program = 0;
    switch (keyval) {
    case MPI_TAG_UB: return &tags;
    case MPI_HOST: return &host;
    case MPI_IO: return &io;
    case MPI_WTIME_IS_GLOBAL: return &is_global;
    case MPI_UNIVERSE_SIZE: return &um_options.ranks;
    case MPI_LASTUSEDCODE: return um_last_used_code();
    case MPI_APPNUM: return &program;
    default: return 0;
    }
}

int MPI_Comm_get_attr(MPI_Comm comm, int keyval, void *value, int *flag) {
    struct comm *of = um_comm_at(comm);
    ENTER_LOOK(of, MPI_UNDEFINED, MPI_UNDEFINED);
    if (!of) return um_fail(0, MPI_ERR_COMM);
    WRITES(of, value && flag);
    int *there = value_of(keyval);
    struct bearer bearer = bearer_of(of);
    if (!there) return um_answer(of, um_get_attribute(&bearer, keyval, value, flag));
    *flag = 1;
    *(void **)value = there;
    return MPI_SUCCESS;
}

/* What a program added to the errors goes too: one of the attributes that are there points to it. */
void um_clear_keyvals(void) {
    um_clear_added();
    free(um_me->mpi.keyvals);
    um_me->mpi.keyvals = 0;
    um_me->mpi.keyval_count = 0;
}

/* The older names (16.1). A report has the newer one. */
ALSO(MPI_NULL_COPY_FN, MPI_COMM_NULL_COPY_FN);
ALSO(MPI_DUP_FN, MPI_COMM_DUP_FN);
ALSO(MPI_NULL_DELETE_FN, MPI_COMM_NULL_DELETE_FN);
ALSO(MPI_Keyval_create, MPI_Comm_create_keyval);
ALSO(MPI_Keyval_free, MPI_Comm_free_keyval);
ALSO(MPI_Attr_put, MPI_Comm_set_attr);
ALSO(MPI_Attr_get, MPI_Comm_get_attr);
ALSO(MPI_Attr_delete, MPI_Comm_delete_attr);
