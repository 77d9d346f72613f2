/* Attributes of communicators and of datatypes. mpi.h includes it. */
#ifndef ULFM_MPI_ATTRIBUTES_H
#define ULFM_MPI_ATTRIBUTES_H

/* ---- Attributes of communicators (7.7). The value of one that is there is a pointer to an int (9.1.2). ---- */
typedef int MPI_Comm_copy_attr_function(MPI_Comm comm, int keyval, void *more, void *in, void *out, int *flag);
typedef int MPI_Comm_delete_attr_function(MPI_Comm comm, int keyval, void *value, void *more);
MPI_Comm_copy_attr_function MPI_COMM_NULL_COPY_FN, MPI_COMM_DUP_FN;
MPI_Comm_delete_attr_function MPI_COMM_NULL_DELETE_FN;
int MPI_Comm_create_keyval(MPI_Comm_copy_attr_function *copies, MPI_Comm_delete_attr_function *deletes, int *keyval, void *more);
int MPI_Comm_free_keyval(int *keyval);
int MPI_Comm_set_attr(MPI_Comm comm, int keyval, void *value);
int MPI_Comm_get_attr(MPI_Comm comm, int keyval, void *value, int *flag);
int MPI_Comm_delete_attr(MPI_Comm comm, int keyval);

/* ---- Attributes of datatypes (7.7.4). ---- */
typedef int MPI_Type_copy_attr_function(MPI_Datatype type, int keyval, void *more, void *in, void *out, int *flag);
typedef int MPI_Type_delete_attr_function(MPI_Datatype type, int keyval, void *value, void *more);
MPI_Type_copy_attr_function MPI_TYPE_NULL_COPY_FN, MPI_TYPE_DUP_FN;
MPI_Type_delete_attr_function MPI_TYPE_NULL_DELETE_FN;
int MPI_Type_create_keyval(MPI_Type_copy_attr_function *copies, MPI_Type_delete_attr_function *deletes, int *keyval, void *more);
int MPI_Type_free_keyval(int *keyval);
int MPI_Type_set_attr(MPI_Datatype type, int keyval, void *value);
int MPI_Type_get_attr(MPI_Datatype type, int keyval, void *value, int *flag);
int MPI_Type_delete_attr(MPI_Datatype type, int keyval);

/* ---- Attributes of communicators by the names that are deprecated (16.1). ---- */
typedef MPI_Comm_copy_attr_function MPI_Copy_function;
typedef MPI_Comm_delete_attr_function MPI_Delete_function;
MPI_Copy_function MPI_NULL_COPY_FN, MPI_DUP_FN;
MPI_Delete_function MPI_NULL_DELETE_FN;
int MPI_Keyval_create(MPI_Copy_function *copies, MPI_Delete_function *deletes, int *keyval, void *more);
int MPI_Keyval_free(int *keyval);
int MPI_Attr_put(MPI_Comm comm, int keyval, void *value);
int MPI_Attr_get(MPI_Comm comm, int keyval, void *value, int *flag);
int MPI_Attr_delete(MPI_Comm comm, int keyval);

#endif
