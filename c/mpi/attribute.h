/* Attributes, of communicators, of datatypes and of windows. */
#ifndef UM_ATTRIBUTE_H
#define UM_ATTRIBUTE_H

#include "progress/rank.h"

enum kind_of_bearer { OF_COMMS, OF_TYPES, OF_WINDOWS };

/* A key: what copies and deletes the attributes with it. */
struct keyval {
    enum kind_of_bearer kind;
    union {
        struct {
            MPI_Comm_copy_attr_function *copies;
            MPI_Comm_delete_attr_function *deletes;
        } comm;
        struct {
            MPI_Type_copy_attr_function *copies;
            MPI_Type_delete_attr_function *deletes;
        } type;
        struct {
            MPI_Win_copy_attr_function *copies; /* a window is never duplicated */
            MPI_Win_delete_attr_function *deletes;
        } win;
    };
    void *more;
};

struct attribute {
    struct attribute *next;
    int keyval;
    void *value;
};

/* What has attributes, and its first one, the last that was set. */
struct bearer {
    enum kind_of_bearer kind;
    union {
        MPI_Comm comm;
        MPI_Datatype type;
        MPI_Win win;
    };
    struct attribute **first;
};

int um_create_keyval(const struct keyval *made, int *keyval);
int um_free_keyval(int *keyval, enum kind_of_bearer kind);
int um_set_attribute(const struct bearer *bearer, int keyval, void *value);
int um_delete_attribute(const struct bearer *bearer, int keyval);
int um_get_attribute(const struct bearer *bearer, int keyval, void *value, int *flag);
int um_copy_all_attributes(const struct bearer *from, struct attribute **end);
int um_delete_all_attributes(const struct bearer *bearer);

#endif
