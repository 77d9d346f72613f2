/* What a datatype is called (MPI 4.0, 7.8) and how it was made (5.1.13). */
#include "mpi/calls.h"
#include "types/types.h"
#include <stdlib.h>
#include <string.h>

/* The arguments of the call that made a type, without what it wrote. */
struct recipe {
    int combiner, ints, addresses, types;
    int *number;
    MPI_Aint *address;
    struct type **type;
};

/* Of the basic types, by their numbers. */
/* clang-format off */
static const char *const names[BASIC_TYPES] = {
    "MPI_DATATYPE_NULL", "MPI_CHAR", "MPI_SIGNED_CHAR", "MPI_UNSIGNED_CHAR", "MPI_BYTE", "MPI_PACKED", "MPI_SHORT", "MPI_UNSIGNED_SHORT",
    "MPI_INT", "MPI_UNSIGNED", "MPI_LONG", "MPI_UNSIGNED_LONG", "MPI_LONG_LONG_INT", "MPI_UNSIGNED_LONG_LONG", "MPI_FLOAT", "MPI_DOUBLE",
    "MPI_LONG_DOUBLE", "MPI_WCHAR", "MPI_C_BOOL", "MPI_INT8_T", "MPI_INT16_T", "MPI_INT32_T", "MPI_INT64_T", "MPI_UINT8_T", "MPI_UINT16_T",
    "MPI_UINT32_T", "MPI_UINT64_T", "MPI_AINT", "MPI_OFFSET", "MPI_COUNT", "MPI_FLOAT_INT", "MPI_DOUBLE_INT", "MPI_LONG_INT", "MPI_2INT",
    "MPI_SHORT_INT", "MPI_LONG_DOUBLE_INT", "MPI_C_COMPLEX", "MPI_C_DOUBLE_COMPLEX", "MPI_C_LONG_DOUBLE_COMPLEX",
    "MPI_LB", "MPI_UB", "MPI_2REAL", "MPI_2DOUBLE_PRECISION"};
/* clang-format on */

/* Where the name stands that a program gave a type; of a basic one, null where it gave none and there is no memory for it. */
static char *name_of(MPI_Datatype handle, bool is_written) {
    struct type *type = um_type_at(handle);
    if (!type->is_basic) return type->name;
    if (!um_me->mpi.type_names && is_written) um_me->mpi.type_names = calloc(BASIC_TYPES, sizeof *um_me->mpi.type_names);
    return um_me->mpi.type_names ? um_me->mpi.type_names[(uintptr_t)handle] : 0;
}

int MPI_Type_set_name(MPI_Datatype type, const char *name) {
    ENTER_LOOK(0, MPI_UNDEFINED, MPI_UNDEFINED);
    if (!um_type_at(type)) return um_fail(0, MPI_ERR_TYPE);
    WRITES(0, name);
    char *at = name_of(type, true);
    if (!at) return um_fail(0, MPI_ERR_NO_MEM);
    snprintf(at, MPI_MAX_OBJECT_NAME, "%s", name);
    return MPI_SUCCESS;
}

int MPI_Type_get_name(MPI_Datatype type, char *name, int *length) {
    ENTER_LOOK(0, MPI_UNDEFINED, MPI_UNDEFINED);
    if (!um_type_at(type)) return um_fail(0, MPI_ERR_TYPE);
    WRITES(0, name && length);
    const char *own = name_of(type, false);
    if ((!own || !*own) && um_type_at(type)->is_basic) own = names[(uintptr_t)type];
    *length = snprintf(name, MPI_MAX_OBJECT_NAME, "%s", own);
    return MPI_SUCCESS;
}

void um_free_recipe(struct recipe *recipe) {
    if (!recipe) return;
    for (int k = 0; k < recipe->types; k++) um_free_type(recipe->type[k]);
    free(recipe->number);
    free(recipe->address);
    free(recipe->type);
    free(recipe);
}

/* The recipe of a call's arguments, or null where there is no memory. */
static struct recipe *write_recipe(const struct arguments *of) {
    struct recipe *recipe = calloc(1, sizeof *recipe);
    size_t ints = 0;
    for (int k = 0; k < INT_LISTS; k++) ints += (size_t)of->ints[k].count;
    if (recipe) {
        recipe->number = malloc((ints + 1) * sizeof *recipe->number);
        recipe->address = malloc(((size_t)of->addresses + 1) * sizeof *recipe->address);
        recipe->type = malloc(((size_t)of->types + 1) * sizeof(struct type *));
    }
    if (!recipe || !recipe->number || !recipe->address || !recipe->type) {
        um_free_recipe(recipe);
        return 0;
    }
    recipe->combiner = of->combiner;
    for (int k = 0; k < INT_LISTS; k++)
        for (int j = 0; j < of->ints[k].count; j++) recipe->number[recipe->ints++] = of->ints[k].at[j];
    for (; recipe->addresses < of->addresses; recipe->addresses++) recipe->address[recipe->addresses] = of->address[recipe->addresses];
    for (; recipe->types < of->types; recipe->types++) {
        struct type *type = recipe->type[recipe->types] = um_type_at(of->type[recipe->types]);
        if (!type->is_basic) type->users++;
    }
    return recipe;
}

/* Keeps how a type was made, where it was (`code`). */
int um_describe(int code, MPI_Datatype *made, const struct arguments *arguments) {
    if (code != MPI_SUCCESS) return code;
    um_type_at(*made)->recipe = write_recipe(arguments);
    if (um_type_at(*made)->recipe) return MPI_SUCCESS;
    um_drop_type(*made);
    *made = MPI_DATATYPE_NULL;
    return MPI_ERR_NO_MEM;
}

static const struct recipe *recipe_of(const struct type *type) {
    static const struct recipe named = {.combiner = MPI_COMBINER_NAMED};
    return type->recipe ? type->recipe : &named;
}

int MPI_Type_get_envelope(MPI_Datatype type, int *ints, int *addresses, int *types, int *combiner) {
    ENTER_LOOK(0, MPI_UNDEFINED, MPI_UNDEFINED);
    if (!um_type_at(type)) return um_fail(0, MPI_ERR_TYPE);
    WRITES(0, ints && addresses && types && combiner);
    const struct recipe *recipe = recipe_of(um_type_at(type));
    *ints = recipe->ints;
    *addresses = recipe->addresses;
    *types = recipe->types;
    *combiner = recipe->combiner;
    return MPI_SUCCESS;
}

/* No type has large counts here: how one was made by a call that has them isn't told. */
int MPI_Type_get_envelope_c(MPI_Datatype type, MPI_Count *ints, MPI_Count *addresses, MPI_Count *counts, MPI_Count *types, int *combiner) {
    ENTER_LOOK(0, MPI_UNDEFINED, MPI_UNDEFINED);
    if (!um_type_at(type)) return um_fail(0, MPI_ERR_TYPE);
    WRITES(0, ints && addresses && counts && types && combiner);
    const struct recipe *recipe = recipe_of(um_type_at(type));
    *ints = recipe->ints;
    *addresses = recipe->addresses;
    *counts = 0;
    *types = recipe->types;
    *combiner = recipe->combiner;
    return MPI_SUCCESS;
}

/* A handle of a type of a recipe: the program frees it where it isn't a basic one. */
static int hand_out(struct type *type, MPI_Datatype *handle) {
    if (type->is_basic) {
        *handle = um_handle_of_basic(type);
        return MPI_SUCCESS;
    }
    type->users++;
    return um_add_type(type, handle);
}

/* Where a program has room for the arguments of a type, and for how many of each kind. */
struct room {
    MPI_Count ints, addresses, types;
    int *number;
    MPI_Aint *address;
    MPI_Datatype *type;
};

static int tell_contents(MPI_Datatype type, struct room to) {
    const struct recipe *recipe = um_type_at(type) ? um_type_at(type)->recipe : 0;
    int code = MPI_SUCCESS;
    if (!recipe) return um_fail(0, MPI_ERR_TYPE);
    if (to.ints < recipe->ints || to.addresses < recipe->addresses || to.types < recipe->types) return um_fail(0, MPI_ERR_ARG);
    WRITES(0, (to.number || !recipe->ints) && (to.address || !recipe->addresses) && (to.type || !recipe->types));
    if (recipe->ints) memcpy(to.number, recipe->number, (size_t)recipe->ints * sizeof *to.number);
    if (recipe->addresses) memcpy(to.address, recipe->address, (size_t)recipe->addresses * sizeof *to.address);
    for (int k = 0; k < recipe->types && code == MPI_SUCCESS; k++) code = hand_out(recipe->type[k], &to.type[k]);
    return um_answer(0, code);
}

int MPI_Type_get_contents(MPI_Datatype type, int ints, int addresses, int types, int number[], MPI_Aint address[], MPI_Datatype of[]) {
    ENTER_LOOK(0, MPI_UNDEFINED, MPI_UNDEFINED);
    return tell_contents(type, (struct room){ints, addresses, types, number, address, of});
}

int MPI_Type_get_contents_c(MPI_Datatype type, MPI_Count ints, MPI_Count addresses, MPI_Count counts, MPI_Count types, int number[],
                            MPI_Aint address[], MPI_Count large[], MPI_Datatype of[]) {
    (void)counts, (void)large;
    ENTER_LOOK(0, MPI_UNDEFINED, MPI_UNDEFINED);
    return tell_contents(type, (struct room){ints, addresses, types, number, address, of});
}
