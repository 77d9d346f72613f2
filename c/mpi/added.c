/* Classes, codes and texts of errors that a program adds (MPI 4.0, 9.5). */
#include "mpi/calls.h"
#include "progress/progress.h"
#include <stdlib.h>

/* A class is what MPI_Error_class takes of a code, its last eight bits. Codes have details above those of the layer's own. */
enum { FIRST_CLASS = MPI_ERR_LASTCODE + 1, END_OF_CLASSES = 256, FIRST_DETAIL = 16 };

struct added {
    int code;
    char text[MPI_MAX_ERROR_STRING];
};

static struct added *added_at(int code) {
    for (int k = 0; um_me && k < um_me->mpi.added_count; k++)
        if (um_me->mpi.added[k].code == code) return &um_me->mpi.added[k];
    return 0;
}

/* The text of a class or code that the program added, empty where it gave none; null where it didn't add it. */
const char *um_text_of_added(int code) {
    const struct added *added = added_at(code);
    return added ? added->text : 0;
}

static int add(int code, int *made) {
    if (!um_grow(&um_me->mpi.added, um_me->mpi.added_count, sizeof *um_me->mpi.added)) return MPI_ERR_NO_MEM;
    um_me->mpi.added[um_me->mpi.added_count++] = (struct added){.code = code};
    if (code > um_me->mpi.last_code) um_me->mpi.last_code = code;
    *made = code;
    return MPI_SUCCESS;
}

/* The value of MPI_LASTUSEDCODE: it grows with what is added. */
int *um_last_used_code(void) {
    if (um_me->mpi.last_code < MPI_ERR_LASTCODE) um_me->mpi.last_code = MPI_ERR_LASTCODE;
    return &um_me->mpi.last_code;
}

int MPI_Add_error_class(int *errorclass) {
    ENTER_LOOK(0, MPI_UNDEFINED, MPI_UNDEFINED);
    WRITES(0, errorclass);
    int number = FIRST_CLASS;
    while (number < END_OF_CLASSES && added_at(number)) number++;
    return um_answer(0, number < END_OF_CLASSES ? add(number, errorclass) : MPI_ERR_OTHER);
}

int MPI_Add_error_code(int errorclass, int *errorcode) {
    ENTER_LOOK(0, MPI_UNDEFINED, MPI_UNDEFINED);
    WRITES(0, errorcode);
    bool is_class = errorclass >= 0 && (errorclass <= MPI_ERR_LASTCODE || (errorclass < END_OF_CLASSES && added_at(errorclass)));
    return um_answer(0, is_class ? add(errorclass | (FIRST_DETAIL + um_me->mpi.added_count) << 8, errorcode) : MPI_ERR_ARG);
}

int MPI_Add_error_string(int errorcode, const char *string) {
    ENTER_LOOK(0, MPI_UNDEFINED, MPI_UNDEFINED);
    struct added *added = added_at(errorcode);
    WRITES(0, added && string);
    snprintf(added->text, sizeof added->text, "%s", string);
    return MPI_SUCCESS;
}

void um_clear_added(void) {
    free(um_me->mpi.added);
    um_me->mpi.added = 0;
    um_me->mpi.added_count = um_me->mpi.last_code = 0;
}
