/* What goes over from Fortran to C and back, and the calls that c/fortran.py can't write. */
#include "fortran/fortran.h"
#include <string.h>

/* The places of Fortran, common blocks of mpif.h. */
#define PLACE __attribute__((aligned(32)))
PLACE MPI_Fint ulfm_f_bottom_, ulfm_f_in_place_, ulfm_f_status_ignore_[MPI_F_STATUS_SIZE], ulfm_f_statuses_ignore_[MPI_F_STATUS_SIZE];
PLACE MPI_Fint ulfm_f_unweighted_[1], ulfm_f_weights_empty_[1];

int um_f_called(int code) {
    ulfm_mpi_called_from(0);
    return code;
}

void *um_f_buffer(const void *buffer) {
    if (buffer == &ulfm_f_bottom_) return MPI_BOTTOM;
    return buffer == &ulfm_f_in_place_ ? MPI_IN_PLACE : (void *)(uintptr_t)buffer;
}

int *um_f_weights(const MPI_Fint *weights) {
    if (weights == ulfm_f_unweighted_) return MPI_UNWEIGHTED;
    return weights == ulfm_f_weights_empty_ ? MPI_WEIGHTS_EMPTY : (int *)(uintptr_t)weights;
}

MPI_Status *um_f_status(const MPI_Fint *words, MPI_Status *room) {
    if (words == ulfm_f_status_ignore_) return MPI_STATUS_IGNORE;
    MPI_Status_f2c(words, room);
    return room;
}

void um_f_tell_status(MPI_Fint *words, const MPI_Status *status) {
    if (status) MPI_Status_c2f(status, words);
}

static size_t room_for(int count, size_t size) { return count > 0 ? (size_t)count * size : size; }

MPI_Status *um_f_statuses(const MPI_Fint *words, int count) {
    if (words == ulfm_f_statuses_ignore_ || words == ulfm_f_status_ignore_) return MPI_STATUSES_IGNORE;
    MPI_Status *made = malloc(room_for(count, sizeof *made));
    for (int k = 0; made && k < count; k++) MPI_Status_f2c(words + k * MPI_F_STATUS_SIZE, &made[k]);
    return made;
}

void um_f_tell_statuses(MPI_Fint *words, MPI_Status *statuses, int count) {
    for (int k = 0; statuses && k < count; k++) MPI_Status_c2f(&statuses[k], words + k * MPI_F_STATUS_SIZE);
    free(statuses);
}

/* A handle is its number, in the width of an address. */
void *um_f_list(const MPI_Fint *numbers, int count) {
    uintptr_t *made = malloc(room_for(count, sizeof *made));
    for (int k = 0; made && k < count; k++) made[k] = (uintptr_t)MPI_Request_f2c(numbers[k]);
    return made;
}

void um_f_tell_list(MPI_Fint *numbers, void *list, int count) {
    MPI_Request *handles = list;
    for (int k = 0; handles && k < count; k++) numbers[k] = MPI_Request_c2f(handles[k]);
    free(list);
}

void um_f_text_to_c(char *made, const char *text, size_t length) {
    size_t first = 0;
    while (length > 0 && text[length - 1] == ' ') length--;
    while (first < length && text[first] == ' ') first++;
    memcpy(made, text + first, length - first);
    made[length - first] = 0;
}

void um_f_text_of_c(char *text, size_t length, const char *of) {
    size_t used = strnlen(of, length);
    memcpy(text, of, used);
    memset(text + used, ' ', length - used);
}

int um_f_size(const MPI_Fint *comm) {
    int size = 0;
    return MPI_Comm_size(MPI_Comm_f2c(*comm), &size) == MPI_SUCCESS ? size : 0;
}

/* ---- Calls that are written by hand ---- */

void mpi_init_(MPI_Fint *ierror) { *ierror = AT(MPI_Init(0, 0)); }

void mpi_init_thread_(const MPI_Fint *required, MPI_Fint *provided, MPI_Fint *ierror) { *ierror = AT(MPI_Init_thread(0, 0, *required, provided)); }

/* The value of an attribute that is there is a number in Fortran (MPI 4.0, 19.3.7), and in C its address. */
void mpi_comm_get_attr_(const MPI_Fint *comm, const MPI_Fint *keyval, MPI_Aint *value, MPI_Fint *flag, MPI_Fint *ierror) {
    void *at = 0;
    *ierror = AT(MPI_Comm_get_attr(MPI_Comm_f2c(*comm), *keyval, &at, flag));
    if (*ierror == MPI_SUCCESS && *flag) *value = *keyval <= MPI_APPNUM ? *(int *)at : (MPI_Aint)at;
}

/* ---- The end of a rank: what its units still hold is written, as at the end of a process ---- */

extern void _gfortran_flush_i4(const int *unit) __attribute__((weak));

static void write_units(void) {
    if (_gfortran_flush_i4) _gfortran_flush_i4(0);
}

static void __attribute__((constructor)) begin(void) { atexit(write_units); }
