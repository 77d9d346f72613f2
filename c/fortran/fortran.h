/* What the calls of Fortran share. They are linked into the program, so that each rank has the places of its own by which Fortran names what C names by
   an address: MPI_BOTTOM, MPI_IN_PLACE, MPI_STATUS_IGNORE and their kin (MPI 4.0, 19.1.4). */
#ifndef ULFM_FORTRAN_H
#define ULFM_FORTRAN_H

#include "mpi.h"
#include <stdlib.h>

/* Of the layer: where the program's next call of MPI stands, which a wrapper makes for it; null: where it is made. */
void ulfm_mpi_called_from(const void *from);

/* Makes a call for the program that called the wrapper. */
#define AT(call) (ulfm_mpi_called_from(__builtin_return_address(0)), um_f_called(call))
int um_f_called(int code);

/* The buffer that stands for a place of Fortran, and those weights. */
void *um_f_buffer(const void *buffer);
int *um_f_weights(const MPI_Fint *weights);

/* A status as C has it, in the room that is given, or MPI_STATUS_IGNORE; and back. */
MPI_Status *um_f_status(const MPI_Fint *words, MPI_Status *room);
void um_f_tell_status(MPI_Fint *words, const MPI_Status *status);
MPI_Status *um_f_statuses(const MPI_Fint *words, int count);
void um_f_tell_statuses(MPI_Fint *words, MPI_Status *statuses, int count);

/* A list of handles as C has it, and back; null where there is no memory. */
void *um_f_list(const MPI_Fint *numbers, int count);
void um_f_tell_list(MPI_Fint *numbers, void *list, int count);

/* A text without the blanks around it, with an end; and one of C with blanks behind it. */
void um_f_text_to_c(char *made, const char *text, size_t length);
void um_f_text_of_c(char *text, size_t length, const char *of);

/* How many members a communicator has; 0: it isn't one. */
int um_f_size(const MPI_Fint *comm);

#endif
