/* Programs that were written for Open MPI include this for the calls of ULFM, and ask for the macro. Here mpi.h has the calls. */
#ifndef ULFM_MPI_EXT_H
#define ULFM_MPI_EXT_H

#include "mpi.h"

#define OMPI_HAVE_MPI_EXT_FTMPI 1

#endif
