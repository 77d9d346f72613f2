/* Handles as numbers, as Fortran has them (MPI 4.0, 19.3.4). */
#include "mpi.h"
#include <string.h>

#define NUMBERS(name, type) \
    MPI_Fint MPI_##name##_c2f(type handle) { return (MPI_Fint)(uintptr_t)handle; } \
    type MPI_##name##_f2c(MPI_Fint handle) { return (type)(uintptr_t)(unsigned)handle; }
NUMBERS(Comm, MPI_Comm)
NUMBERS(Type, MPI_Datatype)
NUMBERS(Group, MPI_Group)
NUMBERS(Op, MPI_Op)
NUMBERS(Request, MPI_Request)
NUMBERS(Info, MPI_Info)
NUMBERS(Errhandler, MPI_Errhandler)
NUMBERS(Message, MPI_Message)
NUMBERS(Win, MPI_Win)

_Static_assert(sizeof(MPI_Status) == MPI_F_STATUS_SIZE * sizeof(MPI_Fint), "a status in numbers");

int MPI_Status_c2f(const MPI_Status *status, MPI_Fint *words) {
    if (!status || !words) return MPI_ERR_ARG;
    memcpy(words, status, sizeof *status);
    return MPI_SUCCESS;
}

int MPI_Status_f2c(const MPI_Fint *words, MPI_Status *status) {
    if (!status || !words) return MPI_ERR_ARG;
    memcpy(status, words, sizeof *status);
    return MPI_SUCCESS;
}
