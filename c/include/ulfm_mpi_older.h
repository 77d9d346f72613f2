/* Calls for libraries that serve programs in Fortran, and for older programs: handles as numbers, and names that MPI took back. mpi.h includes it. */
#ifndef ULFM_MPI_OLDER_H
#define ULFM_MPI_OLDER_H

/* ---- Handles as Fortran has them (19.3.4), which libraries hand on. ---- */
typedef int MPI_Fint;
#define MPI_F_STATUS_SIZE 6
#define MPI_F_STATUS_IGNORE ((MPI_Fint *)0)
#define MPI_F_STATUSES_IGNORE ((MPI_Fint *)0)

MPI_Fint MPI_Comm_c2f(MPI_Comm handle);
MPI_Comm MPI_Comm_f2c(MPI_Fint handle);
MPI_Fint MPI_Type_c2f(MPI_Datatype handle);
MPI_Datatype MPI_Type_f2c(MPI_Fint handle);
MPI_Fint MPI_Group_c2f(MPI_Group handle);
MPI_Group MPI_Group_f2c(MPI_Fint handle);
MPI_Fint MPI_Op_c2f(MPI_Op handle);
MPI_Op MPI_Op_f2c(MPI_Fint handle);
MPI_Fint MPI_Request_c2f(MPI_Request handle);
MPI_Request MPI_Request_f2c(MPI_Fint handle);
MPI_Fint MPI_Info_c2f(MPI_Info handle);
MPI_Info MPI_Info_f2c(MPI_Fint handle);
MPI_Fint MPI_Errhandler_c2f(MPI_Errhandler handle);
MPI_Errhandler MPI_Errhandler_f2c(MPI_Fint handle);
MPI_Fint MPI_Message_c2f(MPI_Message handle);
MPI_Message MPI_Message_f2c(MPI_Fint handle);
int MPI_Status_c2f(const MPI_Status *status, MPI_Fint *words);
int MPI_Status_f2c(const MPI_Fint *words, MPI_Status *status);

/* ---- Names that MPI 3.0 took away (17.1): programs should have MPI_Get_address, MPI_Type_create_struct and their kin. ---- */
typedef MPI_Comm_errhandler_function MPI_Handler_function;
int MPI_Address(const void *location, MPI_Aint *address);
int MPI_Type_struct(int count, const int lengths[], const MPI_Aint displs[], const MPI_Datatype types[], MPI_Datatype *made);
int MPI_Type_hindexed(int count, const int lengths[], const MPI_Aint displs[], MPI_Datatype type, MPI_Datatype *made);
int MPI_Type_hvector(int count, int length, MPI_Aint stride, MPI_Datatype type, MPI_Datatype *made);
int MPI_Type_extent(MPI_Datatype type, MPI_Aint *extent);
int MPI_Type_lb(MPI_Datatype type, MPI_Aint *lower);
int MPI_Type_ub(MPI_Datatype type, MPI_Aint *upper);
int MPI_Errhandler_create(MPI_Handler_function *function, MPI_Errhandler *handler);
int MPI_Errhandler_set(MPI_Comm comm, MPI_Errhandler handler);
int MPI_Errhandler_get(MPI_Comm comm, MPI_Errhandler *handler);

#endif
