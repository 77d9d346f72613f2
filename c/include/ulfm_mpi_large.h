/* Datatypes, packing and statuses by counts that an int doesn't hold (2.5.8). How a type was made by such a call isn't told. mpi.h includes this;
   ulfm_mpi_made.h has the messages and the collectives. */
#ifndef ULFM_MPI_LARGE_COUNTS_H
#define ULFM_MPI_LARGE_COUNTS_H

int MPI_Type_contiguous_c(MPI_Count count, MPI_Datatype type, MPI_Datatype *made);
int MPI_Type_vector_c(MPI_Count count, MPI_Count length, MPI_Count stride, MPI_Datatype type, MPI_Datatype *made);
int MPI_Type_create_hvector_c(MPI_Count count, MPI_Count length, MPI_Count stride, MPI_Datatype type, MPI_Datatype *made);
int MPI_Type_indexed_c(MPI_Count count, const MPI_Count lengths[], const MPI_Count displs[], MPI_Datatype type, MPI_Datatype *made);
int MPI_Type_create_hindexed_c(MPI_Count count, const MPI_Count lengths[], const MPI_Count displs[], MPI_Datatype type, MPI_Datatype *made);
int MPI_Type_create_indexed_block_c(MPI_Count count, MPI_Count length, const MPI_Count displs[], MPI_Datatype type, MPI_Datatype *made);
int MPI_Type_create_hindexed_block_c(MPI_Count count, MPI_Count length, const MPI_Count displs[], MPI_Datatype type, MPI_Datatype *made);
int MPI_Type_create_struct_c(MPI_Count count, const MPI_Count lengths[], const MPI_Count displs[], const MPI_Datatype types[],
                             MPI_Datatype *made);
int MPI_Type_create_subarray_c(int dims, const MPI_Count sizes[], const MPI_Count subsizes[], const MPI_Count starts[], int order, MPI_Datatype type,
                               MPI_Datatype *made);
int MPI_Type_create_darray_c(int size, int rank, int dims, const MPI_Count sizes[], const int distribs[], const int dargs[], const int psizes[], int order,
                             MPI_Datatype type, MPI_Datatype *made);
int MPI_Type_create_resized_c(MPI_Datatype type, MPI_Count lower, MPI_Count extent, MPI_Datatype *made);
int MPI_Type_size_c(MPI_Datatype type, MPI_Count *size);
int MPI_Type_get_extent_c(MPI_Datatype type, MPI_Count *lower, MPI_Count *extent);
int MPI_Type_get_true_extent_c(MPI_Datatype type, MPI_Count *lower, MPI_Count *extent);
int MPI_Type_get_envelope_c(MPI_Datatype type, MPI_Count *ints, MPI_Count *addresses, MPI_Count *counts, MPI_Count *types, int *combiner);
int MPI_Type_get_contents_c(MPI_Datatype type, MPI_Count ints, MPI_Count addresses, MPI_Count counts, MPI_Count types, int number[], MPI_Aint address[],
                            MPI_Count large[], MPI_Datatype of[]);
int MPI_Pack_c(const void *buffer, MPI_Count count, MPI_Datatype type, void *packed, MPI_Count room, MPI_Count *position, MPI_Comm comm);
int MPI_Unpack_c(const void *packed, MPI_Count room, MPI_Count *position, void *buffer, MPI_Count count, MPI_Datatype type, MPI_Comm comm);
int MPI_Pack_size_c(MPI_Count count, MPI_Datatype type, MPI_Comm comm, MPI_Count *size);
int MPI_Pack_external_c(const char form[], const void *buffer, MPI_Count count, MPI_Datatype type, void *packed, MPI_Count room, MPI_Count *position);
int MPI_Unpack_external_c(const char form[], const void *packed, MPI_Count room, MPI_Count *position, void *buffer, MPI_Count count, MPI_Datatype type);
int MPI_Pack_external_size_c(const char form[], MPI_Count count, MPI_Datatype type, MPI_Count *size);
int MPI_Buffer_attach_c(void *buffer, MPI_Count size);
int MPI_Buffer_detach_c(void *buffer, MPI_Count *size);
int MPI_Op_create_c(MPI_User_function_c *function, int commutes, MPI_Op *op);
int MPI_Get_count_c(const MPI_Status *status, MPI_Datatype type, MPI_Count *count);
int MPI_Get_elements_c(const MPI_Status *status, MPI_Datatype type, MPI_Count *count);
int MPI_Status_set_elements_c(MPI_Status *status, MPI_Datatype type, MPI_Count count);

#endif
