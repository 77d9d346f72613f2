/* What the calls of mpi.h take: handles, constants, error classes, datatypes and operations of MPI 4.0. mpi.h includes it. */
#ifndef ULFM_MPI_TYPES_H
#define ULFM_MPI_TYPES_H

#include <stddef.h>
#include <stdint.h>

#ifdef __cplusplus
extern "C" {
#endif

#define MPI_VERSION 4
#define MPI_SUBVERSION 0
#define ULFM_MPI 1

/* ---- Handles. Zero is the null handle of each kind. ---- */

typedef struct ulfm_mpi_comm *MPI_Comm;
typedef struct ulfm_mpi_group *MPI_Group;
typedef struct ulfm_mpi_request *MPI_Request;
typedef struct ulfm_mpi_message *MPI_Message;
typedef struct ulfm_mpi_datatype *MPI_Datatype;
typedef struct ulfm_mpi_op *MPI_Op;
typedef struct ulfm_mpi_errhandler *MPI_Errhandler;
typedef struct ulfm_mpi_info *MPI_Info;
typedef ptrdiff_t MPI_Aint;
typedef long long MPI_Count;
typedef long long MPI_Offset;

#define MPI_COMM_NULL ((MPI_Comm)0)
#define MPI_COMM_WORLD ((MPI_Comm)1)
#define MPI_COMM_SELF ((MPI_Comm)2)
#define MPI_GROUP_NULL ((MPI_Group)0)
#define MPI_GROUP_EMPTY ((MPI_Group)1)
#define MPI_REQUEST_NULL ((MPI_Request)0)
#define MPI_MESSAGE_NULL ((MPI_Message)0)
#define MPI_MESSAGE_NO_PROC ((MPI_Message)1)
#define MPI_ERRHANDLER_NULL ((MPI_Errhandler)0)
#define MPI_ERRORS_ARE_FATAL ((MPI_Errhandler)1)
#define MPI_ERRORS_RETURN ((MPI_Errhandler)2)
#define MPI_ERRORS_ABORT ((MPI_Errhandler)3)
#define MPI_INFO_NULL ((MPI_Info)0)
#define MPI_INFO_ENV ((MPI_Info)1)

/* What is told of a message (3.2.5). `bytes` and `cancelled` are for MPI_Get_count, MPI_Get_elements and MPI_Test_cancelled. */
typedef struct {
    int MPI_SOURCE, MPI_TAG, MPI_ERROR;
    int cancelled;
    size_t bytes;
} MPI_Status;

typedef void MPI_Comm_errhandler_function(MPI_Comm *, int *, ...);
typedef MPI_Comm_errhandler_function MPI_Comm_errhandler_fn;
typedef void MPI_User_function(void *, void *, int *, MPI_Datatype *);
typedef void MPI_User_function_c(void *, void *, MPI_Count *, MPI_Datatype *);

#define MPI_STATUS_IGNORE ((MPI_Status *)0)
#define MPI_STATUSES_IGNORE ((MPI_Status *)0)
#define MPI_IN_PLACE ((void *)-1)
#define MPI_BOTTOM ((void *)0)

/* ---- Constants are macros, so that #ifdef finds them, and their type is int, as C++ deduces it. ---- */

/* Of ranks, tags and counts (3.2.4, 3.10, 7.6.1). */
#define MPI_ANY_SOURCE (-1)
#define MPI_ANY_TAG (-1)
#define MPI_PROC_NULL (-2)
#define MPI_ROOT (-3)
#define MPI_UNDEFINED (-32766)
#define MPI_TAG_UB_VALUE 32767
#define MPI_BSEND_OVERHEAD 96

/* Keys of the attributes that are there (9.1.2). */
#define MPI_KEYVAL_INVALID (-1)
#define MPI_TAG_UB 1
#define MPI_HOST 2
#define MPI_IO 3
#define MPI_WTIME_IS_GLOBAL 4
#define MPI_UNIVERSE_SIZE 5
#define MPI_LASTUSEDCODE 6
#define MPI_APPNUM 7

/* Of communicators (7.4.1, 7.4.2), topologies (8.5.5), arrays (5.1.3) and threads (11.2.1). */
#define MPI_IDENT 0
#define MPI_CONGRUENT 1
#define MPI_SIMILAR 2
#define MPI_UNEQUAL 3
#define MPI_COMM_TYPE_SHARED 1
#define MPI_GRAPH 1
#define MPI_CART 2
#define MPI_DIST_GRAPH 3
#define MPI_ORDER_C 0
#define MPI_ORDER_FORTRAN 1
#define MPI_DISTRIBUTE_BLOCK 121
#define MPI_DISTRIBUTE_CYCLIC 122
#define MPI_DISTRIBUTE_NONE 123
#define MPI_DISTRIBUTE_DFLT_DARG (-49767)
#define MPI_THREAD_SINGLE 0
#define MPI_THREAD_FUNNELED 1
#define MPI_THREAD_SERIALIZED 2
#define MPI_THREAD_MULTIPLE 3

/* The room for texts. */
#define MPI_MAX_ERROR_STRING 256
#define MPI_MAX_PROCESSOR_NAME 128
#define MPI_MAX_OBJECT_NAME 64
#define MPI_MAX_PORT_NAME 256
#define MPI_MAX_INFO_KEY 255
#define MPI_MAX_INFO_VAL 1024
#define MPI_MAX_LIBRARY_VERSION_STRING 256

/* ---- Error classes (9.4), and those of ULFM; the numbers are those of MPICH. Of what isn't here (files, spawning) a program may have them
   in its own switches. ---- */

#define MPI_SUCCESS 0
#define MPI_ERR_BUFFER 1
#define MPI_ERR_COUNT 2
#define MPI_ERR_TYPE 3
#define MPI_ERR_TAG 4
#define MPI_ERR_COMM 5
#define MPI_ERR_RANK 6
#define MPI_ERR_ROOT 7
#define MPI_ERR_GROUP 8
#define MPI_ERR_OP 9
#define MPI_ERR_TOPOLOGY 10
#define MPI_ERR_DIMS 11
#define MPI_ERR_ARG 12
#define MPI_ERR_UNKNOWN 13
#define MPI_ERR_TRUNCATE 14
#define MPI_ERR_OTHER 15
#define MPI_ERR_INTERN 16
#define MPI_ERR_IN_STATUS 17
#define MPI_ERR_PENDING 18
#define MPI_ERR_REQUEST 19
#define MPI_ERR_ACCESS 20
#define MPI_ERR_AMODE 21
#define MPI_ERR_BAD_FILE 22
#define MPI_ERR_CONVERSION 23
#define MPI_ERR_DUP_DATAREP 24
#define MPI_ERR_FILE_EXISTS 25
#define MPI_ERR_FILE_IN_USE 26
#define MPI_ERR_FILE 27
#define MPI_ERR_INFO 28
#define MPI_ERR_INFO_KEY 29
#define MPI_ERR_INFO_VALUE 30
#define MPI_ERR_INFO_NOKEY 31
#define MPI_ERR_IO 32
#define MPI_ERR_NAME 33
#define MPI_ERR_NO_MEM 34
#define MPI_ERR_NOT_SAME 35
#define MPI_ERR_NO_SPACE 36
#define MPI_ERR_NO_SUCH_FILE 37
#define MPI_ERR_PORT 38
#define MPI_ERR_QUOTA 39
#define MPI_ERR_READ_ONLY 40
#define MPI_ERR_SERVICE 41
#define MPI_ERR_SPAWN 42
#define MPI_ERR_UNSUPPORTED_DATAREP 43
#define MPI_ERR_UNSUPPORTED_OPERATION 44
#define MPI_ERR_WIN 45
#define MPI_ERR_BASE 46
#define MPI_ERR_LOCKTYPE 47
#define MPI_ERR_KEYVAL 48
#define MPI_ERR_RMA_CONFLICT 49
#define MPI_ERR_RMA_SYNC 50
#define MPI_ERR_SIZE 51
#define MPI_ERR_DISP 52
#define MPI_ERR_ASSERT 53
#define MPI_ERR_RMA_RANGE 55
#define MPI_ERR_RMA_ATTACH 56
#define MPI_ERR_RMA_SHARED 57
#define MPI_ERR_RMA_FLAVOR 58
#define MPI_ERR_SESSION 75
#define MPI_ERR_PROC_ABORTED 76
#define MPI_ERR_VALUE_TOO_LARGE 77
#define MPIX_ERR_PROC_FAILED 101
#define MPIX_ERR_PROC_FAILED_PENDING 102
#define MPIX_ERR_REVOKED 103
#define MPI_ERR_LASTCODE 127

/* ---- Datatypes (3.2.2, and 6.9.4 for the pairs). Those of C++ are those of C of the same size. ---- */

#define ULFM_MPI_TYPE(number) ((MPI_Datatype)(number))
#define MPI_DATATYPE_NULL ULFM_MPI_TYPE(0)
#define MPI_CHAR ULFM_MPI_TYPE(1)
#define MPI_SIGNED_CHAR ULFM_MPI_TYPE(2)
#define MPI_UNSIGNED_CHAR ULFM_MPI_TYPE(3)
#define MPI_BYTE ULFM_MPI_TYPE(4)
#define MPI_PACKED ULFM_MPI_TYPE(5)
#define MPI_SHORT ULFM_MPI_TYPE(6)
#define MPI_UNSIGNED_SHORT ULFM_MPI_TYPE(7)
#define MPI_INT ULFM_MPI_TYPE(8)
#define MPI_UNSIGNED ULFM_MPI_TYPE(9)
#define MPI_LONG ULFM_MPI_TYPE(10)
#define MPI_UNSIGNED_LONG ULFM_MPI_TYPE(11)
#define MPI_LONG_LONG ULFM_MPI_TYPE(12)
#define MPI_LONG_LONG_INT MPI_LONG_LONG
#define MPI_UNSIGNED_LONG_LONG ULFM_MPI_TYPE(13)
#define MPI_FLOAT ULFM_MPI_TYPE(14)
#define MPI_DOUBLE ULFM_MPI_TYPE(15)
#define MPI_LONG_DOUBLE ULFM_MPI_TYPE(16)
#define MPI_WCHAR ULFM_MPI_TYPE(17)
#define MPI_C_BOOL ULFM_MPI_TYPE(18)
#define MPI_INT8_T ULFM_MPI_TYPE(19)
#define MPI_INT16_T ULFM_MPI_TYPE(20)
#define MPI_INT32_T ULFM_MPI_TYPE(21)
#define MPI_INT64_T ULFM_MPI_TYPE(22)
#define MPI_UINT8_T ULFM_MPI_TYPE(23)
#define MPI_UINT16_T ULFM_MPI_TYPE(24)
#define MPI_UINT32_T ULFM_MPI_TYPE(25)
#define MPI_UINT64_T ULFM_MPI_TYPE(26)
#define MPI_AINT ULFM_MPI_TYPE(27)
#define MPI_OFFSET ULFM_MPI_TYPE(28)
#define MPI_COUNT ULFM_MPI_TYPE(29)
#define MPI_FLOAT_INT ULFM_MPI_TYPE(30)
#define MPI_DOUBLE_INT ULFM_MPI_TYPE(31)
#define MPI_LONG_INT ULFM_MPI_TYPE(32)
#define MPI_2INT ULFM_MPI_TYPE(33)
#define MPI_SHORT_INT ULFM_MPI_TYPE(34)
#define MPI_LONG_DOUBLE_INT ULFM_MPI_TYPE(35)
#define MPI_C_FLOAT_COMPLEX ULFM_MPI_TYPE(36)
#define MPI_C_COMPLEX MPI_C_FLOAT_COMPLEX
#define MPI_C_DOUBLE_COMPLEX ULFM_MPI_TYPE(37)
#define MPI_C_LONG_DOUBLE_COMPLEX ULFM_MPI_TYPE(38)
/* Marks of a bound in MPI_Type_struct (17.1), of MPI-1: MPI_Type_create_resized serves better. */
#define MPI_LB ULFM_MPI_TYPE(39)
#define MPI_UB ULFM_MPI_TYPE(40)
/* Those of Fortran are those of C of the same size. */
#define MPI_CHARACTER MPI_CHAR
#define MPI_LOGICAL MPI_INT
#define MPI_INTEGER MPI_INT
#define MPI_INTEGER1 MPI_INT8_T
#define MPI_INTEGER2 MPI_INT16_T
#define MPI_INTEGER4 MPI_INT32_T
#define MPI_INTEGER8 MPI_INT64_T
#define MPI_REAL MPI_FLOAT
#define MPI_REAL4 MPI_FLOAT
#define MPI_REAL8 MPI_DOUBLE
#define MPI_DOUBLE_PRECISION MPI_DOUBLE
#define MPI_COMPLEX MPI_C_FLOAT_COMPLEX
#define MPI_COMPLEX8 MPI_C_FLOAT_COMPLEX
#define MPI_COMPLEX16 MPI_C_DOUBLE_COMPLEX
#define MPI_DOUBLE_COMPLEX MPI_C_DOUBLE_COMPLEX
#define MPI_2INTEGER MPI_2INT
/* Pairs of Fortran: the place is a number of the value's type. */
#define MPI_2REAL ULFM_MPI_TYPE(41)
#define MPI_2DOUBLE_PRECISION ULFM_MPI_TYPE(42)
#define MPI_CXX_BOOL MPI_C_BOOL
#define MPI_CXX_FLOAT_COMPLEX MPI_C_FLOAT_COMPLEX
#define MPI_CXX_DOUBLE_COMPLEX MPI_C_DOUBLE_COMPLEX
#define MPI_CXX_LONG_DOUBLE_COMPLEX MPI_C_LONG_DOUBLE_COMPLEX

/* Classes of MPI_Type_match_size (19.1.9). */
#define MPI_TYPECLASS_REAL 1
#define MPI_TYPECLASS_INTEGER 2
#define MPI_TYPECLASS_COMPLEX 3

/* How a datatype was made (5.1.13). */
#define MPI_COMBINER_NAMED 1
#define MPI_COMBINER_DUP 2
#define MPI_COMBINER_CONTIGUOUS 3
#define MPI_COMBINER_VECTOR 4
#define MPI_COMBINER_HVECTOR 6
#define MPI_COMBINER_INDEXED 7
#define MPI_COMBINER_HINDEXED 9
#define MPI_COMBINER_INDEXED_BLOCK 10
#define MPI_COMBINER_STRUCT 12
#define MPI_COMBINER_SUBARRAY 13
#define MPI_COMBINER_DARRAY 14
#define MPI_COMBINER_F90_REAL 15
#define MPI_COMBINER_F90_COMPLEX 16
#define MPI_COMBINER_F90_INTEGER 17
#define MPI_COMBINER_RESIZED 18
#define MPI_COMBINER_HINDEXED_BLOCK 19

/* ---- Operations (6.9.2). ---- */

#define MPI_OP_NULL ((MPI_Op)0)
#define MPI_SUM ((MPI_Op)1)
#define MPI_PROD ((MPI_Op)2)
#define MPI_MAX ((MPI_Op)3)
#define MPI_MIN ((MPI_Op)4)
#define MPI_LAND ((MPI_Op)5)
#define MPI_LOR ((MPI_Op)6)
#define MPI_LXOR ((MPI_Op)7)
#define MPI_BAND ((MPI_Op)8)
#define MPI_BOR ((MPI_Op)9)
#define MPI_BXOR ((MPI_Op)10)
#define MPI_MAXLOC ((MPI_Op)11)
#define MPI_MINLOC ((MPI_Op)12)
#define MPI_REPLACE ((MPI_Op)13)
#define MPI_NO_OP ((MPI_Op)14)

#ifdef __cplusplus
}
#endif
#endif
