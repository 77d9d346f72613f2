/* One-sided calls (12). Between fences data move in the fence that ends their epoch: there each rank does in its own window what others asked of it, in the
   order of their ranks, and a failure is told as in MPI_Barrier. Under locks, and between start and complete, a call has done what it asks when it returns.
   mpi.h includes this. */
#ifndef ULFM_MPI_WINDOWS_H
#define ULFM_MPI_WINDOWS_H

typedef struct ulfm_mpi_window *MPI_Win;
#define MPI_WIN_NULL ((MPI_Win)0)
typedef void MPI_Win_errhandler_function(MPI_Win *, int *, ...);
typedef MPI_Win_errhandler_function MPI_Win_errhandler_fn;

/* What MPI_Win_fence, MPI_Win_post, MPI_Win_start and MPI_Win_lock are told; no assertion changes what they do, but that after a fence by
   MPI_MODE_NOSUCCEED no epoch is open. */
#define MPI_MODE_NOCHECK 1024
#define MPI_MODE_NOSTORE 2048
#define MPI_MODE_NOPUT 4096
#define MPI_MODE_NOPRECEDE 8192
#define MPI_MODE_NOSUCCEED 16384

/* Keys of what MPI_Win_get_attr gives (12.2.6). */
#define MPI_WIN_BASE 1
#define MPI_WIN_SIZE 2
#define MPI_WIN_DISP_UNIT 3
#define MPI_WIN_CREATE_FLAVOR 4
#define MPI_WIN_MODEL 5
#define MPI_WIN_FLAVOR_CREATE 1
#define MPI_WIN_FLAVOR_ALLOCATE 2
#define MPI_WIN_FLAVOR_DYNAMIC 3
#define MPI_WIN_FLAVOR_SHARED 4
#define MPI_WIN_SEPARATE 1
#define MPI_WIN_UNIFIED 2

/* MPI_ERR_SIZE, MPI_ERR_DISP: a size or a unit isn't allowed. MPI_ERR_ASSERT: it isn't one. */
int MPI_Win_create(void *base, MPI_Aint size, int unit, MPI_Info info, MPI_Comm comm, MPI_Win *win);
int MPI_Win_allocate(MPI_Aint size, int unit, MPI_Info info, MPI_Comm comm, void *base, MPI_Win *win);
/* All ranks share memory, so any communicator may have such a window. */
int MPI_Win_allocate_shared(MPI_Aint size, int unit, MPI_Info info, MPI_Comm comm, void *base, MPI_Win *win);
int MPI_Win_shared_query(MPI_Win win, int rank, MPI_Aint *size, int *unit, void *base);
/* MPI_ERR_RMA_ATTACH: it is attached already, or a part of it. MPI_ERR_ARG: it isn't attached. MPI_ERR_RMA_FLAVOR: the window isn't of this kind. */
int MPI_Win_create_dynamic(MPI_Info info, MPI_Comm comm, MPI_Win *win);
int MPI_Win_attach(MPI_Win win, void *base, MPI_Aint size);
int MPI_Win_detach(MPI_Win win, const void *base);
/* MPI_ERR_RMA_SYNC: a lock is held, or an epoch is open. */
int MPI_Win_free(MPI_Win *win);
int MPI_Win_fence(int assertion, MPI_Win win);

/* ---- Locks (12.5.3). A lock of a rank that stopped is free. MPI_ERR_RMA_SYNC: it is held already, or isn't, or an epoch of another kind is open.
   MPIX_ERR_PROC_FAILED: the target's failure is known here. MPI_ERR_LOCKTYPE: it is no kind of lock. ---- */
#define MPI_LOCK_EXCLUSIVE 1
#define MPI_LOCK_SHARED 2
int MPI_Win_lock(int kind, int target, int assertion, MPI_Win win);
int MPI_Win_unlock(int target, MPI_Win win);
int MPI_Win_lock_all(int assertion, MPI_Win win);
int MPI_Win_unlock_all(MPI_Win win);
int MPI_Win_flush(int target, MPI_Win win);
int MPI_Win_flush_all(MPI_Win win);
int MPI_Win_flush_local(int target, MPI_Win win);
int MPI_Win_flush_local_all(MPI_Win win);
int MPI_Win_sync(MPI_Win win);

/* ---- Epochs of single members (12.5.2). MPI_Win_start waits until all of its group posted. MPIX_ERR_PROC_FAILED: a failure of one of them is known here. ---- */
int MPI_Win_post(MPI_Group group, int assertion, MPI_Win win);
int MPI_Win_start(MPI_Group group, int assertion, MPI_Win win);
int MPI_Win_complete(MPI_Win win);
int MPI_Win_wait(MPI_Win win);
int MPI_Win_test(MPI_Win win, int *flag);

/* MPI_ERR_RMA_SYNC: no epoch is open. MPI_ERR_RMA_RANGE: it is outside of the target's window. MPI_ERR_TRUNCATE: origin and target have other lengths. */
int MPI_Put(const void *buf, int count, MPI_Datatype type, int target, MPI_Aint disp, int targetcount, MPI_Datatype targettype, MPI_Win win);
int MPI_Get(void *buf, int count, MPI_Datatype type, int target, MPI_Aint disp, int targetcount, MPI_Datatype targettype, MPI_Win win);
int MPI_Accumulate(const void *buf, int count, MPI_Datatype type, int target, MPI_Aint disp, int targetcount, MPI_Datatype targettype, MPI_Op op,
                   MPI_Win win);
int MPI_Get_accumulate(const void *buf, int count, MPI_Datatype type, void *result, int resultcount, MPI_Datatype resulttype, int target, MPI_Aint disp,
                       int targetcount, MPI_Datatype targettype, MPI_Op op, MPI_Win win);
/* Those with a request are there under locks, and are over when they return. */
int MPI_Rput(const void *buf, int count, MPI_Datatype type, int target, MPI_Aint disp, int targetcount, MPI_Datatype targettype, MPI_Win win,
             MPI_Request *request);
int MPI_Rget(void *buf, int count, MPI_Datatype type, int target, MPI_Aint disp, int targetcount, MPI_Datatype targettype, MPI_Win win,
             MPI_Request *request);
int MPI_Raccumulate(const void *buf, int count, MPI_Datatype type, int target, MPI_Aint disp, int targetcount, MPI_Datatype targettype, MPI_Op op,
                    MPI_Win win, MPI_Request *request);
int MPI_Rget_accumulate(const void *buf, int count, MPI_Datatype type, void *result, int resultcount, MPI_Datatype resulttype, int target,
                        MPI_Aint disp, int targetcount, MPI_Datatype targettype, MPI_Op op, MPI_Win win, MPI_Request *request);
int MPI_Fetch_and_op(const void *buf, void *result, MPI_Datatype type, int target, MPI_Aint disp, MPI_Op op, MPI_Win win);
int MPI_Compare_and_swap(const void *buf, const void *compare, void *result, MPI_Datatype type, int target, MPI_Aint disp, MPI_Win win);

MPI_Fint MPI_Win_c2f(MPI_Win handle);
MPI_Win MPI_Win_f2c(MPI_Fint handle);
int MPI_Win_get_group(MPI_Win win, MPI_Group *group);

/* ---- Attributes of windows (7.7.3). A window is never duplicated, so what copies them is never called. ---- */
typedef int MPI_Win_copy_attr_function(MPI_Win win, int keyval, void *more, void *in, void *out, int *flag);
typedef int MPI_Win_delete_attr_function(MPI_Win win, int keyval, void *value, void *more);
MPI_Win_copy_attr_function MPI_WIN_NULL_COPY_FN, MPI_WIN_DUP_FN;
MPI_Win_delete_attr_function MPI_WIN_NULL_DELETE_FN;
int MPI_Win_create_keyval(MPI_Win_copy_attr_function *copies, MPI_Win_delete_attr_function *deletes, int *keyval, void *more);
int MPI_Win_free_keyval(int *keyval);
int MPI_Win_set_attr(MPI_Win win, int keyval, void *value);
int MPI_Win_get_attr(MPI_Win win, int keyval, void *value, int *flag);
int MPI_Win_delete_attr(MPI_Win win, int keyval);

int MPI_Win_set_info(MPI_Win win, MPI_Info info);
int MPI_Win_get_info(MPI_Win win, MPI_Info *info);
int MPI_Win_set_name(MPI_Win win, const char *name);
int MPI_Win_get_name(MPI_Win win, char *name, int *length);
int MPI_Win_create_errhandler(MPI_Win_errhandler_function *function, MPI_Errhandler *handler);
int MPI_Win_set_errhandler(MPI_Win win, MPI_Errhandler handler);
int MPI_Win_get_errhandler(MPI_Win win, MPI_Errhandler *handler);
int MPI_Win_call_errhandler(MPI_Win win, int errorcode);

#endif
