C     MPI from Fortran 77 by mpif.h. It recovers from a stop: the ranks that are left add up their numbers.
      program fewer
      include 'mpif.h'
      integer rank, size, code, sum, next, status(MPI_STATUS_SIZE)
      integer flag, value
      call MPI_INIT(code)
      call MPI_COMM_SET_ERRHANDLER(MPI_COMM_WORLD, MPI_ERRORS_RETURN,
     &                             code)
      call MPI_COMM_RANK(MPI_COMM_WORLD, rank, code)
      call MPI_COMM_SIZE(MPI_COMM_WORLD, size, code)
      value = rank
      call MPI_SENDRECV_REPLACE(value, 1, MPI_INTEGER,
     &     mod(rank + 1, size), 1, mod(rank + size - 1, size), 1,
     &     MPI_COMM_WORLD, status, code)
      flag = 0
      if (code .eq. MPI_SUCCESS) flag = 1
      if (flag .eq. 0) call MPIX_COMM_REVOKE(MPI_COMM_WORLD, code)
      call MPIX_COMM_SHRINK(MPI_COMM_WORLD, next, code)
      call MPI_ALLREDUCE(1, sum, 1, MPI_INTEGER, MPI_SUM, next, code)
      call MPI_COMM_RANK(next, rank, code)
      if (rank .eq. 0) print *, sum, ' are left'
      call MPI_FINALIZE(code)
      end
