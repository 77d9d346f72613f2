! MPI from Fortran by its module: what goes over otherwise than in C. For 2 or more ranks; each has its own file behind unit 10.
program forms
  use mpi
  implicit none
  integer :: rank, size, code, all_wrong, wrong = 0
  call MPI_Init(code)
  call MPI_Comm_rank(MPI_COMM_WORLD, rank, code)
  call MPI_Comm_size(MPI_COMM_WORLD, size, code)
  call ring()
  call units()
  call communicators()
  call statuses()
  call places()
  call texts()
  call functions()
  call errors()
  call MPI_Reduce(wrong, all_wrong, 1, MPI_INTEGER, MPI_SUM, 0, MPI_COMM_WORLD, code)
  if (rank == 0) print '(a,i0)', 'wrong: ', all_wrong
  call MPI_Finalize(code)
contains
  subroutine check(is_well, what)
    logical, intent(in) :: is_well
    character(len=*), intent(in) :: what
    if (is_well) return
    wrong = wrong + 1
    write (0, '(a,i0,2a)') 'rank ', rank, ' failed: ', what
  end subroutine

  ! A sum goes round, and each rank adds to it.
  subroutine ring()
    integer :: status(MPI_STATUS_SIZE), sum
    double precision :: begun
    begun = MPI_Wtime()
    sum = rank
    if (rank > 0) call MPI_Recv(sum, 1, MPI_INTEGER, rank - 1, 7, MPI_COMM_WORLD, status, code)
    if (rank > 0) call check(status(MPI_SOURCE) == rank - 1 .and. status(MPI_TAG) == 7, 'the status of a message')
    if (rank > 0) sum = sum + rank
    if (rank < size - 1) call MPI_Send(sum, 1, MPI_INTEGER, rank + 1, 7, MPI_COMM_WORLD, code)
    if (rank == size - 1) call check(sum == size * (size - 1) / 2, 'the sum of a ring')
    call check(MPI_Wtime() >= begun .and. MPI_Wtick() > 0, 'time')
  end subroutine

  ! Each rank has units of its own.
  subroutine units()
    character(len=40) :: name, line
    integer :: value
    write (name, '(a,i0)') 'forms.unit10.', rank
    open (unit=10, file=name, status='replace', action='readwrite')
    write (10, '(a,i0)') 'rank ', rank
    call MPI_Barrier(MPI_COMM_WORLD, code)
    write (10, '(i0)') rank * 11
    rewind (10)
    read (10, '(a)') line
    read (10, *) value
    call check(value == rank * 11 .and. line(6:6) == achar(48 + rank), 'a unit of its own')
    close (10, status='delete')
    print '(a,i0,a)', 'rank ', rank, ' prints'
  end subroutine

  subroutine communicators()
    integer :: half, grid, place, coords(1), dims(1), group, other
    logical :: periods(1), flag
    integer(kind=MPI_ADDRESS_KIND) :: value
    call MPI_Comm_split(MPI_COMM_WORLD, mod(rank, 2), -rank, half, code)
    call MPI_Comm_rank(half, place, code)
    call MPI_Comm_size(half, other, code)
    call check(rank == 2 * (other - 1 - place) + mod(rank, 2), 'a split')
    call MPI_Comm_free(half, code)
    call check(half == MPI_COMM_NULL, 'a handle that was freed')
    dims(1) = size
    call MPI_Cart_create(MPI_COMM_WORLD, 1, dims, [.true.], .false., grid, code)
    call MPI_Cart_get(grid, 1, dims, periods, coords, code)
    call check(periods(1) .and. coords(1) == rank, 'a grid')
    call MPI_Comm_free(grid, code)
    call MPI_Comm_group(MPI_COMM_WORLD, group, code)
    call MPI_Group_rank(group, place, code)
    call check(place == rank, 'a group')
    call MPI_Group_free(group, code)
    call MPI_Comm_get_attr(MPI_COMM_WORLD, MPI_TAG_UB, value, flag, code)
    call check(flag .and. value == 32767, 'an attribute')
  end subroutine

  ! Requests and statuses in arrays; the number of one among them counts from 1.
  subroutine statuses()
    integer :: requests(2), several(MPI_STATUS_SIZE, 2), got(2), k, next, indices(2), count, status(MPI_STATUS_SIZE), elements
    logical :: flag
    next = mod(rank + 1, size)
    got = -1
    do k = 1, 2
      call MPI_Irecv(got(k), 1, MPI_INTEGER, MPI_ANY_SOURCE, k, MPI_COMM_WORLD, requests(k), code)
    end do
    do k = 1, 2
      call MPI_Send(k * 10, 1, MPI_INTEGER, next, k, MPI_COMM_WORLD, code)
    end do
    call MPI_Waitall(2, requests, several, code)
    call check(all(requests == MPI_REQUEST_NULL) .and. all(got == [10, 20]), 'requests in an array')
    call check(all(several(MPI_TAG, :) == [1, 2]) .and. several(MPI_SOURCE, 1) == mod(rank + size - 1, size), 'statuses')
    call MPI_Get_count(several(:, 2), MPI_INTEGER, elements, code)
    call check(elements == 1, 'a count')
    call MPI_Irecv(got(2), 1, MPI_INTEGER, MPI_ANY_SOURCE, 5, MPI_COMM_WORLD, requests(2), code)
    call MPI_Send(5, 1, MPI_INTEGER, next, 5, MPI_COMM_WORLD, code)
    call MPI_Waitany(2, requests, k, status, code)
    call check(k == 2 .and. status(MPI_TAG) == 5, 'the number of a request')
    call MPI_Irecv(got(2), 1, MPI_INTEGER, MPI_ANY_SOURCE, 6, MPI_COMM_WORLD, requests(2), code)
    call MPI_Send(6, 1, MPI_INTEGER, next, 6, MPI_COMM_WORLD, code)
    call MPI_Waitsome(2, requests, count, indices, MPI_STATUSES_IGNORE, code)
    call check(count == 1 .and. indices(1) == 2, 'numbers of requests')
    call MPI_Testall(2, requests, flag, MPI_STATUSES_IGNORE, code)
    call check(flag, 'no requests')
    call MPI_Waitany(2, requests, k, MPI_STATUS_IGNORE, code)
    call check(k == MPI_UNDEFINED, 'no request')
  end subroutine

  ! What has an address of its own in C: the place of the result, and absolute addresses.
  subroutine places()
    double precision, target :: values(4), part(3, 3)
    integer(kind=MPI_ADDRESS_KIND) :: address(1), lower, extent, memory
    integer :: made, k
    values = rank + 1
    call MPI_Allreduce(MPI_IN_PLACE, values, 4, MPI_DOUBLE_PRECISION, MPI_SUM, MPI_COMM_WORLD, code)
    call check(all(values == size * (size + 1) / 2), 'a sum in its place')
    values = rank
    call MPI_Get_address(values, address(1), code)
    call MPI_Type_create_struct(1, [4], address, [MPI_DOUBLE_PRECISION], made, code)
    call MPI_Type_commit(made, code)
    call MPI_Bcast(MPI_BOTTOM, 1, made, 0, MPI_COMM_WORLD, code)
    call check(all(values == 0), 'absolute addresses')
    call MPI_Type_get_extent(made, lower, extent, code)
    call check(extent == 32, 'an extent')
    call MPI_Type_free(made, code)
    part = reshape([(dble(10 * rank + k), k = 1, 9)], [3, 3])
    call MPI_Bcast(part(2, :), 3, MPI_DOUBLE_PRECISION, 0, MPI_COMM_WORLD, code)
    call check(all(part(2, :) == [2, 5, 8]), 'a row')
    call MPI_Alloc_mem(64_MPI_ADDRESS_KIND, MPI_INFO_NULL, memory, code)
    call check(memory /= 0, 'memory')
  end subroutine

  ! Texts have blanks behind them, and no end.
  subroutine texts()
    character(len=MPI_MAX_OBJECT_NAME) :: name
    character(len=20) :: value
    integer :: length, info
    logical :: flag
    call MPI_Comm_set_name(MPI_COMM_WORLD, '  all of them  ', code)
    name = 'x'
    call MPI_Comm_get_name(MPI_COMM_WORLD, name, length, code)
    call check(name == 'all of them' .and. length == 11, 'a name')
    call MPI_Info_create(info, code)
    call MPI_Info_set(info, 'key', 'a value', code)
    call MPI_Info_get(info, 'key', 20, value, flag, code)
    call check(flag .and. value == 'a value', 'a value of an info object')
    call MPI_Info_free(info, code)
  end subroutine

  subroutine functions()
    external :: add_squares
    integer :: op, sum
    real :: pair(2), found(2)
    pair = [real(mod(rank, 2)), real(rank)]
    call MPI_Allreduce(pair, found, 1, MPI_2REAL, MPI_MAXLOC, MPI_COMM_WORLD, code)
    call check(found(1) == min(size - 1, 1) .and. found(2) == min(size - 1, 1), 'the place of the largest')
    call MPI_Op_create(add_squares, .true., op, code)
    call MPI_Allreduce(rank * rank, sum, 1, MPI_INTEGER, op, MPI_COMM_WORLD, code)
    call check(sum == (size - 1) * size * (2 * size - 1) / 6, 'an operation of the program')
    call MPI_Op_free(op, code)
  end subroutine

  subroutine errors()
    integer :: class, length, made
    character(len=MPI_MAX_ERROR_STRING) :: text
    call MPI_Comm_set_errhandler(MPI_COMM_WORLD, MPI_ERRORS_RETURN, code)
    call MPI_Send(1, 1, MPI_INTEGER, size + 9, 0, MPI_COMM_WORLD, made)
    call MPI_Error_class(made, class, code)
    call check(class == MPI_ERR_RANK, 'a class of an error')
    call MPI_Error_string(made, text, length, code)
    call check(index(text(:length), 'MPI_ERR_RANK') > 0, 'a text of an error')
    call MPIX_Comm_shrink(MPI_COMM_WORLD, made, code)
    call check(code == MPI_SUCCESS, 'a shrink')
  end subroutine
end program

! An operation of the program (6.9.5).
subroutine add_squares(in, into, length, type)
  use mpi
  implicit none
  integer, intent(in) :: length, type
  integer, intent(in) :: in(length)
  integer, intent(inout) :: into(length)
  if (type == MPI_INTEGER) into = into + in
end subroutine
