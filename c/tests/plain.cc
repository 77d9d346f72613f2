// A C++ program: streams, exceptions, statics and templates are each rank's own.
#include <algorithm>
#include <iostream>
#include <mpi-ext.h>
#include <mpi.h>
#include <stdexcept>
#include <string>
#include <vector>

// What programs ask for before they compile.
#if !defined MPI_ANY_SOURCE || !defined MPI_UNDEFINED || !defined MPI_THREAD_MULTIPLE || !defined MPI_COMM_TYPE_SHARED || !defined MPI_TAG_UB || \
    !defined MPI_SUCCESS || !defined MPI_ERR_LASTCODE || !defined MPI_BSEND_OVERHEAD || !defined MPIX_ERR_PROC_FAILED || !OMPI_HAVE_MPI_EXT_FTMPI
#error "a constant isn't a macro"
#endif

template <class T> struct Counter {
    static int made;
    Counter() { ++made; }
};
template <class T> int Counter<T>::made = 0;

static std::string &name() {
    static std::string text = "rank";
    return text;
}

int main(int argc, char **argv) {
    int rank, size, sum = 0;
    MPI_Init(&argc, &argv);
    MPI_Comm_rank(MPI_COMM_WORLD, &rank);
    MPI_Comm_size(MPI_COMM_WORLD, &size);
    auto left = MPI_PROC_NULL;
    left = rank;
    if (std::max(left, MPI_ANY_SOURCE) != rank) MPI_Abort(MPI_COMM_WORLD, 4);
    std::vector<Counter<int>> counters(rank + 1);
    name() += std::to_string(rank);
    try {
        if (rank == 1) throw std::runtime_error("thrown");
    } catch (const std::exception &) {
        name() += "!";
    }
    MPI_Barrier(MPI_COMM_WORLD);
    if (Counter<int>::made != rank + 1) MPI_Abort(MPI_COMM_WORLD, 3);
    MPI_Reduce(&Counter<int>::made, &sum, 1, MPI_INT, MPI_SUM, 0, MPI_COMM_WORLD);
    if (rank == 0) std::cout << "sum " << sum << " of " << size << std::endl;
    std::cout << name() << " of " << size << "\n";
    MPI_Finalize();
    return 0;
}
