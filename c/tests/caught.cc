// A solver in C++ whose calls throw where they meet a failure, and that recovers in its catch.
#include <cstdio>
#include <cstdlib>
#include <mpi.h>
#include <stdexcept>
#include <vector>
#if defined OPEN_MPI
#include <mpi-ext.h>
#endif

namespace {

struct Failure : std::runtime_error {
    using std::runtime_error::runtime_error;
};

void check(int code) {
    if (code != MPI_SUCCESS) throw Failure("a failure or a revocation");
}

// A communicator that answers errors.
class Group {
public:
    explicit Group(MPI_Comm made) : comm(made) {
        MPI_Comm_set_errhandler(comm, MPI_ERRORS_RETURN);
        MPI_Comm_rank(comm, &rank);
        MPI_Comm_size(comm, &size);
    }
    Group shrunk() const {
        MPI_Comm made;
        if (MPIX_Comm_shrink(comm, &made) != MPI_SUCCESS) std::exit(4);
        return Group(made);
    }
    // Whether all were successful: each makes one agreement a step, whatever it met.
    bool all(bool did) const {
        int ok = did;
        return MPIX_Comm_agree(comm, &ok) == MPI_SUCCESS && ok;
    }
    MPI_Comm comm;
    int rank, size;
};

class Solver {
public:
    Solver() : group(MPI_COMM_WORLD), now(1) {}
    void solve() {
        for (int step = 0; step < steps;) {
            try {
                const long long next = advance();
                if (step + 1 == steps && group.rank == 0) std::printf("value %lld\n", next); // before the last agreement, so that somebody tells it
                if (!group.all(true)) throw Failure("another rank met a failure");
                now = next;
                step++;
            } catch (const Failure &) {
                recover();
            }
        }
    }

private:
    // One step: a message to the right, and the sum of what all have. Who meets an error revokes, agrees, and throws anew.
    long long advance() const {
        long long left = 0, sum = 0;
        try {
            check(MPI_Sendrecv(&now, 1, MPI_LONG_LONG, (group.rank + 1) % group.size, 1, &left, 1, MPI_LONG_LONG, (group.rank + group.size - 1) % group.size,
                               1, group.comm, MPI_STATUS_IGNORE));
            std::vector<long long> parts(4, left);
            for (int k = group.rank; k < 4; k += group.size) sum += parts.at(static_cast<std::size_t>(k)) * (k + 2);
            long long own = sum;
            check(MPI_Allreduce(&own, &sum, 1, MPI_LONG_LONG, MPI_SUM, group.comm));
        } catch (const Failure &) {
            MPIX_Comm_revoke(group.comm);
            group.all(false);
            throw;
        }
        return sum % 1009;
    }
    void recover() { group = group.shrunk(); }

    static constexpr int steps = 3;
    Group group;
    long long now;
};

} // namespace

int main(int count, char **words) {
    MPI_Init(&count, &words);
    Solver().solve();
    MPI_Finalize();
    return 0;
}
