/* Memory over a long run of one rank. Words: how many messages to itself, receives that are cancelled, and agreements. The greatest resident size is looked
   at after a hundredth of each and after the last. Of an agreement the world keeps its decision, and nothing else. */
#include "check.h"
#include <sys/resource.h>

/* By at most so many kilobytes may it grow, but for decisions, each of so many bytes at most. */
enum { TAG = 3, LONG = 3000, SOME = 1024, DECISION = 300 };

static char room[LONG];

/* The greatest resident size so far, in kilobytes. */
static long peak(void) {
    struct rusage usage;
    getrusage(RUSAGE_SELF, &usage);
    return usage.ru_maxrss;
}

/* Mostly short ones. */
static void make_messages(long times) {
    static const char sent[LONG];
    for (long k = 0; k < times; k++) {
        int length = k % 64 ? 8 : LONG, came = 0;
        MPI_Request request;
        MPI_Status status;
        MPI_Irecv(room, LONG, MPI_BYTE, 0, TAG, MPI_COMM_WORLD, &request);
        MPI_Send(sent, length, MPI_BYTE, 0, TAG, MPI_COMM_WORLD);
        MPI_Wait(&request, &status);
        MPI_Get_count(&status, MPI_BYTE, &came);
        CHECK(came == length);
    }
}

static void make_cancels(long times) {
    for (long k = 0; k < times; k++) {
        MPI_Request request;
        MPI_Status status;
        int is_cancelled = 0;
        MPI_Irecv(room, LONG, MPI_BYTE, 0, TAG, MPI_COMM_WORLD, &request);
        MPI_Cancel(&request);
        MPI_Wait(&request, &status);
        MPI_Test_cancelled(&status, &is_cancelled);
        CHECK(is_cancelled);
    }
}

static void make_agreements(long times) {
    for (long k = 0; k < times; k++) {
        int flag = 5;
        MPIX_Comm_agree(MPI_COMM_WORLD, &flag);
        CHECK(flag == 5);
    }
}

/* By how many kilobytes it grew. */
static long grown(const char *what, void (*make)(long), long times) {
    if (times == 0) return 0;
    make(times / 100);
    long settled = peak();
    double start = MPI_Wtime();
    make(times - times / 100);
    double each = (MPI_Wtime() - start) / (double)(times - times / 100);
    printf("%ld %s: %ld KB, grown by %ld KB, %.0f ns each\n", times, what, peak(), peak() - settled, each * 1e9);
    return peak() - settled;
}

int main(int argc, char **argv) {
    MPI_Init(&argc, &argv);
    CHECK(argc == 4);
    long messages = atol(argv[1]), cancels = atol(argv[2]), agreements = atol(argv[3]);
    CHECK(grown("messages", make_messages, messages) < SOME);
    CHECK(grown("cancelled receives", make_cancels, cancels) < SOME);
    CHECK(grown("agreements", make_agreements, agreements) < SOME + agreements * DECISION / 1024);
    MPI_Finalize();
    printf("faults: %d\n", faults);
    return 0;
}
