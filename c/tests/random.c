/* Random traffic without failures, right with each MPI: rounds of messages of all lengths and kinds, on communicators that come and go, with
   collectives in between. All ranks make the same plan from the seed, the first word; each byte that comes is compared. */
#include "check.h"

enum { ROUNDS = 12, MESSAGES = 40, LONGEST = 5000, LINES = 3 };

struct message {
    int from, to, tag, length, line, kind;
};

static int rank, size;
static MPI_Comm lines[LINES];
static struct message plan[MESSAGES];
static unsigned char sent[MESSAGES][LONGEST], got[MESSAGES][LONGEST + 1];
static MPI_Request requests[2 * MESSAGES];
static int which[2 * MESSAGES], begun;
static unsigned long long state;

static int draw(int limit) {
    state = state * 6364136223846793005u + 1442695040888963407u;
    return (int)((state >> 33) % (unsigned)limit);
}

static unsigned char byte_of(int round, int message, int k) { return (unsigned char)(round * 31 + message * 17 + k * 7); }

static void make_plan(void) {
    for (int k = 0; k < MESSAGES; k++) {
        int length = draw(4) ? draw(40) : draw(LONGEST);
        plan[k] = (struct message){draw(size), draw(size), draw(3), draw(6) ? length : 0, draw(LINES), draw(4)};
    }
}

/* Posts a receive, of any source where no other message of this round could be taken for it. */
static void post(int k) {
    const struct message *it = &plan[k];
    int source = it->from;
    if (it->kind == 0) {
        source = MPI_ANY_SOURCE;
        for (int j = 0; j < MESSAGES; j++)
            if (j != k && plan[j].to == it->to && plan[j].tag == it->tag && plan[j].line == it->line) source = it->from;
    }
    which[begun] = k;
    MPI_Irecv(got[k], LONGEST, MPI_BYTE, source, it->tag, lines[it->line], &requests[begun++]);
}

static void send(int round, int k) {
    const struct message *it = &plan[k];
    for (int j = 0; j < it->length; j++) sent[k][j] = byte_of(round, k, j);
    which[begun] = -1;
    if (it->kind % 2) MPI_Issend(sent[k], it->length, MPI_BYTE, it->to, it->tag, lines[it->line], &requests[begun++]);
    else MPI_Isend(sent[k], it->length, MPI_BYTE, it->to, it->tag, lines[it->line], &requests[begun++]);
}

static void look(int round, int at, const MPI_Status *status) {
    int k = which[at], count, is_right = 1;
    if (k < 0) return;
    MPI_Get_count(status, MPI_BYTE, &count);
    for (int j = 0; j < plan[k].length; j++) is_right = is_right && got[k][j] == byte_of(round, k, j);
    CHECK(is_right && count == plan[k].length && status->MPI_SOURCE == plan[k].from && status->MPI_TAG == plan[k].tag);
}

/* Ends all requests, by waits of one kind or another. */
static void finish(int round, int how) {
    MPI_Status statuses[2 * MESSAGES];
    int indices[2 * MESSAGES], left = begun;
    if (how == 0) {
        MPI_Waitall(begun, requests, statuses);
        for (int k = 0; k < begun; k++) look(round, k, &statuses[k]);
    }
    while (how && left > 0) {
        int count = 1;
        if (how == 1) MPI_Waitany(begun, requests, &indices[0], &statuses[0]);
        else if (how == 2) MPI_Waitsome(begun, requests, &count, indices, statuses);
        else MPI_Testsome(begun, requests, &count, indices, statuses);
        for (int k = 0; k < count; k++) look(round, indices[k], &statuses[k]);
        left -= count;
    }
}

/* Messages to oneself and others, half of them sent before their receives are posted. */
static void exchange(int round) {
    int how = (draw(4) + rank) % 4;
    begun = 0;
    make_plan();
    for (int k = 0; k < MESSAGES; k++)
        if (plan[k].to == rank && round % 2) post(k);
    for (int k = 0; k < MESSAGES; k++)
        if (plan[k].from == rank) send(round, k);
    for (int k = 0; k < MESSAGES; k++)
        if (plan[k].to == rank && !(round % 2)) post(k);
    finish(round, how);
}

static void collectives(int round) {
    int root = draw(size), sum = 0, own = rank + round, all[8];
    double x[700];
    for (int k = 0; k < 700; k++) x[k] = rank == root ? k * round : -1;
    MPI_Bcast(x, 700, MPI_DOUBLE, root, lines[round % LINES]);
    CHECK(x[699] == 699.0 * round && x[1] == round);
    MPI_Allreduce(&own, &sum, 1, MPI_INT, MPI_SUM, lines[(round + 1) % LINES]);
    CHECK(sum == size * (size - 1) / 2 + size * round);
    MPI_Allgather(&own, 1, MPI_INT, all, 1, MPI_INT, lines[(round + 2) % LINES]);
    for (int k = 0; k < size; k++) CHECK(all[k] == k + round);
}

int main(int argc, char **argv) {
    int all = 0;
    MPI_Init(&argc, &argv);
    MPI_Comm_rank(MPI_COMM_WORLD, &rank);
    MPI_Comm_size(MPI_COMM_WORLD, &size);
    state = argc > 1 ? (unsigned long long)atoi(argv[1]) : 1;
    lines[0] = MPI_COMM_WORLD;
    for (int k = 1; k < LINES; k++) MPI_Comm_dup(lines[k - 1], &lines[k]);
    for (int round = 0; round < ROUNDS; round++) {
        exchange(round);
        if (round % 3 == 0) collectives(round);
        if (round % 4 == 1) MPI_Comm_free(&lines[2]), MPI_Comm_dup(MPI_COMM_WORLD, &lines[2]);
        MPI_Barrier(MPI_COMM_WORLD);
    }
    for (int k = 1; k < LINES; k++) MPI_Comm_free(&lines[k]);
    MPI_Reduce(&faults, &all, 1, MPI_INT, MPI_SUM, 0, MPI_COMM_WORLD);
    if (rank == 0) printf("faults: %d\n", all);
    MPI_Finalize();
    return faults != 0;
}
