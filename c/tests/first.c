/* Waits that end by what comes first. Rank 0 ends with another status by what it met, so --every-schedule has to tell all of them. */
#include <mpi-ext.h>
#include <mpi.h>
#include <string.h>

enum { NONE = 3 };

static int in[2], one = 1, me;
static MPI_Request requests[2];
static MPI_Status statuses[2];

static void post(int at, int from, int tag) { MPI_Irecv(&in[at], 1, MPI_INT, from, tag, MPI_COMM_WORLD, &requests[at]); }
static void send(int to, int tag) { MPI_Send(&one, 1, MPI_INT, to, tag, MPI_COMM_WORLD); }
static int receive(int from, int tag) { return MPI_Recv(&in[0], 1, MPI_INT, from, tag, MPI_COMM_WORLD, MPI_STATUS_IGNORE); }

/* Which of two is over first, and then the other one. */
static int wait_for_any(void) {
    int first, second;
    MPI_Waitany(2, requests, &first, MPI_STATUS_IGNORE);
    MPI_Waitany(2, requests, &second, MPI_STATUS_IGNORE);
    return first;
}

static int any(void) {
    if (me) return send(0, 1), 0;
    post(0, 1, 1);
    post(1, 2, 1);
    return wait_for_any();
}

/* 0 or 1: that one alone; 2: both. */
static int some(void) {
    int count, indices[2], left;
    if (me) return send(0, 1), 0;
    post(0, 1, 1);
    post(1, 2, 1);
    MPI_Waitsome(2, requests, &count, indices, MPI_STATUSES_IGNORE);
    int met = count == 2 ? 2 : indices[0];
    MPI_Waitsome(2, requests, &left, indices, MPI_STATUSES_IGNORE);
    return met;
}

/* Rank 2 stops. Whether the message of rank 1 had come when that was told. */
static int all(void) {
    if (me) return send(0, 1), 0;
    post(0, 1, 1);
    post(1, 2, 1);
    MPI_Waitall(2, requests, statuses);
    return statuses[0].MPI_ERROR == MPI_ERR_PENDING;
}

/* Rank 2 stops. Whether the message of rank 1 came before word of that. */
static int wild(void) { return me ? send(0, 1), 0 : receive(MPI_ANY_SOURCE, 1) != MPI_SUCCESS; }

/* The run ends where the message of rank 1 comes before that of rank 2. */
static int aborted(void) {
    if (me) return send(0, 1), 0;
    MPI_Recv(&in[0], 1, MPI_INT, MPI_ANY_SOURCE, 1, MPI_COMM_WORLD, &statuses[0]);
    if (statuses[0].MPI_SOURCE == 1) MPI_Abort(MPI_COMM_WORLD, 3);
    return receive(1, 1) != MPI_SUCCESS;
}

static int probe(void) { return me ? send(0, 1), 0 : MPI_Probe(MPI_ANY_SOURCE, 1, MPI_COMM_WORLD, MPI_STATUS_IGNORE) != MPI_SUCCESS; }

/* Rank 1 revokes. Whether the message of rank 2 came before word of that. */
static int probed(void) {
    if (me == 1) return MPIX_Comm_revoke(MPI_COMM_WORLD);
    return me ? send(0, 1), 0 : MPI_Probe(2, 1, MPI_COMM_WORLD, MPI_STATUS_IGNORE) != MPI_SUCCESS;
}

/* Rank 1 sends and then revokes. Whether word of that came first, by rank 2. */
static int handed(void) {
    if (me == 1) send(0, 1), MPIX_Comm_revoke(MPI_COMM_WORLD);
    return me ? 0 : receive(1, 1) != MPI_SUCCESS;
}

/* Which of two sends that wait was matched first. */
static int sends(void) {
    if (me) return receive(0, 1);
    for (int k = 0; k < 2; k++) MPI_Issend(&one, 1, MPI_INT, k + 1, 1, MPI_COMM_WORLD, &requests[k]);
    return wait_for_any();
}

/* A message or a match. */
static int mixed(void) {
    if (me == 1) return send(0, 1), 0;
    if (me == 2) return receive(0, 1);
    post(0, 1, 1);
    MPI_Issend(&one, 1, MPI_INT, 2, 1, MPI_COMM_WORLD, &requests[1]);
    return wait_for_any();
}

/* Whether a send that waits was matched when its receiver had gone on. */
static int tested(void) {
    int met = 0;
    if (me == 1) {
        post(0, 0, 1);
        send(0, 2);
        MPI_Wait(&requests[0], MPI_STATUS_IGNORE);
    }
    if (me) return 0;
    MPI_Issend(&one, 1, MPI_INT, 1, 1, MPI_COMM_WORLD, &requests[0]);
    receive(1, 2);
    MPI_Test(&requests[0], &met, MPI_STATUS_IGNORE);
    MPI_Wait(&requests[0], MPI_STATUS_IGNORE);
    return met;
}

/* Rank 2 stops behind its receive, which may match before. */
static int matched(void) {
    if (me == 2) {
        post(0, 0, 1);
        MPI_Wait(&requests[0], MPI_STATUS_IGNORE);
    }
    return me ? 0 : MPI_Ssend(&one, 1, MPI_INT, 2, 1, MPI_COMM_WORLD) != MPI_SUCCESS;
}

/* Rank 1 revokes while rank 0 waits for a match at rank 2. */
static int revoked(void) {
    if (me == 1) return MPIX_Comm_revoke(MPI_COMM_WORLD), 0;
    if (me == 2) return receive(0, 1), 0;
    return MPI_Ssend(&one, 1, MPI_INT, 2, 1, MPI_COMM_WORLD) != MPI_SUCCESS;
}

/* Rank 1 revokes, and rank 2 sends to rank 0 and hands that on, in either order. Rank 3 stops once rank 2 has its message. */
static int ordered(void) {
    MPI_Comm other;
    int is_known = 0;
    MPIX_Comm_shrink(MPI_COMM_WORLD, &other);
    if (me == 1) MPIX_Comm_revoke(MPI_COMM_WORLD);
    if (me == 0 || me == 2) MPI_Recv(&in[0], 1, MPI_INT, me ? 3 : 2, 1, other, MPI_STATUS_IGNORE);
    if (me >= 2) MPI_Send(&one, 1, MPI_INT, me == 2 ? 0 : 2, 1, other);
    if (me == 0) MPIX_Comm_is_revoked(MPI_COMM_WORLD, &is_known);
    return is_known;
}

/* Rank 2 answers the first message that it takes, and stops: the other one it never takes. Whether that was the one of rank 0. */
static int left(void) {
    MPI_Status status;
    if (me < 2) send(2, 1);
    if (me == 2) MPI_Recv(&in[0], 1, MPI_INT, MPI_ANY_SOURCE, 1, MPI_COMM_WORLD, &status);
    if (me == 2) send(status.MPI_SOURCE, 2);
    return me ? 0 : receive(2, 2) != MPI_SUCCESS;
}

/* Rank 1 stops, and rank 2 revokes: which of the two rank 0 is told of. */
static int told(void) {
    if (me == 2) return MPIX_Comm_revoke(MPI_COMM_WORLD);
    return MPI_Allreduce(&one, &in[0], 1, MPI_INT, MPI_SUM, MPI_COMM_WORLD) == MPIX_ERR_REVOKED;
}

/* Rank 3 stops inside an agreement, which rank 1 may know before it enters. Whether the flag of rank 3 was left out. */
static int decided(void) {
    int flag = ~(1 << me);
    if (me == 1) receive(3, 1);
    MPIX_Comm_agree(MPI_COMM_WORLD, &flag);
    return flag >> 3 & 1;
}

/* .. where rank 0 revokes before: so rank 1 is told of the failure, or of that, by any of several words. */
static int hurried(void) {
    if (me == 0) MPIX_Comm_revoke(MPI_COMM_WORLD);
    return decided();
}

/* A part of the group is revoked, which the search doesn't follow. */
static int part(void) {
    MPI_Comm half;
    int code = 0;
    MPI_Comm_split(MPI_COMM_WORLD, me == 2, 0, &half);
    MPI_Comm_set_errhandler(half, MPI_ERRORS_RETURN);
    if (me == 1) MPIX_Comm_revoke(half);
    if (me == 0) code = MPI_Recv(&in[0], 1, MPI_INT, 1, 1, half, MPI_STATUS_IGNORE);
    return code != MPIX_ERR_REVOKED;
}

int main(int count, char **words) {
    static const struct {
        const char *name;
        int (*play)(void);
    } plays[] = {{"any", any},     {"some", some},   {"all", all},       {"wild", wild},       {"probe", probe},
                 {"sends", sends}, {"mixed", mixed}, {"tested", tested}, {"matched", matched}, {"revoked", revoked},
                 {"ordered", ordered}, {"left", left}, {"told", told}, {"probed", probed}, {"handed", handed}, {"decided", decided}, {"hurried", hurried}, {"part", part}, {"aborted", aborted}};
    int met = NONE;
    MPI_Init(&count, &words);
    MPI_Comm_set_errhandler(MPI_COMM_WORLD, MPI_ERRORS_RETURN);
    MPI_Comm_rank(MPI_COMM_WORLD, &me);
    for (size_t k = 0; count > 1 && k < sizeof plays / sizeof *plays; k++)
        if (!strcmp(words[1], plays[k].name)) met = plays[k].play();
    MPI_Finalize();
    return me ? 0 : 20 + met;
}
