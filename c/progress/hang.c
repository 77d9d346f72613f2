/* What is told where a run can't go on: what each rank waits for, and where in the program. */
#define _GNU_SOURCE
#include "progress/progress.h"
#include <stdlib.h>
#include <string.h>
#include <unistd.h>

static const char *name_of(const struct sight *sight, char *name, size_t room) {
    if (!sight->size) return "";
    if (sight->name[0]) snprintf(name, room, " on %s", sight->name);
    else snprintf(name, room, " on a communicator of %d (context %llu)", sight->size, (unsigned long long)sight->context);
    return name;
}

/* Whether a rank is in the same call on the same communicator. */
static bool is_in_same(struct rank *rank, const struct sight *waiting) {
    struct sight sight = um_look_at_call(rank);
    return sight.call.name == waiting->call.name && sight.size && sight.first == waiting->first;
}

/* The members that a shrink or an agreement waits for: those that run and aren't in the same one. */
static uint32_t missing_from(const struct rank *waiting, const struct sight *sight) {
    uint32_t bits = 0;
    bool agrees = !strcmp(sight->call.name, "MPIX_Comm_agree");
    if (!sight->size || (strcmp(sight->call.name, "MPIX_Comm_shrink") && !agrees)) return 0;
    for (int k = 0; k < sight->size; k++) {
        struct rank *rank = &um_ranks[sight->members[k]];
        bool is_there = agrees ? sight->agreed[rank->number] >= sight->agreed[waiting->number] : is_in_same(rank, sight);
        if (!rank->life.has_stopped && !is_there) bits |= 1u << rank->number;
    }
    return bits;
}

static void tell_peer(const struct rank *rank, const struct sight *sight, char *text, size_t room) {
    const struct call *call = &sight->call;
    size_t used = 0;
    uint32_t waits_for = call->waits_for | missing_from(rank, sight);
    if (call->peer == MPI_ANY_SOURCE) used += snprintf(text + used, room - used, " from any source");
    else if (call->peer == MPI_PROC_NULL) used += snprintf(text + used, room - used, " with nobody");
    else if (call->peer >= 0) used += snprintf(text + used, room - used, " with %d", call->peer);
    if (call->tag == MPI_ANY_TAG && call->peer != MPI_UNDEFINED) used += snprintf(text + used, room - used, " any tag");
    else if (call->tag >= 0) used += snprintf(text + used, room - used, " tag %d", call->tag);
    for (int k = 0; k < um_options.ranks; k++)
        if (waits_for >> k & 1) used += snprintf(text + used, room - used, "%s %d", used ? "," : " for rank", k);
}

uint32_t __real_ulfm_get_failed(ulfm_slot *slot, uint64_t comm, ulfm_group *failed);

/* Which failures this rank knows, so that others can tell. In a run that is played nobody else runs, and it is asked then: it is no event. */
static uint32_t known_by(struct rank *rank) {
    ulfm_group failed;
    uint32_t bits = 0;
    if (__real_ulfm_get_failed(rank->slot, 0, &failed) != ULFM_OK) return 0;
    for (uint32_t k = 0; k < failed.size; k++) bits |= 1u << failed.members[k];
    return bits;
}

void um_note_failures(void) {
    if (um_is_played) return;
    uint32_t bits = known_by(um_me);
    atomic_store(&um_me->recovery.known, bits);
    um_me->recovery.known_count = __builtin_popcount(bits);
}

/* What a rank knows of failures when the time is over. Where a rank of a run that is played runs, it may be inside the engine, which isn't asked then. */
static const char *failures_of(struct rank *rank, enum moment moment, char *text, size_t room) {
    uint32_t bits = !um_is_played ? atomic_load(&rank->recovery.known) : moment == RANK_RUNS ? 0 : known_by(rank);
    size_t used = 0;
    *text = 0;
    for (int k = 0; k < um_options.ranks; k++)
        if (bits >> k & 1) used += (size_t)snprintf(text + used, room - used, "%s %d", used ? "," : " (knows that", k);
    if (used) snprintf(text + used, room - used, " failed%s)", rank->recovery.is_told ? "" : ", and no call told it");
    return text;
}

static void tell_place(struct rank *rank, enum moment moment) {
    char line[256], name[128], peer[128] = "", failures[96] = "";
    struct sight sight = um_look_at_call(rank);
    const struct call *call = &sight.call;
    fprintf(stderr, "  rank %d: ", rank->number);
    um_line_of(call, line, sizeof line);
    if (rank->life.has_stopped) {
        fprintf(stderr, "stopped%s, %s %s%s (call %d)\n", rank->life.is_planned ? " by plan" : "", rank->life.is_planned ? "in" : "after",
                call->name ? call->name : "its start", line, rank->plan.calls);
        return;
    }
    if (rank->life.has_finalized || !call->name) {
        fprintf(stderr, "%s\n", rank->life.has_finalized ? "has finalized" : "has made no call");
        return;
    }
    if (moment != NOBODY_MOVES) failures_of(rank, moment, failures, sizeof failures);
    um_tell_table("at %d %s%s\n", rank->number, call->name, failures);
    tell_peer(rank, &sight, peer, sizeof peer);
    fprintf(stderr, "%s %s%s%s%s (call %d)%s\n",
            moment == NOBODY_MOVES && rank->played.loops ? "loops over"
            : rank->shared.idle                          ? "waits in"
                                                         : "runs, after",
            call->name, peer, name_of(&sight, name, sizeof name), line, rank->plan.calls, failures);
}

void um_tell_places(enum moment moment) {
    for (int k = 0; k < um_options.ranks; k++) tell_place(&um_ranks[k], moment);
}

static pthread_mutex_t report = PTHREAD_MUTEX_INITIALIZER;

/* What ends the run is told once: who comes second waits for that end. */
void um_begin_report(void) { pthread_mutex_lock(&report); }

/* Whether a signal that interrupts a run that is played can report: it holds none of the locks that a report takes. */
bool um_can_report(void) {
    if (pthread_mutex_trylock(&report)) return false;
    pthread_mutex_unlock(&report);
    for (int k = 0; k < um_options.ranks; k++)
        if (um_is_changing_call(&um_ranks[k])) return false;
    return true;
}

/* Nobody can move: says so, and ends the run. */
void um_tell_stuck(void) {
    um_begin_report();
    fprintf(stderr, "ulfm-mpirun: nobody can move any more:\n");
    um_tell_places(NOBODY_MOVES);
    um_write_rests(true);
    bool loops = false;
    for (int k = 0; k < um_options.ranks; k++) loops = loops || um_ranks[k].played.loops;
    um_tell_table(loops ? "loops\n" : "stuck\n");
    um_end_run(STATUS_STUCK);
}
