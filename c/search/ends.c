/* Waits that may end by one of several things: by one of several requests; where a receive or a probe names no source, by a failure too; where a send waits
   for its match, by a revocation; and a probe that a revocation ended, by a message. What came later might have come in the place of what ended it. */
#include "mpi/calls.h"
#include "progress/progress.h"
#include "search/nodes.h"

/* Of the wait that each rank is in. */
static struct ends ends[MAX_RANKS];

void um_begin_ends(bool wants_all) { ends[um_me->number] = (struct ends){.wants_all = wants_all}; }

void um_add_end(const struct request *request) {
    struct ends *own = &ends[um_me->number];
    if (own->count > MOST_ENDS || own->count++ == MOST_ENDS) return;
    bool is_send = request->kind == SYNCHRONOUS, is_known = is_send || request->kind == RECEIVE;
    int source = request->peer == MPI_ANY_SOURCE ? ANYBODY : is_known && request->peer >= 0 ? request->comm->members[request->peer] : ANYBODY;
    own->at[own->count - 1].id = request->id;
    own->at[own->count - 1].comm = (int8_t)(is_known ? um_number_of(request->context) : UNKNOWN);
    own->at[own->count - 1].source = (int8_t)source;
    own->at[own->count - 1].is_send = is_send;
}

/* The wait is over. */
void um_finish_ends(void) { ends[um_me->number] = (struct ends){0}; }

/* For the present event, a look. */
void um_note_ends(void) {
    const struct footprint *e = &um_footprints[um_step];
    um_search->ends[um_step] = e->waits ? ends[e->rank] : (struct ends){0};
}

/* A probe in a wait that a revocation ended. */
static bool is_revoked_probe(const struct footprint *e) { return e->waits && e->kind == PROBES && e->answer == ULFM_REVOKED; }

/* The event by which a look in a wait found what it did, or a probe the revocation; NO_STEP: it found nothing. */
static int end_of(const struct footprint *e) {
    if (!e->waits) return NO_STEP;
    if (is_revoked_probe(e)) return um_search->first_of[e->rank * 64 + e->comm];
    return e->kind == TESTS && e->flags & FOUND ? e->by : e->kind == PROBES || e->kind == LOOKS_AT_SEND ? e->found : NO_STEP;
}

/* Whether a probe would have found a message. */
static bool would_find(const struct footprint *probe, const struct footprint *message) {
    bool is_of = probe->comm == message->comm && (probe->source == ANYBODY || probe->source == message->source);
    return is_of && (probe->tag == -1 || probe->tag == message->tag);
}

static bool is_of_any(const struct footprint *e) { return (e->kind == TESTS && e->source == ANYBODY) || (e->kind == PROBES && e->flags & OF_ANY); }

/* Whether an item of the rank (`takes`), or a match of a send of its, might have ended one of the requests. */
static bool may_end_one(const struct ends *of, const struct footprint *e, int at, bool takes, bool is_match) {
    bool is_failure = takes && e->item == ULFM_STOP_NOTICE, is_message = takes && e->item == ULFM_MESSAGE;
    bool is_revocation = takes && e->item == ULFM_REVOCATION && um_may_revoke(e, at);
    if (of->wants_all && (is_message || is_match)) return false;
    if (of->count > MOST_ENDS) return true;
    for (int k = 0; k < of->count; k++) {
        int source = of->at[k].source;
        if (of->at[k].comm == UNKNOWN) return true;
        if (is_match && of->at[k].is_send && source == e->rank) return true;
        if (is_failure && (source == ANYBODY || source == e->source)) return true;
        if (is_message && !of->at[k].is_send && (e->ended == of->at[k].id + 1 || e->ended == ANY_RECEIVE)) return true;
        if (is_revocation && of->at[k].comm == e->comm) return true;
    }
    return false;
}

/* Whether an event might have ended the wait that a look ended. */
static bool may_end(const struct footprint *look, const struct ends *of, const struct footprint *e) {
    bool is_match = e->matches >> look->rank & 1, is_taken = e->kind == TAKES && e->rank == look->rank;
    if (is_taken && e->item == ULFM_STOP_NOTICE && is_of_any(look)) return true;
    if (is_taken && e->item == ULFM_REVOCATION && um_may_revoke(e, end_of(look)) && look->kind == LOOKS_AT_SEND && look->comm == e->comm) return true;
    if (is_taken && e->item == ULFM_MESSAGE && is_revoked_probe(look) && would_find(look, e)) return true;
    return of->count > 1 && (is_taken || is_match) && may_end_one(of, e, end_of(look), is_taken, is_match);
}

/* Whether the wait that a look ended might have ended by something else. */
bool um_has_other_ends(int look) {
    const struct footprint *e = &um_footprints[look];
    return um_search->ends[look].count > 1 || is_of_any(e) || e->kind == LOOKS_AT_SEND || e->is_over_anyway || is_revoked_probe(e);
}

/* Whether an item might have ended the wait that a look ended. */
bool um_may_end_wait(int look, const struct footprint *e) {
    const struct footprint *of = &um_footprints[look];
    return end_of(of) != NO_STEP && may_end(of, &um_search->ends[look], e);
}

/* Of the events from one on. */
void um_want_other_ends(int from) {
    for (int look = 0; look < um_search->count; look++) {
        const struct footprint *e = &um_footprints[look];
        const struct ends *of = &um_search->ends[look];
        int by = end_of(e);
        if (by < 0 || by >= look || !um_has_other_ends(look)) continue;
        if (look >= from && ((of->count > 1 && !of->wants_all) || e->is_over_anyway)) um_want(by, look);
        for (int other = by + 1; other < um_search->count; other++)
            if ((look >= from || other >= from) && other != look && !um_is_behind(um_cause_of(by), other) && may_end(e, of, &um_footprints[other]))
                um_want(by, other);
    }
}
