/* What a rank that stopped hadn't taken: it might have taken that before, where it then would have done something else. */
#include "progress/progress.h"
#include "search/nodes.h"

/* What an event sent to a rank, as that one would take it. */
static struct footprint take_of(int sent, int to) {
    const struct footprint *e = &um_footprints[sent];
    struct footprint take = {
        .process = (uint8_t)ring_of(e->rank, to), .rank = (uint8_t)to, .kind = TAKES, .comm = e->comm, .source = (int8_t)e->rank, .tag = e->tag};
    take.pushed = take.by = take.found = take.after = take.met = take.first = NO_STEP;
    if (e->kind == SENDS) {
        take.item = ULFM_MESSAGE;
        take.flags = SAW_NO_REVOCATION | (e->flags & WAITED_FOR);
        take.ended = ANY_RECEIVE;
    } else if (e->kind == ENTERS_SHRINK || e->kind == ENTERS_AGREE) {
        take.item = e->kind == ENTERS_AGREE ? ULFM_AGREE_ENTRY : ULFM_SHRINK_ENTRY;
        take.topic = e->topic;
    } else if (e->kind == STOPS) {
        take.item = ULFM_STOP_NOTICE;
        take.fails = (uint8_t)(1u << e->rank);
    } else {
        take.item = ULFM_REVOCATION;
        take.flags = REVOKED_FIRST;
        take.first = MOST_STEPS;
    }
    return take;
}

/* Whether a receive, or a probe, might have had a message whose sender waits for that. */
static bool might_match(const struct footprint *e, const struct footprint *message) {
    bool is_of = (e->kind == POSTS || e->kind == PROBES) && e->comm == message->comm && (e->source == ANYBODY || e->source == message->source);
    return message->flags & WAITED_FOR && is_of && (e->tag == -1 || e->tag == message->tag);
}

/* Whether the rank would have done something else before its stop, or its sender would. */
static bool matters(int sent, int stop) {
    int to = um_footprints[stop].rank;
    struct footprint take = take_of(sent, to);
    for (int k = 0; k < stop; k++) {
        const struct footprint *e = &um_footprints[k];
        if (e->rank == to && (might_match(e, &take) || um_is_dependent(e, k, &take) || um_may_end_wait(k, &take))) return true;
    }
    return false;
}

/* What was sent is taken before the stop. */
static void want_taken(int sent, int stop) {
    struct node *node = &um_search->nodes[stop];
    processes take = bit_of(ring_of(um_footprints[sent].rank, um_footprints[stop].rank));
    if (sent > stop) um_want(stop, sent);
    else if (!(take & (node->wanted | node->done | um_asleep(&node->sleepers, stop)))) node->wanted |= take & node->enabled;
}

/* The event that sent something, without the stop; word of a revocation would be sent by any word that comes of it. NO_STEP: it needs the stop. */
static int without_stop(int sent, int stop) {
    int cause = um_cause_of(sent);
    for (int k = sent; k < um_search->count; k++)
        if ((k == sent || um_footprints[k].first == sent) && !um_is_before(stop, k)) return k;
        else if (cause >= CELLS) break;
    return NO_STEP;
}

/* Of the events from one on. */
void um_want_left(int from) {
    for (int stop = 0; stop < um_search->count; stop++) {
        if (um_footprints[stop].kind != STOPS) continue;
        for (int rank = 0; rank < um_options.ranks; rank++) {
            int count;
            const int16_t *left = um_left_in_ring(rank, um_footprints[stop].rank, &count);
            for (int k = 0, sent; k < count && (sent = without_stop(left[k], stop)) != NO_STEP; k++)
                if ((stop >= from || sent >= from) && matters(sent, stop)) want_taken(sent, stop);
        }
    }
}
