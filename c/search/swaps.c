/* The rules of what commutes, held to worlds: of a schedule two neighbours that commute by them are exchanged, and it is played so. Each event has to happen
   then, and be what it was, and each rank has to see the same. Looks that were made before are choices then, and not only where nothing else is. */
#include "search/nodes.h"

bool um_is_exchanging(void) { return um_is_searching() && um_search->exchanges; }

/* Word of a revocation that was known: the controller has it come first. */
static bool goes_first(const struct footprint *e) { return e->kind == TAKES && e->first != NO_STEP && !(e->flags & REVOKED_FIRST); }

static bool is_poll(const struct footprint *e) { return e->kind == POLLS_SHRINK || e->kind == POLLS_AGREE; }

/* Whether an event is an item of a rank, or matches a send of its. */
static bool may_come_to(const struct footprint *e, int rank) { return (e->kind == TAKES && e->rank == rank) || e->matches >> rank & 1; }

/* Either might end one wait, or comes to a rank in a wait that may end by several things: the search tries its other ends by themselves (ends.c). */
static bool may_end_one_wait(int k) {
    const struct footprint *one = &um_footprints[k], *other = one + 1;
    if (um_may_end_wait(k, other) || um_may_end_wait(k + 1, one)) return true;
    for (int rank = 0; rank < um_options.ranks; rank++) {
        int look = k + 2;
        if (!may_come_to(one, rank) || !may_come_to(other, rank)) continue;
        while (look < um_search->count && (um_footprints[look].rank != rank || um_footprints[look].kind >= TAKES)) look++;
        if (look < um_search->count && um_footprints[look].waits && um_has_other_ends(look)) return true;
    }
    return false;
}

/* What a rank took before it stopped it can't take after that: where nobody else sees that either, it is left out. */
static bool is_left_out(const struct footprint *one, const struct footprint *other) {
    return one->kind == TAKES && other->kind == STOPS && one->rank == other->rank;
}

/* Whether neighbours commute for the search, so that they can be exchanged. */
static bool can_be_exchanged(int k) {
    const struct footprint *one = &um_footprints[k], *other = one + 1;
    if (goes_first(one) || one->kind == LOSES || other->kind == LOSES || um_is_behind(um_cause_of(k), k + 1)) return false;
    if (is_left_out(one, other) && one->flags & REVOKED_FIRST) return false; /* it is handed on */
    if (one->kind == STOPS && other->flags & REVOKED_FIRST) return false;    /* what is handed on may be known to the rank, and comes first there */
    return um_do_commute(one, other) && !may_end_one_wait(k);
}

/* By which rule two neighbours commute; NO_STEP: by none. Two words of a revocation, or one and something else, have a rule of their own, as has a look of a
   wait. */
static int rule_of(int k) {
    const struct footprint *one = &um_footprints[k], *other = &um_footprints[k + 1];
    bool are_polls_of_one = is_poll(one) && is_poll(other) && one->topic == other->topic;
    if (!can_be_exchanged(k)) return NO_STEP;
    if (one->rank != other->rank) return are_polls_of_one ? TWO_POLLS : OF_TWO_RANKS;
    if (one->first != NO_STEP || other->first != NO_STEP) return WORD_OF_REVOCATION;
    if (one->waits || other->waits) return END_OF_WAIT;
    return one->kind == TAKES && other->kind == TAKES ? TWO_TAKES : TAKE_AND_CALL;
}

/* Which of the neighbours of one rule, the k-th. */
static int place_of(int count, int rule, int number) {
    int k = 0;
    while (k + 1 < count && (rule_of(k) != rule || number-- > 0)) k++;
    return k;
}

static void give_choice(const struct footprint *e) {
    um_search->nodes[um_search->prefix].footprint = *e;
    um_search->choices[um_search->prefix++] = e->process;
}

/* Gives the present schedule as choices, with two neighbours exchanged. */
static void give_exchanged(int count, int place) {
    const struct footprint *one = &um_footprints[place], *other = one + 1;
    um_search->prefix = 0;
    for (int k = 0; k < place; k++) give_choice(&um_footprints[k]);
    give_choice(other);
    if (!is_left_out(one, other)) give_choice(one);
    for (int k = place + 2; k < count; k++) give_choice(&um_footprints[k]);
    um_search->sleepers.count = 0;
    um_search->exchanges = true;
}

/* Chooses two neighbours by chance, first a rule, and gives the present schedule with them exchanged as choices. The rule; RULES: there are none. */
enum rule um_choose_swap(int count) {
    int found[RULES] = {0}, rules = 0;
    um_search->count = count;
    um_order_events(0);
    for (int k = 0; k + 1 < count; k++)
        if (rule_of(k) >= 0 && found[rule_of(k)]++ == 0) rules++;
    if (!rules || um_has_copies()) return RULES;
    if (rules > 1 && found[OF_TWO_RANKS]) found[OF_TWO_RANKS] = 0, rules--; /* which is proved */
    int rule = 0, which = um_choose_by_chance(rules);
    while (!found[rule] || which-- > 0) rule++;
    give_exchanged(count, place_of(count, rule, um_choose_by_chance(found[rule])));
    return (enum rule)rule;
}

/* Has an event of the exchanged schedule come next. */
static void bring_forward(int at, int from) {
    int process = um_search->choices[from];
    struct footprint footprint = um_search->nodes[from].footprint;
    for (int k = from; k > at; k--) {
        um_search->choices[k] = um_search->choices[k - 1];
        um_search->nodes[k].footprint = um_search->nodes[k - 1].footprint;
    }
    um_search->choices[at] = process;
    um_search->nodes[at].footprint = footprint;
}

static bool is_known_word(const struct event *event) {
    return event->kind == TAKES && event->item == ULFM_REVOCATION && um_is_known_revoked(event->rank, event->comm);
}

/* Which of the choices is the next event of the exchanged schedule; -1: none is. At its end nothing is left but looks that were made. */
int um_choose_exchanged(const struct event *choices, int count) {
    int at = um_step, from = at, chosen = 0;
    if (at == um_search->prefix) {
        for (int k = 0; k < count; k++)
            if (choices[k].kind == TAKES || !um_players[choices[k].rank].look) um_search->cut = NOT_THE_SAME;
        return -1;
    }
    if (is_known_word(&choices[0]))
        while (from < um_search->prefix && um_search->choices[from] != process_of(&choices[0])) from++;
    if (from < um_search->prefix) bring_forward(at, from);
    while (chosen < count && process_of(&choices[chosen]) != um_search->choices[at]) chosen++;
    if (chosen < count) return chosen;
    um_search->cut = NOT_THE_SAME;
    return -1;
}
