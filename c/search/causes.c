/* What happens before an event, in each order of a schedule's events that is alike: its causes. A rank learns of a revocation by the first word of it, and any
   other word of it would do as well. So what needs a revocation comes after one of its words, whichever that is, and before it is what is before all of
   them. These are the dominators of a graph of which some nodes want one of their predecessors, and the others want all. */
#include "search/nodes.h"
#include <string.h>

/* The next bit of a row; -1: there is none below the end. */
int um_next_bit(const uint64_t *row, int from, int end) {
    for (int word = from / 64; word * 64 < end; word++) {
        uint64_t left = row[word] & (word == from / 64 ? ~0ull << (from % 64) : ~0ull);
        if (!left) continue;
        int bit = word * 64 + __builtin_ctzll(left);
        return bit < end ? bit : -1;
    }
    return -1;
}

/* How many numbers of a row may have bits of events up to one. */
static int length_of(int event) { return (CELLS + event) / 64 + 1; }

static int cell_of(const struct footprint *e) { return e->first == NO_STEP ? NO_STEP : e->rank * 64 + e->comm; }

/* An event as a cause; where it is the first word of a revocation: that the revocation is known. */
int um_cause_of(int event) {
    const struct footprint *e = &um_footprints[event];
    return e->first == event ? cell_of(e) : CELLS + event;
}

bool um_is_before(int one, int other) { return has_bit(um_search->before[other], CELLS + one); }

/* Whether an event can't be without a cause, or is one of the words that are the cause. */
bool um_is_behind(int cause, int event) {
    return has_bit(um_search->before[event], cause) || (cause < CELLS && cell_of(&um_footprints[event]) == cause);
}

/* ---- Direct causes ---- */

/* What an event has to have before it: the last one of its process, the one that pushed its item, and those by which it found what it did. */
static int needed_of(int j, int needed[7]) {
    const struct footprint *e = &um_footprints[j];
    int count = 0;
    if (um_search->last_of[e->process] >= 0) needed[count++] = CELLS + um_search->last_of[e->process];
    int beside = e->kind == LOSES ? ring_of(e->source, e->rank) : e->kind == TAKES && e->source != e->rank ? loss_of(e->source, e->rank) : -1;
    if (beside >= 0 && um_search->last_of[beside] >= 0) needed[count++] = CELLS + um_search->last_of[beside];
    if (e->pushed >= 0) needed[count++] = um_cause_of(e->pushed);
    if (e->by >= 0 && e->by < j) needed[count++] = um_cause_of(e->by);
    if (e->after >= 0) needed[count++] = um_cause_of(e->after);
    if (e->found >= 0 && e->found < j) needed[count++] = um_cause_of(e->found);
    if (e->kind == LOOKS_AT_SEND && e->met >= 0) needed[count++] = um_cause_of(e->met);
    return count;
}

/* The earlier events that an event depends on, the last one first. */
static int dependences_of(int j, int at[MOST_STEPS]) {
    const struct footprint *e = &um_footprints[j];
    int count = 0, a = um_search->rank_count[e->rank] - 1, b = um_is_across(e) ? um_search->across_count - 1 : -1;
    while (a >= 0 || b >= 0) {
        bool is_of_rank = b < 0 || (a >= 0 && um_search->of_rank[e->rank][a] > um_search->across[b]);
        int i = is_of_rank ? um_search->of_rank[e->rank][a--] : um_search->across[b--];
        if (i >= j || (count && at[count - 1] == i)) continue;
        if (um_footprints[i].process != e->process && um_is_dependent(&um_footprints[i], i, e)) at[count++] = i;
    }
    return count;
}

/* Those that it depends on may come after it; one by which a look found something may where the look might have been made before. */
static void find_direct(int j) {
    const struct footprint *e = &um_footprints[j];
    int at[MOST_STEPS], needed[7], needed_count = needed_of(j, needed), count = dependences_of(j, at);
    uint64_t *direct = um_search->direct[j], *races = um_search->races[j];
    memset(direct, 0, (size_t)length_of(j) * sizeof *direct);
    memset(races, 0, (size_t)length_of(j) * sizeof *races);
    for (int k = 0; k < needed_count; k++) set_bit(direct, needed[k]);
    for (int k = 0; k < count; k++) {
        int cause = um_cause_of(at[k]);
        bool is_needed = um_is_needed(&um_footprints[at[k]], e);
        for (int q = 0; q < needed_count; q++) is_needed = is_needed || (needed[q] == cause && !(e->flags & ASKED));
        if (!is_needed) set_bit(races, cause);
        set_bit(direct, cause);
    }
}

/* ---- All causes ---- */

/* Adds what is before a cause. */
void um_put_before(uint64_t *row, int cause) {
    bool is_cell = cause < CELLS;
    int event = is_cell ? um_search->first_of[cause] : cause - CELLS, cell = cell_of(&um_footprints[event]);
    const uint64_t *before = is_cell ? um_search->common[cause] : um_search->before[event];
    for (int k = 0; k < length_of(event); k++) row[k] |= before[k];
    if (!is_cell && cell != NO_STEP) set_bit(row, cell);
}

/* Finds the causes of an event. Whether these are others than before. */
static bool renew(int j) {
    uint64_t row[WORDS];
    const uint64_t *direct = um_search->direct[j];
    size_t bytes = (size_t)length_of(j) * sizeof *row;
    int end = CELLS + j;
    memset(row, 0, bytes);
    for (int k = um_next_bit(direct, 0, end); k >= 0; k = um_next_bit(direct, k + 1, end)) {
        um_put_before(row, k);
        set_bit(row, k);
    }
    if (!memcmp(row, um_search->before[j], bytes)) return false;
    memcpy(um_search->before[j], row, bytes);
    return true;
}

/* A word of a revocation: what is before all words of it is before this one too. */
static void meet(int word) {
    const struct footprint *e = &um_footprints[word];
    uint64_t *common = um_search->common[cell_of(e)];
    const uint64_t *before = um_search->before[word];
    if (e->first == word) memset(common, -1, (size_t)length_of(word) * sizeof *common);
    for (int k = 0; k < length_of(e->first); k++) common[k] &= before[k];
    if (e->first == word) set_bit(common, CELLS + word);
}

/* Of the events from one on, until nothing changes: a word that came later may be a cause of what came before it. */
static void renew_all(int from) {
    bool changes = true;
    for (int round = 0; changes; round++) {
        changes = false;
        for (int j = from; j < um_search->count && round; j++)
            if (um_footprints[j].first != NO_STEP) meet(j);
        for (int j = from; j < um_search->count; j++) {
            bool is_word = um_footprints[j].first != NO_STEP, is_changed = renew(j);
            changes = changes || (round ? is_changed : is_word && um_footprints[j].first != j);
            if (!round && is_word) meet(j);
        }
    }
}

/* Finds the causes of all events, of which those before `from` are as in the schedule before. The first event that may have other causes than there. */
int um_order_events(int from) {
    int first = um_search->count, changed = from;
    memset(um_search->rank_count, 0, sizeof um_search->rank_count);
    memset(um_search->last_of, -1, sizeof um_search->last_of);
    um_search->across_count = 0;
    for (int j = 0; j < um_search->count; j++) {
        const struct footprint *e = &um_footprints[j];
        if (j >= from) find_direct(j);
        um_search->of_rank[e->rank][um_search->rank_count[e->rank]++] = (short)j;
        um_search->last_of[e->process] = j;
        if (um_is_across(e)) um_search->across[um_search->across_count++] = (short)j;
        if (e->first == j) um_search->first_of[cell_of(e)] = (short)j;
        if (e->first != NO_STEP && first > e->first) first = e->first;
        if (j >= from && e->first != NO_STEP && changed > e->first) changed = first;
    }
    renew_all(first < from ? first : from);
    return changed;
}
