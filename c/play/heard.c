/* What each rank heard of failures, revocations, shrinks and agreements: so the controller knows whether a poll would be answered, which the engine tells
   by answering it. A shrink or an agreement can be decided at a rank where it has heard of each member that it entered, or that it failed: itself, or
   by who entered. */
#include "progress/progress.h"
#include "search/search.h"
#include <stdlib.h>

/* One rank's entries into the shrinks of a communicator, or its agreements, by their numbers. */
struct entries {
    struct {
        uint32_t flag;
        uint8_t known; /* the failures that the rank knew, as bits */
    } * at;
    int count;
};
static struct entries entries[MAX_RANKS][CONTEXTS][2];
static int heard[MAX_RANKS][MAX_RANKS][CONTEXTS][2]; /* how many of them came to a rank from another one */
static uint8_t known[MAX_RANKS];
static uint64_t revoked[MAX_RANKS];

void um_note_entry(int rank, int comm, bool agrees, uint32_t flag) {
    struct entries *own = &entries[rank][comm][agrees];
    if (!um_grow(&own->at, own->count, sizeof *own->at)) return;
    own->at[own->count].flag = flag;
    own->at[own->count++].known = known[rank];
}

bool um_knows_failed(int rank, int other) { return known[rank] >> other & 1; }

void um_note_revoked(int rank, int comm) { revoked[rank] |= 1ull << comm; }

bool um_is_known_revoked(int rank, int comm) { return revoked[rank] >> comm & 1; }

/* A rank takes an item. */
void um_note_item(int rank, int from, const ulfm_next_item *item) {
    if (item->kind == ULFM_STOP_NOTICE) known[rank] |= (uint8_t)(1u << from);
    bool agrees = item->kind == ULFM_AGREE_ENTRY;
    if (item->kind == ULFM_REVOCATION) um_note_revoked(rank, um_number_of(item->comm));
    if (agrees || item->kind == ULFM_SHRINK_ENTRY) heard[rank][from][um_number_of(item->comm)][agrees] = (int)item->round + 1;
}

/* Who entered, and need not have: those that entries of members which aren't excluded say have failed, where that is so too of whom theirs say it. */
static uint8_t optional_of(const struct proposal *made, int comm, bool agrees) {
    uint8_t said = 0, optional = 0;
    for (int k = 0; k < MAX_RANKS; k++)
        if (made->listed & ~made->excluded & 1u << k) said |= entries[k][comm][agrees].at[made->round].known;
    for (int k = 0; k < MAX_RANKS; k++)
        if (made->listed & said & 1u << k && !(entries[k][comm][agrees].at[made->round].known & ~said)) optional |= (uint8_t)(1u << k);
    return optional;
}

/* What the rank would propose for its last shrink or agreement. */
struct proposal um_proposal_of(int rank, int comm, bool agrees) {
    ulfm_group group;
    const struct entries *own = &entries[rank][comm][agrees];
    int round = own->count - 1;
    if (round < 0 || ulfm_group_of(&um_ranks[rank].home, um_context_of(comm), &group) != ULFM_OK) return (struct proposal){.is_possible = true};
    struct proposal made = {.listed = (uint8_t)(1u << rank), .by_entries = own->at[round].known, .value = own->at[round].flag, .round = round};
    for (uint32_t k = 0; k < group.size; k++) {
        int member = group.members[k];
        const struct entries *other = &entries[member][comm][agrees];
        made.all |= (uint8_t)(1u << member);
        if (heard[rank][member][comm][agrees] <= round || other->count <= round) continue;
        made.listed |= (uint8_t)(1u << member);
        made.by_entries |= other->at[round].known;
        made.value &= other->at[round].flag;
    }
    made.excluded = (known[rank] | made.by_entries) & made.all;
    made.is_possible = ((made.listed | made.excluded) & made.all) == made.all;
    made.optional = optional_of(&made, comm, agrees);
    return made;
}

/* Who entered the shrink of a communicator that a rank entered last, as bits. */
uint8_t um_entered(int rank, int comm) {
    uint8_t bits = 0;
    for (int k = 0; k < MAX_RANKS; k++) bits |= (uint8_t)((entries[k][comm][false].count >= entries[rank][comm][false].count) << k);
    return bits;
}

/* Whether it could be decided there now. */
bool um_has_heard_all(int rank, int comm, bool agrees) { return um_proposal_of(rank, comm, agrees).is_possible; }
