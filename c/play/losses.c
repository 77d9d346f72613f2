/* What a stop loses: of the items that a rank sent to another one, and that this one hasn't taken when the rank stops, the last ones may never come, for
   each receiver apart. The engine loses what waits to go out. So before the first item that is to be lost the ring is filled with messages that nobody
   receives, and these are taken when the loss is met. A loss has to be known before: from the choices that are given, or from the file. */
#include "search/search.h"
#include <stdlib.h>

enum { OF_FILLERS = 1, TAG = 32767 }; /* the first duplicate of the world; no collective has this tag (collect.c) */

/* From each rank to each. */
static struct loss {
    int kept; /* so many items come */
    bool is_planned, is_blocked;
} losses[MAX_RANKS][MAX_RANKS];

__typeof__(ulfm_isend) __real_ulfm_isend;

void um_clear_losses(void) {
    for (int from = 0; from < MAX_RANKS; from++)
        for (int to = 0; to < MAX_RANKS; to++) losses[from][to] = (struct loss){0};
}

void um_plan_loss(int from, int to, int kept) { losses[from][to] = (struct loss){.kept = kept, .is_planned = true}; }

/* Whether what a rank sent may be lost where it stops. */
bool um_can_lose(int from) {
    ulfm_group group;
    return um_options.limit && !um_options.no_loss && ulfm_group_of(&um_ranks[from].home, OF_FILLERS, &group) == ULFM_OK;
}

/* It has stopped. */
bool um_may_lose(int from) { return um_players[from].has_stopped && um_can_lose(from); }

/* Whether a message that nobody receives is first. */
bool um_is_blocked(int from, int to) {
    const ulfm_next_item *head = &um_heads[from][to];
    return losses[from][to].is_blocked && head->kind == ULFM_MESSAGE && head->comm == OF_FILLERS && head->tag == TAG;
}

/* Before the rank stops such a message is there in place of an item that is to be lost, and never taken: so choices are as many as without the loss. */
bool um_is_held(int from, int to) {
    return !um_players[from].has_stopped && um_is_blocked(from, to) && um_count_of_pushed(from, to) <= losses[from][to].kept;
}

/* What a rank sent went out: nothing more does where the rest is to be lost. */
void um_block_rings(int from) {
    uint32_t moved;
    for (int to = 0; to < um_options.ranks; to++) {
        struct loss *loss = &losses[from][to];
        if (!loss->is_planned || loss->is_blocked || um_count_of_pushed(from, to) < loss->kept) continue;
        loss->is_blocked = true;
        for (int k = 0; k < um_options.capacity; k++) __real_ulfm_isend(&um_ranks[from].home, OF_FILLERS, (uint32_t)to, TAG, 0, 0);
        ulfm_push(&um_ranks[from].home, &moved);
    }
}

/* Takes these messages away where they are first. What waits behind them comes. */
void um_unblock(int from, int to) {
    uint32_t moved;
    if (um_is_blocked(from, to)) losses[from][to].is_planned = false;
    while (um_is_blocked(from, to)) {
        ulfm_take(&um_ranks[to].home, (uint32_t)from, &moved);
        ulfm_push(&um_ranks[from].home, &moved);
        ulfm_next(&um_ranks[to].home, (uint32_t)from, &um_heads[from][to]);
    }
}

/* Plans a loss by chance, for a schedule that is the one that was played up to its stops: of what wasn't taken there. False: nothing can be lost. */
bool um_choose_losses(int kept[MAX_RANKS][MAX_RANKS]) {
    bool is_any = false;
    for (int from = 0; from < um_options.ranks; from++)
        for (int to = 0; to < um_options.ranks; to++) {
            int taken, sent = um_count_at_stop(from, to, &taken);
            bool is_lost = um_may_lose(from) && sent > taken && um_choose_by_chance(2);
            kept[from][to] = is_lost ? taken + um_choose_by_chance(sent - taken) : -1;
            is_any = is_any || is_lost;
        }
    return is_any;
}

void um_plan_losses(int kept[MAX_RANKS][MAX_RANKS]) {
    for (int from = 0; from < um_options.ranks; from++)
        for (int to = 0; to < um_options.ranks; to++)
            if (kept[from][to] >= 0) um_plan_loss(from, to, kept[from][to]);
}
