/* Looks of a run that is played: one that finds what it found before, with nothing new since, is no event that others have to wait for. */
#include "play/play.h"
#include "progress/progress.h"

/* What a look is told by: what is looked at, from where in the program, and the number of the look in its call of MPI. */
uint64_t um_look_of(const struct event *call, uint64_t request) {
    uint64_t look = 14695981039346656037u;
    uint64_t words[] = {call->kind, call->comm, call->peer, (uint64_t)call->tag, request, (uintptr_t)um_me->call.from, um_me->played.looks++};
    for (size_t k = 0; k < sizeof words / sizeof *words; k++) look = (look ^ words[k]) * 1099511628211u;
    return look | 1;
}

/* Something came, or the rank did something: a look may find another answer. */
void um_forget_looks(struct player *player) {
    if (!player->look_count) return;
    for (int k = 0; k < LOOKS; k++) player->looks[k] = 0;
    player->look_count = 0;
}

/* Where a look stands in the table of those that were made, or none does. */
static uint64_t *cell_of_look(struct player *player, uint64_t look) {
    int k = (int)(look % LOOKS);
    while (player->looks[k] && player->looks[k] != look) k = (k + 1) % LOOKS;
    return &player->looks[k];
}

/* Whether the call that a rank stands before is a look that it made before, with nothing new since. */
bool um_looks_again(struct player *player) {
    if (player->marks_at_look != um_count_of_marks()) um_forget_looks(player);
    return player->look && (player->look_count > LOOKS / 2 || *cell_of_look(player, player->look));
}

void um_remember_look(struct player *player) {
    if (player->marks_at_look != um_count_of_marks()) um_forget_looks(player);
    player->marks_at_look = um_count_of_marks();
    uint64_t *cell = cell_of_look(player, player->look);
    if (*cell || player->look_count > LOOKS / 2) return;
    *cell = player->look;
    player->look_count++;
}
