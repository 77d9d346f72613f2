/* Many schedules of a program by chance: what came out of how many, and a seed for each. */
#define _GNU_SOURCE
#include "launcher/launcher.h"
#include "play/tally.h"
#include "progress/progress.h"
#include <stdlib.h>
#include <string.h>

static void play_seed(uint64_t seed, bool is_apart) {
    int which, bad = 0;
    um_begin_chance(seed);
    um_play_next(is_apart);
    if (um_count_ending(seed, &which) && um_tally->endings[which].outcome != RIGHT) {
        for (int k = 0; k < um_tally->count; k++) bad += um_tally->endings[k].outcome != RIGHT;
        if (um_options.keep && bad == 1) um_keep_schedule(um_options.keep);
    }
    um_put_all_back(is_apart);
}

static int compare_endings(const void *a, const void *b) {
    const struct ending *one = a, *other = b;
    return one->count != other->count ? (one->count < other->count) - (one->count > other->count)
                                      : (one->seed > other->seed) - (one->seed < other->seed);
}

static int tell_tally(void) {
    long right = 0;
    qsort(um_tally->endings, (size_t)um_tally->count, sizeof *um_tally->endings, compare_endings);
    printf("%-10s %s\n", "schedules", "what came out");
    for (int k = 0; k < um_tally->count; k++) {
        const struct ending *ending = &um_tally->endings[k];
        printf("%-10ld %s%s\n", ending->count, um_words_of_outcome(ending->outcome), ending->why);
        um_options.seed = ending->seed;
        if (ending->outcome == RIGHT) right += ending->count;
        else um_tell_command(stdout, 0, um_options.sends_wait);
    }
    printf("%ld of %ld schedules right\n", right, um_tally->played);
    fflush(stdout);
    um_tell_notes(stderr);
    return right == um_tally->played ? 0 : 1;
}

/* The program does what can't be played, or can't be put back. A search says so in its report, too. */
void um_refuse_seeds(const char *why) {
    um_unmute();
    um_tell_notes(stderr);
    if (um_options.limit) dprintf(um_options.report, "ulfm-mpirun: %s\n", why);
    fprintf(stderr, "ulfm-mpirun: %s\n", why);
    um_remove_copies();
    um_leave_process(STATUS_USAGE);
}

int um_play_seeds(void) {
    uint64_t first = um_options.seed ? um_options.seed : 1;
    bool is_apart = um_is_looked_at();
    if (!um_begin_tally() || !um_begin_many(is_apart)) um_refuse_seeds("no memory for the ranks");
    for (long k = 0; k < um_options.seeds && !um_tally->is_over; k++) play_seed(first + (uint64_t)k, is_apart);
    um_unmute();
    return tell_tally();
}
