/* How long a rank that waits looks before it sleeps. Its first looks are as many as served before. Then it goes on looking, and offers its processor now and
   then: as long as nobody takes it, looking costs nobody anything, and sleeps and wakes take more than messages. Where another one took it, the
   processors are wanted: for some waits the rank then sleeps almost at once. */
#define _GNU_SOURCE
#include "progress/progress.h"
#include <time.h>

enum { MOST_LOOKS = 1000, FEW_LOOKS = 300, CROWDED_LOOKS = 8, LOOKS_AN_OFFER = 32, OFFERS = 4, CROWDED_WAITS = 64 };
enum { LOOKED_LONG = 5000000, ACCEPTED = 100000 }; /* nanoseconds: how long it looks on, and an offer that was taken */

static _Atomic int processors;

static uint64_t now(void) {
    struct timespec time;
    clock_gettime(CLOCK_MONOTONIC, &time);
    return (uint64_t)time.tv_sec * 1000000000u + (uint64_t)time.tv_nsec;
}

static bool has_processors(void) {
    if (!processors) {
        cpu_set_t set;
        processors = sched_getaffinity(0, sizeof set, &set) == 0 ? CPU_COUNT(&set) : 1;
    }
    return um_options.ranks <= processors;
}

/* How many first looks there are, at most. */
int um_first_looks(void) {
    const struct patience *of = &um_me->patience;
    if (!has_processors()) return 1;
    return of->crowded > 0 ? CROWDED_LOOKS : FEW_LOOKS + MOST_LOOKS - of->impatience;
}

/* Whether it looks on, so many looks past its first ones. */
bool um_looks_on(int past) {
    struct patience *of = &um_me->patience;
    if (!has_processors()) {
        if (past <= OFFERS) sched_yield();
        return past <= OFFERS;
    }
    if (of->crowded > 0) return false;
    if (past % LOOKS_AN_OFFER != 1) return true;
    uint64_t offered_at = now();
    if (past == 1) of->since = offered_at;
    sched_yield();
    uint64_t at = now();
    if (at - offered_at > ACCEPTED) of->crowded = CROWDED_WAITS;
    return of->crowded == 0 && at - of->since < LOOKED_LONG;
}

/* A wait is over. A rank that slept has fewer first looks the next time, and more again where looks served. The few that stay are as long as a
   collective takes, so that ranks which all slept come together again. */
void um_end_wait(bool has_slept) {
    struct patience *of = &um_me->patience;
    if (!has_slept) um_learn_of_success();
    else if (of->crowded > 0) {
        if (--of->crowded == 0) of->impatience = 0; /* it tries again: those that it wakes take some time to come */
    } else of->impatience += (MOST_LOOKS - of->impatience) / 2;
}
