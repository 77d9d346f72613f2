/* Faults by plan: stops at calls, yields by a seed, and the record of calls for --every-stop. A call counts where it begins something or
   waits; a test counts where it finds something. Places inside a call are counted too: behind each message of a collective, and behind the
   entrance of a shrink or an agreement. */
#define _GNU_SOURCE
#include "launcher/launcher.h"
#include "progress/progress.h"
#include <sched.h>
#include <string.h>
#include <time.h>

static uint64_t next_random(void) {
    um_me->plan.random ^= um_me->plan.random << 13;
    um_me->plan.random ^= um_me->plan.random >> 7;
    um_me->plan.random ^= um_me->plan.random << 17;
    return um_me->plan.random;
}

/* Lets others go first, by the seed. */
static void vary(void) {
    if (!um_options.yields) return;
    uint64_t random = next_random();
    if (random % 16 == 0) {
        struct timespec wait = {0, (long)(random >> 8) % 200000};
        nanosleep(&wait, 0);
    } else if (random % 2) {
        for (uint64_t k = random >> 8 & 15; k > 0; k--) sched_yield();
    }
}

static void stop_by_plan(void) {
    um_me->life.is_planned = true;
    um_tell_table("stopped %d\n", um_me->number);
    um_stop_here(0);
}

/* Whether a stop of the plan is at this place. */
static bool is_at(struct stop *stop) {
    if (stop->rank != um_me->number) return false;
    if (stop->call) return stop->call == um_me->plan.calls && stop->inside == um_me->plan.insides;
    if (strcmp(stop->name, um_me->call.name)) return false;
    if (um_me->plan.insides == 0) stop->nth--;
    return stop->nth == 0 && stop->inside == um_me->plan.insides;
}

static void look_at_plan(void) {
    for (int k = 0; k < um_options.stops; k++)
        if (is_at(&um_options.stop[k])) stop_by_plan();
    if (um_options.branches >= 0 && um_is_branch()) stop_by_plan();
}

/* A call that counts is reached, and something is done at places. */
void um_follow_plan(void) {
    if (um_options.calls) um_tell_table("call %d %d %s\n", um_me->number, um_me->plan.calls, um_me->call.name);
    vary();
    look_at_plan();
}

/* A place inside the call is reached. */
void um_count_inside(void) {
    um_me->plan.insides++;
    if (um_options.calls) um_tell_table("inside %d %d %d\n", um_me->number, um_me->plan.calls, um_me->plan.insides);
    look_at_plan();
}
