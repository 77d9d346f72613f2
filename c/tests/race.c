/* Plays a job over ulfm.h, each rank a thread, so that they race, and writes each step's answer in the words of a trace: `RANK STEP: ANSWER`.

     race RUNS SEED < JOB    plays it so many times, each time with other yields and turns

   The job is in the plain form of tools/explorer/front.py. Each of its steps has to end in every schedule: one that is open for half a minute
   is told as `open`, and ends all with status 3. */
#include "race.h"
#include <pthread.h>
#include <sched.h>
#include <stdatomic.h>
#include <stdio.h>
#include <stdlib.h>
#include <string.h>
#include <time.h>

enum { SECONDS = 30 };

static ulfm_slot slots[MOST_ACTORS];
static atomic_uint through;
static pthread_barrier_t start;

ulfm_slot *slot_of(uint32_t rank) { return &slots[rank]; }

void give_up(const char *why, uint32_t rank, const char *what) {
    printf("%s: rank %u, %s\n", why, rank, what);
    fflush(stdout);
    _Exit(3);
}

/* ---- Ranks ---- */

/* Turns and yields, as many as chance has it. */
static void go_on(struct actor *actor) {
    uint32_t moved;
    for (unsigned turns = (unsigned)rand_r(&actor->chance) % 4; turns; turns--)
        if (ulfm_turn(&slots[actor->me], &moved)) give_up("a turn was refused", actor->me, "");
    if (rand_r(&actor->chance) % 4 == 0) sched_yield();
}

static void *play(void *of) {
    struct actor *actor = of;
    bool has_stopped = false;
    pthread_barrier_wait(&start);
    for (size_t k = 0; k < actor->count && !has_stopped; k++) {
        struct step *step = &actor->steps[k];
        time_t begun = time(0);
        if (!is_to_be_played(actor, step)) {
            strcpy(step->answer, "skipped");
            continue;
        }
        do {
            go_on(actor);
            if (time(0) - begun > SECONDS) give_up("open", actor->me, step->op);
        } while (poll_step(actor, step) == OPEN);
        has_stopped = !strcmp(step->op, "stop");
    }
    atomic_fetch_add(&through, 1);
    while (atomic_load(&through) < actor_count) go_on(actor);
    return 0;
}

/* One run: a world of its own. */
static void run_once(unsigned seed) {
    pthread_t threads[MOST_ACTORS];
    atomic_store(&through, 0);
    if (ulfm_world(slots, actor_count, capacity)) give_up("no world", 0, "");
    for (uint32_t r = 0; r < actor_count; r++) {
        actors[r].me = r;
        actors[r].chance = seed * MOST_ACTORS + r;
        for (size_t k = 0; k < actors[r].count; k++) {
            actors[r].steps[k].answer[0] = 0;
            actors[r].steps[k].number = NONE;
            actors[r].steps[k].is_entered = false;
        }
        if (pthread_create(&threads[r], 0, play, &actors[r])) give_up("no thread", r, "");
    }
    for (uint32_t r = 0; r < actor_count; r++) pthread_join(threads[r], 0);
    for (uint32_t r = 0; r < actor_count; r++) {
        for (size_t k = 0; k < actors[r].count; k++)
            if (actors[r].steps[k].answer[0]) printf("%u %zu: %s\n", r, k, actors[r].steps[k].answer);
        if (ulfm_end(&slots[r])) give_up("no end", r, "");
    }
}

int main(int argc, char **argv) {
    unsigned runs = argc > 1 ? (unsigned)strtoul(argv[1], 0, 10) : 1, seed = argc > 2 ? (unsigned)strtoul(argv[2], 0, 10) : 0;
    read_job(stdin);
    pthread_barrier_init(&start, 0, actor_count);
    for (unsigned run = 0; run < runs; run++) run_once(seed + run);
    return 0;
}
