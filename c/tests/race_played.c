/* Plays a job over ulfm.h in every schedule: its ranks are those of the controller, in place of programs. It is linked with the layer's objects.

     race_played -n RANKS --search LIMIT --keep FILE --report 2 JOB

   JOB is in the plain form of tools/explorer/front.py. It writes what the search reports, and each answer that a step has in some schedule: `RANK STEP:
   ANSWER`. A step that is open at the end never ends. */
#include "race.h"
#include "launcher/launcher.h"
#include "play/tally.h"
#include "progress/progress.h"
#include "search/search.h"
#include <stdlib.h>
#include <string.h>
#include <unistd.h>

enum { ROOM = 1 << 24, MOST_ANSWERS = 1 << 16 };

/* The answers, in memory that stays. */
static struct answers {
    size_t used;
    int count;
    uint64_t all[MOST_ANSWERS];
    char text[ROOM];
} *answers;

ulfm_slot *slot_of(uint32_t rank) { return &um_ranks[rank].home; }

void give_up(const char *why, uint32_t rank, const char *what) {
    dprintf(um_options.report, "%s: rank %u, %s\n", why, rank, what);
    um_leave_process(3);
}

/* ---- In place of programs (load.c) ---- */

/* Whether the job has a step on the first duplicate of the world, or makes it: then nothing is lost (losses.c). */
static bool uses_duplicate(void) {
    bool uses = false;
    for (uint32_t r = 0; r < actor_count; r++)
        for (size_t k = 0; k < actors[r].count; k++) {
            const struct step *at = &actors[r].steps[k];
            uses = uses || at->comm == 1 || (!strncmp(at->op, "dup", 3) && at->comm == 0);
        }
    return uses;
}

bool um_copy_programs(void) {
    FILE *from = fopen(um_options.program, "r");
    if (from) read_job(from);
    if (from) fclose(from);
    um_options.no_loss = uses_duplicate();
    answers = um_shared_memory(sizeof *answers);
    return from && answers && actor_count == (uint32_t)um_options.ranks;
}

void um_leave_copies(void) {}

void um_remove_copies(void) {}

/* What a wait of a step is for. */
struct open_step {
    struct actor *actor;
    struct step *step;
};

static bool is_answered(void *of, bool is_settled) {
    const struct open_step *open = of;
    (void)is_settled;
    return poll_step(open->actor, open->step) != OPEN;
}

/* A look is made as a wait looks; who enters something does so before. */
static void play_step(struct actor *actor, struct step *at) {
    bool is_look = !strcmp(at->op, "wait") || !strcmp(at->op, "probe");
    if (is_look || poll_step(actor, at) == OPEN) um_wait_until(is_answered, &(struct open_step){actor, at}, false);
}

/* The steps of the rank that runs, up to its stop; then others take its place, and items are taken for it. */
int um_run_program(struct rank *rank) {
    struct actor *actor = &actors[rank->number];
    bool has_stopped = false;
    uint64_t made;
    actor->me = (uint32_t)rank->number;
    if (!um_options.no_loss) ulfm_dup(&rank->home, 0, &made);
    rank->life.has_begun = true;
    for (size_t k = 0; k < actor->count && !has_stopped; k++) {
        struct step *at = &actor->steps[k];
        at->number = NONE;
        if (!is_to_be_played(actor, at)) {
            strcpy(at->answer, "skipped");
            continue;
        }
        strcpy(at->answer, "never ends");   /* until it is answered */
        play_step(actor, at);
        has_stopped = !strcmp(at->op, "stop");
    }
    rank->life.has_finalized = true;
    return 0;
}

/* ---- What came ---- */

static void add_answer(const char *line, size_t length) {
    uint64_t sum = 14695981039346656037u;
    for (size_t k = 0; k < length; k++) sum = (sum ^ (unsigned char)line[k]) * 1099511628211u;
    size_t at = sum % MOST_ANSWERS;
    while (answers->all[at] && answers->all[at] != sum) at = (at + 1) % MOST_ANSWERS;
    if (answers->all[at] || answers->count > MOST_ANSWERS / 2 || answers->used + length > ROOM) return;
    answers->all[at] = sum;
    answers->count++;
    memcpy(answers->text + answers->used, line, length);
    answers->used += length;
}

/* Each schedule that is counted goes through here (the linker's --wrap). */
bool __real_um_count_ending(uint64_t seed, int *which);
bool __wrap_um_count_ending(uint64_t seed, int *which) {
    char line[ANSWER + 32];
    for (uint32_t r = 0; r < actor_count; r++)
        for (size_t k = 0; k < actors[r].count; k++) {
            const char *answer = actors[r].steps[k].answer;
            if (*answer) add_answer(line, (size_t)snprintf(line, sizeof line, "%u %zu: %s\n", r, k, answer));
        }
    return __real_um_count_ending(seed, which);
}

int main(int count, char **words) {
    int status = ulfm_mpirun(count, words);
    if (answers && write(1, answers->text, answers->used) < 0) return STATUS_USAGE;
    return status;
}
