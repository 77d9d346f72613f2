/* What the fronts of jobs over ulfm.h share: the ranks of a job, and their steps. */
#ifndef RACE_H
#define RACE_H

#include "ulfm.h"
#include <stdbool.h>
#include <stdio.h>

enum { MOST_ACTORS = 8, MOST_OF_RANK = 256, MOST_BYTES = 1200, ANSWER = 2 * MOST_BYTES + 64, OPEN = 1 };
#define NONE UINT64_MAX

/* That the answer of an earlier step begins with one of these texts, or with none of them. A step is played where all conditions of one of its
   alternatives hold, which stand together. */
struct condition {
    unsigned alternative, step;
    bool is_not;
    char **texts; /* a null pointer behind the last */
};

struct step {
    char op[16];
    uint64_t comm, who, tag, more; /* who: a rank, or the step that is named; more: room, flag or count */
    uint8_t body[MOST_BYTES];
    size_t length;
    struct condition *conditions;
    size_t condition_count;
    char answer[ANSWER];
    uint64_t number;               /* of its request or its message, or NONE */
    bool is_entered;
};

/* A rank of the job. */
struct actor {
    uint32_t me;
    struct step steps[MOST_OF_RANK];
    size_t count;
    unsigned chance;
};

extern struct actor actors[MOST_ACTORS];
extern uint32_t actor_count;
extern uint8_t capacity;

/* The slot of a rank: each front has its own. */
ulfm_slot *slot_of(uint32_t rank);

/* Reads a job in the plain form of tools/explorer/front.py. */
void read_job(FILE *from);

/* Whether a step is to be played: it has no condition, or all those of an alternative hold. */
bool is_to_be_played(const struct actor *actor, const struct step *step);

/* Polls a step: 0 where it is answered, or OPEN. */
int poll_step(struct actor *actor, struct step *step);

/* Says why nothing goes on, and ends all. */
void give_up(const char *why, uint32_t rank, const char *what);

#endif
