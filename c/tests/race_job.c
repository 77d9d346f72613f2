/* Jobs in the plain form of tools/explorer/front.py: read, and which of their steps are played. */
#include "race.h"
#include <stdlib.h>
#include <string.h>

enum { WORDS = 600 };

struct actor actors[MOST_ACTORS];
uint32_t actor_count;
uint8_t capacity;

static size_t bytes_of(const char *digits, uint8_t *bytes) {
    size_t count = 0;
    for (unsigned byte; *digits != '-' && sscanf(digits, "%2x", &byte) == 1; digits += 2) bytes[count++] = (uint8_t)byte;
    return count;
}

static uint32_t number_of(const char *word) { return strcmp(word, "any") ? (uint32_t)strtoul(word, 0, 10) : ULFM_ANY; }

/* Which words stand behind an op: w who or which step, t a tag, b a body, m more, c a communicator. */
static const char *keys_of(const char *op) {
    static const char *const keys[][2] = {{"send", "wtbc"}, {"recv", "wtmc"}, {"probe", "wtc"}, {"wait", "w"}, {"cancel", "w"}, {"mrecv", "wm"},
                                          {"ack", "mc"}, {"agree", "mc"}, {"note", "b"}, {"stop", ""}};
    for (size_t k = 0; k < sizeof keys / sizeof keys[0]; k++)
        if (!strcmp(op, keys[k][0])) return keys[k][1];
    return "c";
}

/* The texts of a word, which commas part. */
static char **texts_of(char *word) {
    size_t count = 0;
    char **texts = calloc(strlen(word) + 2, sizeof *texts);
    for (char *digits = strtok(word, ","); digits; digits = strtok(0, ",")) {
        texts[count] = calloc(strlen(digits) + 1, 1);
        bytes_of(digits, (uint8_t *)texts[count++]);
    }
    return texts;
}

static void read_step(struct step *step, char *words[], size_t count) {
    size_t at = 0;
    snprintf(step->op, sizeof step->op, "%s", words[at++]);
    for (const char *key = keys_of(step->op); *key && at < count; key++, at++) {
        if (*key == 'w') step->who = number_of(words[at]);
        if (*key == 't') step->tag = number_of(words[at]);
        if (*key == 'm') step->more = number_of(words[at]);
        if (*key == 'c') step->comm = number_of(words[at]);
        if (*key == 'b') step->length = bytes_of(words[at], step->body);
    }
    step->condition_count = (count - at) / 4;
    step->conditions = calloc(step->condition_count + 1, sizeof *step->conditions);
    for (size_t k = 0; k < step->condition_count; k++, at += 4)
        step->conditions[k] = (struct condition){number_of(words[at]), number_of(words[at + 1]), !strcmp(words[at + 2], "not"), texts_of(words[at + 3])};
}

void read_job(FILE *from) {
    char *line = 0, *words[WORDS];
    size_t room = 0;
    if (fscanf(from, "%u %hhu\n", &actor_count, &capacity) != 2) give_up("no job", 0, "");
    while (getline(&line, &room, from) > 0) {
        size_t count = 0;
        for (char *word = strtok(line, " \n"); word && count < WORDS; word = strtok(0, " \n")) words[count++] = word;
        struct actor *actor = &actors[strtoul(words[0], 0, 10)];
        read_step(&actor->steps[actor->count++], words + 1, count - 1);
    }
    free(line);
}

/* Whether an answer begins with a text, by whole words. */
static bool begins(const char *answer, const char *text) {
    size_t length = strlen(text);
    return !strncmp(answer, text, length) && (answer[length] == ' ' || !answer[length]);
}

static bool holds(const struct actor *actor, const struct condition *condition) {
    for (char **text = condition->texts; *text; text++)
        if (begins(actor->steps[condition->step].answer, *text)) return !condition->is_not;
    return condition->is_not;
}

bool is_to_be_played(const struct actor *actor, const struct step *step) {
    const struct condition *condition = step->conditions, *end = condition + step->condition_count;
    while (condition < end) {
        bool all_hold = true;
        for (unsigned alternative = condition->alternative; condition < end && condition->alternative == alternative; condition++)
            all_hold = holds(actor, condition) && all_hold;
        if (all_hold) return true;
    }
    return step->condition_count == 0;
}
