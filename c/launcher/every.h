/* What the files of --every-stop share. */
#ifndef UM_EVERY_H
#define UM_EVERY_H

#include "progress/rank.h"
#include <sys/types.h>

enum outcome { RIGHT, NOT_REACHED, OTHER_STATUS, OTHER_OUTPUT, FAILED, STUCK, LOOPS, LATE, LONG, FATAL, ABORTED, CRASHED, OUTCOMES };
enum fate { NO_FATE, ENDED, STOPPED, FAILED_ITSELF };

/* A place where a rank may stop: before a call, or inside it. */
struct place {
    int rank, call, inside;
    char name[40];
};

/* What came out of a run. */
struct result {
    enum fate fate[MAX_RANKS];
    int status[MAX_RANKS];
    enum outcome end; /* RIGHT, or how the run ended else */
    char detail[512]; /* who waits in what, or which error was fatal */
    char *output;     /* its lines, sorted */
};

/* A run of the program. */
struct trial {
    pid_t pid; /* 0: none */
    int place; /* its number, -1: no stop */
    bool sends_wait;
    int files[3]; /* what it writes to standard output, to standard error, and for the table */
    int branches; /* a file with the places from which it goes on in processes of their own, or 0 */
};

/* What the search at a place found. */
struct found_ending {
    enum outcome outcome;
    long count;
    int number; /* of the file that has such a schedule */
    char why[600];
};
enum { SWAPS = 6 };
struct found {
    bool is_there, is_whole;        /* all schedules were searched */
    long searched, played, unseen;  /* played: by chance too. unseen: by chance, and not among those that were searched */
    long otherwise, swapped[SWAPS]; /* with two events exchanged that are to commute, by the rules of search.h */
    struct found_ending *endings;
    int count;
    char other[300]; /* where the program didn't do the same again */
    char note[300];  /* what of it isn't followed: the first thing */
};

/* Whether it is a place, and not the program without a further stop. */
static inline bool is_place(const struct place *place) { return place && place->rank >= 0; }

/* findings.c */
char *um_text_of_place(const struct place *place, char *text, size_t room);
void um_path_of_schedule(const struct place *place, int number, char *path, size_t room);
void um_read_found(const struct trial *trial, struct found *found);
bool um_is_right(const struct found *found);
int um_tell_all_found(const struct place *places, const struct found *found, int count);

/* json.c */
void um_tell_json(const struct place *place, const struct found *found);

/* trials.c */
int um_processors(void);
bool um_start_trial(struct trial *trial, const char *launcher, const struct place *place);
void um_read_report(char *text, struct result *result);
void um_read_result(const struct trial *trial, struct result *result);
void um_read_output(char *text, struct result *result);
void um_close_trial(struct trial *trial);
char *um_read_all(int file);

/* places.c */
struct place *um_read_places(const struct trial *trial, int *count);
int um_compare_places(const void *a, const void *b);
bool um_are_places_chosen(void);
int um_choose_places(struct place *places, int count);

/* branches.c */
int um_write_wanted(const struct place *places, int count);
bool um_read_branches(const struct trial *trial, const struct place *places, int count, struct result *results);

/* table.c */
const char *um_words_of_outcome(enum outcome outcome);
void um_text_of_stop(const struct stop *stop, char *text, size_t room);
void um_tell_command(FILE *to, const struct place *place, bool sends_wait);
enum outcome um_judge(const struct result *base, const struct result *result, const struct place *place, char *why, size_t room);
void um_tell_outcome(const struct place *place, bool sends_wait, enum outcome outcome, const char *why);
void um_tell_counts(int counts[2][OUTCOMES]);

#endif
