/* What ulfm-mpirun is asked for. */
#ifndef UM_OPTIONS_H
#define UM_OPTIONS_H

#include <stdbool.h>
#include <stdint.h>

enum { MAX_STOPS = 16, LIMIT = 10000 };

/* Statuses of ulfm-mpirun besides those of programs. */
enum { STATUS_USAGE = 2, STATUS_LIMIT = 3, STATUS_FATAL = 96, STATUS_OTHER = 97, STATUS_STUCK = 98, STATUS_LATE = 99 };

/* A stop of the plan. */
struct stop {
    int rank, call, inside; /* call 0: by name */
    char name[48];
    int nth;
};

/* The command line. */
struct options {
    int ranks, stops;
    struct stop stop[MAX_STOPS];
    uint64_t yields;             /* how threads let others go first; 0: not at all */
    uint64_t seed;               /* of a schedule by chance */
    long seeds;                  /* so many of them */
    bool no_loss;                /* of a search: a stop loses nothing */
    bool search_stops;           /* --every-schedule: with a stop at each place too */
    long limit, checks;          /* of a search: at most so many schedules; and then so many by chance, to look whether it saw all */
    const char *schedule, *keep; /* files: of a schedule that is played again, and where one is kept */
    double timeout;
    bool sends_wait, tag, every_stop, every_schedule, same_output, all;
    int first_call, last_call, sample; /* of tables: the calls that are tried, 0 for all, and how many places */
    bool places, json;                 /* --every-schedule: the places alone, or a line of JSON for each */
    bool calls;                        /* a run for a table tells its places */
    int branches;                      /* a file with the places from which processes go on, or -1 */
    bool is_alone;                     /* the program was started by itself */
    int jobs, report, capacity;
    const char *program;
    char **words;
    int count;
    const char *draw; /* where a schedule is drawn */
};

extern struct options um_options;

#endif
