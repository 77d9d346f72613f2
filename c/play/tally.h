/* What came out of many schedules that one process plays, in memory that stays when all other memory is put back. */
#ifndef UM_TALLY_H
#define UM_TALLY_H

#include "launcher/every.h"
#include "play/play.h"

enum { MOST_ENDS = 200, REPORT = 4096, WHY = 600 };

/* What came out of some schedules. */
struct ending {
    enum outcome outcome;
    char why[WHY];
    long count;
    uint64_t seed; /* of the first one */
};

struct tally {
    char report[REPORT];   /* of the present schedule */
    size_t used, begun;    /* begun: what ranks reported before their first event */
    int status;            /* with which it ended; -1: all ranks ended */
    int steps;             /* events of it */
    volatile bool is_over; /* no further one is wanted */
    long played;
    int count;
    struct ending endings[MOST_ENDS];
};

/* tally.c */
extern struct tally *um_tally; /* null where one schedule is played */
bool um_begin_tally(void);
bool um_play_next(bool is_apart);
bool um_count_ending(uint64_t seed, int *which);
void um_put_all_back(bool is_apart);
bool um_begin_many(bool is_apart);
void um_unmute(void);

#endif
