/* What the files of the search share: the present schedule, and what is to be tried in the place of each of its events. */
#ifndef UM_NODES_H
#define UM_NODES_H

#include "search/search.h"

/* What an event may come after: that its rank knows a revocation, by a number for each rank and communicator, or an event, by CELLS + its own. */
enum { CELLS = MAX_RANKS * 64, CAUSES = CELLS + MOST_STEPS, WORDS = CAUSES / 64 + 1 };

/* A process whose next event was tried before, and commutes with all since. */
struct sleeper {
    int process;
    struct footprint footprint;
};

struct sleepers {
    int count;
    struct sleeper at[PROCESSES];
};

/* What a wait for one of several requests may end by. */
enum { MOST_ENDS = 8, UNKNOWN = -2 };
struct ends {
    uint8_t count; /* more than MOST_ENDS: by anything */
    bool wants_all;
    struct {
        uint64_t id;
        int8_t comm, source; /* comm UNKNOWN: by anything */
        bool is_send;
    } at[MOST_ENDS];
};

/* An event of the present schedule, and what is to be tried in its place. */
struct node {
    struct footprint footprint;
    processes enabled, wanted, done;
    struct sleepers sleepers;
};

/* In memory that stays. */
extern struct search {
    int depth;  /* how many nodes the present schedule has */
    int prefix; /* so many choices are given */
    int count;  /* events that were played */
    enum cut cut;
    bool exchanges; /* the choices are those of a schedule with two events exchanged (swaps.c) */
    int choices[MOST_STEPS];
    processes enabled[MOST_STEPS];
    int8_t words[MOST_STEPS][PROCESSES]; /* of which communicator a process would bring the first word of a revocation; NO_STEP: none */
    struct sleepers sleepers;            /* at the event that comes next */
    struct node nodes[MOST_STEPS];
    struct footprint footprints[MOST_STEPS];
    struct ends ends[MOST_STEPS];       /* of the wait that an event is in */
    uint64_t direct[MOST_STEPS][WORDS]; /* the causes of each event, as bits, without those that are causes of causes alone */
    uint64_t races[MOST_STEPS][WORDS];  /* those of them that might come after it */
    uint64_t before[MOST_STEPS][WORDS]; /* all causes */
    uint64_t common[CELLS][WORDS];      /* those of each word of a revocation that a rank knows */
    short of_rank[MAX_RANKS][MOST_STEPS], across[MOST_STEPS];
    short first_of[CELLS]; /* the event by which a rank learnt of a revocation */
    int rank_count[MAX_RANKS], across_count, last_of[PROCESSES];
} * um_search;

/* search.c */
processes um_asleep(const struct sleepers *sleepers, int at);

static inline int lowest(processes set) {
    int process = 0;
    while (!is_in(set, process)) process++;
    return process;
}

static inline bool has_bit(const uint64_t *row, int bit) { return row[bit / 64] >> (bit % 64) & 1; }
static inline void set_bit(uint64_t *row, int bit) { row[bit / 64] |= 1ull << (bit % 64); }

/* causes.c */
int um_next_bit(const uint64_t *row, int from, int end);
int um_cause_of(int event);
void um_put_before(uint64_t *row, int cause);
bool um_is_before(int one, int other);
bool um_is_behind(int cause, int event);
int um_order_events(int from);

/* races.c */
void um_want(int i, int j);
void um_find_races(int from);

/* left.c */
void um_want_left(int from);

#endif
