/* All schedules of a played run, up to the order of events that commute: what an event reads and changes, which events commute, and the search. */
#ifndef UM_SEARCH_H
#define UM_SEARCH_H

#include "play/play.h"

#define ANY_RECEIVE UINT32_MAX /* of a message that wasn't taken: it may end any receive */

/* Who may go on next: a rank, by its number, the ring from one rank to another one, by 8 + 8 times the one + the other, or the loss of what is in it. */
typedef unsigned __int128 processes;
enum {
    LOSSES = MAX_RANKS + MAX_RANKS * MAX_RANKS,
    PROCESSES = LOSSES + MAX_RANKS * (MAX_RANKS - 1),
    MOST_STEPS = 12000,
    ANYBODY = -1,
    NO_STEP = -1,
    SILENT = 4,
    TOO_MANY = 255
};
static inline processes bit_of(int process) { return (processes)1 << process; }
static inline bool is_in(processes set, int process) { return set >> process & 1; }

/* What an event saw or did. */
enum {
    SAW_NO_REVOCATION = 1, /* the communicator wasn't known to be revoked */
    REVOKED_FIRST = 2,     /* the revocation wasn't known */
    ASKED = 4,             /* a look outside of a wait */
    IN_VAIN = 8,
    OF_ANY = 16, /* a receive or a probe from any source */
    FOUND = 32,
    WAITED_FOR = 64 /* a message whose sender waits for its match */
};

/* A look in vain. */
struct silence {
    int8_t comm, source;
    bool is_message;
};

/* What an event reads and changes. */
struct footprint {
    uint8_t process, rank, kind, item, flags;
    uint8_t fails;                        /* bits of ranks: whose failure it reads, or of word of a failure whose it is */
    uint8_t excluded, listed, by_entries; /* of a poll that finds: who is left out, who entered, who failed by what entries say; bits */
    uint8_t other;                        /* the other rank */
    int8_t comm, source;                  /* source: the named one, or the sender; ANYBODY */
    uint8_t silent_count;
    bool waits;                    /* a look in a wait */
    bool is_over_anyway;           /* .. which a revocation had ended too */
    uint8_t matches, sends;        /* bits of ranks: whose sends that wait it matched; to whom such sends were looked at in vain */
    uint8_t gives;                 /* bits of ranks: to whom it gave a plane (mpi/plane.c) */
    int16_t pushed, by, found;     /* the events that pushed its item, that ended its request, by which the message came that its probe found */
    int16_t after;                 /* the event that ended the wait before it, where no look did */
    int16_t met;                   /* of a message that met its receive: the other one of its coming and the post */
    int16_t first;                 /* of word of a revocation, or one's own: the event by which the rank learnt of it; NO_STEP: it is none */
    int32_t tag, made_in;          /* made_in: the number of the call of MPI */
    struct silence silent[SILENT]; /* looks in vain of the wait that it ends */
    uint32_t ended;                /* of a message: the receive that it ended, its number and 1; 0: none */
    uint64_t ended_on;             /* of word of a failure: bits of families of communicators whose receives it ended */
    uint8_t ended_of;              /* of a revocation: bits of ranks that the receives named which it ended */
    uint8_t ended_from;            /* .. whose messages these would have got */
    bool is_dropped;               /* a message that no receive had when its communicator was revoked */
    uint8_t entered;               /* of an entry into a shrink: bits of the failed ranks that made theirs */
    uint32_t topic, answer;        /* topic: of shrinks and agreements */
    uint64_t proposal;             /* of a poll: what tells its own proposal from others */
    bool follows;                  /* .. of an agreement that was decided before */
    uint8_t optional;              /* .. then: bits of ranks whose entries it could have gone without */
};

/* A decision as a rank would propose it. */
struct proposal {
    uint8_t all, listed, excluded, by_entries;
    uint8_t optional; /* who is known to have failed by entries of others, as is all that its own entry says */
    uint32_t value;
    int round;
    bool is_possible;
};

/* Why a schedule isn't played to its end. */
enum cut { NOT_CUT, ASLEEP, MEETS_LOSS, NOT_THE_SAME };
enum search_step { SEARCH_GOES_ON, SEARCH_IS_OVER, SEARCH_BEGINS_ANEW, SEARCH_FAILED };

/* swaps.c: rules by which events commute. That of two ranks is proved. */
enum rule { OF_TWO_RANKS, TWO_POLLS, TWO_TAKES, TAKE_AND_CALL, WORD_OF_REVOCATION, END_OF_WAIT, RULES };
enum rule um_choose_swap(int count);
bool um_is_exchanging(void);
int um_choose_exchanged(const struct event *choices, int count);

/* search.c */
bool um_begin_search(void);
void um_begin_searched(void);
int um_choose_by_search(const struct event *choices, int count);
bool um_note_step(void);
enum cut um_cut_of_search(void);
void um_tell_not_same(void);
enum search_step um_end_searched(void);

/* A receive that is open, or that ended and isn't told. */
struct receive {
    uint64_t id;
    int comm, source, tag;
    int16_t posted, by; /* the events that posted and that ended it */
    bool is_open;
};

/* heard.c */
struct proposal um_proposal_of(int rank, int comm, bool agrees);
uint8_t um_entered(int rank, int comm);

/* rings.c */
void um_note_push(int from, int to);
const int16_t *um_left_in_ring(int from, int to, int *count);
void um_push_to_all(int from, uint32_t members);
int16_t um_pull(int from, int to);
int16_t um_lose(int from, int to);
int um_first_lost(int from, int to);
int um_count_of_pushed(int from, int to);
int um_count_at_stop(int from, int to, int *taken);

/* footprint.c: each `end_` after the call of its kind; `um_footprints` is null where none are kept. */
extern struct footprint *um_footprints; /* of the present schedule's events */
extern int um_step;                     /* the number of the present event */
static inline int ring_of(int from, int to) { return MAX_RANKS + MAX_RANKS * from + to; }
static inline int loss_of(int from, int to) { return LOSSES + (MAX_RANKS - 1) * from + to - (to > from); }
static inline int process_of(const struct event *event) {
    if (event->kind == LOSES) return loss_of(event->peer, event->rank);
    return event->kind == TAKES ? ring_of(event->peer, event->rank) : event->rank;
}
uint32_t um_topic_of(int comm, bool agrees, int round);
uint32_t um_round_of(uint32_t topic);
void um_begin_footprint(const struct event *event);
void um_note_taken(const struct event *event, bool was_revoked);
int um_member_at(int rank, int comm, uint32_t position);
void um_begin_call(const struct event *call);
void um_end_send(uint32_t dest, uint32_t code);
void um_end_post(uint32_t source, uint64_t id, uint32_t code);
void um_end_look(uint64_t id, uint32_t code, const ulfm_status *status);
void um_end_probe(uint32_t source, uint32_t code, bool takes);
void um_end_revoke(bool was_revoked);
void um_end_question(uint32_t answer);
void um_end_listed(const ulfm_group *failed);
void um_end_entry(bool agrees, uint32_t flag, uint32_t code);
void um_end_poll(bool agrees, const struct proposal *proposal, uint32_t answer);
void um_end_stop(void);

/* receives.c */
const struct receive *um_receive_of(int rank, uint64_t id);
bool um_find_receive(int rank, uint64_t id, int *comm, int *source);
bool um_end_receives(int rank);
void um_keep_message(int rank);
void um_drop_kept(int rank, int comm);
void um_note_failure(int rank, int failed);
int16_t um_find_message(int rank, int comm, int source, int tag, bool takes, int *from);
void um_add_receive(int rank, struct receive made);
void um_remove_receive(int rank, const struct receive *receive);

/* silent.c */
void um_forget_silent(int rank);
void um_note_silent(const struct event *call);
void um_copy_silent(int rank);
void um_keep_silent(int rank);
int16_t um_end_of_wait(int rank);
void um_note_match(struct parcel *parcel);
void um_note_given(uint32_t members);
void um_end_sent(int to, uint32_t code, const struct parcel *parcel);

/* ends.c */
void um_begin_ends(bool wants_all);
void um_add_end(const struct request *request);
void um_finish_ends(void);
void um_note_ends(void);
void um_want_other_ends(int from);
bool um_may_end_wait(int look, const struct footprint *e);
bool um_has_other_ends(int look);

/* commute.c */
bool um_has_copies(void);
bool um_do_commute(const struct footprint *a, const struct footprint *b);
bool um_is_dependent(const struct footprint *a, int at, const struct footprint *b);
bool um_is_needed(const struct footprint *a, const struct footprint *b);
bool um_may_revoke(const struct footprint *e, int at);
void um_come_after(struct footprint *e, const struct footprint *other);
bool um_is_across(const struct footprint *e);
bool um_learn(int count);
void um_note_copy(void);
bool um_begin_commute(void);

#endif
