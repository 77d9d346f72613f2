/* Runs that are played: the ranks are contexts of one thread, and a controller chooses what happens next. A rank goes on with its next call of the
   engine, or it takes the first item that came from another one. So the run is known by these choices, and can be played again. */
#ifndef UM_PLAY_H
#define UM_PLAY_H

#include "progress/rank.h"

/* What happens at a rank: a call of the engine that others may see or whose answer depends on what came, or an item is taken. */
enum kind_of_event {
    SENDS,
    POSTS,
    TESTS,
    CANCELS,
    PROBES,
    REVOKES,
    ASKS_REVOKED,
    ASKS_FAILED,
    ACKNOWLEDGES,
    DUPLICATES,
    ENTERS_SHRINK,
    POLLS_SHRINK,
    ENTERS_AGREE,
    POLLS_AGREE,
    LOOKS_AT_SEND, /* whether a send that waits was matched */
    STOPS,
    TAKES,
    LOSES /* the last items of a rank that stopped never come */
};
enum { NOBODY = 255 };

struct event {
    uint8_t kind, rank;
    uint8_t peer; /* the position that it names or, of an item, the rank that sent it; NOBODY: none, or any */
    uint8_t item; /* of an item: its kind, as ulfm_next tells it */
    uint8_t comm; /* by a small number (contexts.c) */
    int32_t tag;  /* of a message; of a look at a request its number; of an entry into a shrink or an agreement that one's; -1: none, or any */
};

/* A rank stands before a call, waits, is about to end the run, or has ended. */
enum state { AT_CALL, WAITS, ENDS_ALL, OVER };
enum { LOOKS = 256 };

/* What the controller knows of a rank. */
struct player {
    enum state state;
    struct event call; /* the call that it stands before */
    uint64_t look;     /* what tells the call from other looks */
    bool in_wait;      /* a look that finds nothing is no event */
    bool is_passing;   /* it looks at what is open in passing, and waits for none of it */
    bool is_granted;   /* it may make its next call */
    bool is_first;     /* nothing was seen since the look of a wait began */
    bool looks_anew;   /* something came when it wanted to look: all that came is looked at */
    bool has_stopped;
    int taken;         /* items that it took */
    int taken_before;  /* .. when it last looked at what is open, */
    int taken_at_wait; /* .. and when it began to wait */
    uint64_t marks_at_wait, marks_at_look;
    uint64_t looks[LOOKS]; /* what it looked at since something came; 0: nothing */
    int look_count;
};
extern struct player um_players[MAX_RANKS];

/* played.c */
int um_play(void);
void um_fix_addresses(char **words);
void um_set_alarm(void);
void um_end_schedule(int status);

/* controller.c */
void um_wait_as_played(bool (*is_done)(void *, bool is_settled), void *of);
void um_look_as_played(void);
void um_wait_to_end_all(void);

/* context.c */
bool um_make_context(int rank);
void um_resume(int rank);
void um_to_controller(void);
void um_stack_of(int rank, char **low, char **used, char **high);
bool um_has_valgrind(void);
bool um_is_looked_at(void);

/* choice.c */
uint32_t um_look_at_sent(const struct request *request);

/* looks.c */
uint64_t um_look_of(const struct event *call, uint64_t request);
void um_remember_look(struct player *player);
bool um_looks_again(struct player *player);
void um_forget_looks(struct player *player);

/* contexts.c: communicators of the engine by small numbers, as events have them. */
enum { CONTEXTS = 64 };
bool um_begin_contexts(void);
int um_number_of(uint64_t context);
uint64_t um_context_of(int number);
int um_family(int number);
int um_beside(int number);

/* heard.c: of communicators by these numbers. */
void um_note_entry(int rank, int comm, bool agrees, uint32_t flag);
void um_note_revoked(int rank, int comm);
void um_note_item(int rank, int from, const ulfm_next_item *item);
bool um_knows_failed(int rank, int other);
bool um_is_known_revoked(int rank, int comm);
bool um_has_heard_all(int rank, int comm, bool agrees);

/* controller.c */
extern ulfm_next_item um_heads[MAX_RANKS][MAX_RANKS]; /* what is first, from each rank to each */
int um_list_choices(struct event *choices);
void um_settle(void);
void um_look_ahead(int from);
void um_perform(const struct event *event);
enum { MOST_CHOICES = MAX_RANKS * (MAX_RANKS + 1) };

/* played.c */
void um_begin_chance(uint64_t seed);
int um_choose_by_chance(int count);
bool um_begin_ranks(void);
int um_play_once(void);

/* losses.c */
void um_clear_losses(void);
void um_plan_loss(int from, int to, int kept);
bool um_can_lose(int from);
bool um_may_lose(int from);
bool um_is_blocked(int from, int to);
bool um_is_held(int from, int to);
void um_block_rings(int from);
void um_unblock(int from, int to);
bool um_choose_losses(int kept[MAX_RANKS][MAX_RANKS]);
void um_plan_losses(int kept[MAX_RANKS][MAX_RANKS]);

/* matches.c */
void um_match(struct parcel *parcel);
void um_note_come(struct parcel *parcel);
struct parcel *um_parcel_for(uint64_t comm, uint32_t source, uint32_t tag);

/* snapshot.c */
void *um_shared_memory(size_t bytes);
bool um_take_snapshot(void);
void um_put_back(void);

/* outside.c */
bool um_begin_outside(void);
void um_note_opened(int file, const void *from);
void um_note_closed(int file, const void *from);
void um_note_mapped(void *at, size_t bytes, const void *from);
bool um_note_unmapped(void *at, size_t bytes, const void *from);
void um_note_outside(void);
void um_put_back_outside(void);

/* explore.c */
int um_explore(void);
bool um_is_searching(void);

/* seeds.c */
bool um_note_report(const char *line, size_t length);
bool um_stop_soon(void);
int um_play_seeds(void);
void um_refuse_seeds(const char *why) __attribute__((noreturn));

/* events.c */
void um_text_of_event(const struct event *event, char *text, size_t room);
bool um_open_schedule(void);
int um_choose_by_schedule(const struct event *choices, int count);
bool um_begin_record(void);
void um_record(const struct event *event);
bool um_keep_schedule(const char *path);

/* draw.c */
bool um_begin_drawing(void);
void um_note_drawn(const struct event *event);
bool um_draw_schedule(const char *path);

/* unfollowed.c */
void um_meet_thread(const void *from);
struct call_of {
    const void *from; /* an address in the program; null: not known */
    int rank;
};
bool um_begin_notes(void);
void um_tell_unfollowed(const char *what, const void *from);
void um_tell_left_out(const char *what, const void *from);
bool um_is_left_out(void);
void um_tell_left(const char *what, struct call_of call);
void um_tell_notes(FILE *to);

#endif
