/* Windows (MPI 4.0, 12). What is asked of them between fences a fence tells the members, who do it in their own windows. Under locks, and of ranks that
   posted their window, it is done at once, by who asks it: all ranks share memory. */
#ifndef UM_WINDOWS_H
#define UM_WINDOWS_H

#include "types/types.h"

/* Bytes that grow. */
struct pile {
    char *bytes;
    size_t length, room;
};

/* What is asked of a rank: followed by the runs of its window, and the data. */
enum asked { PUT, GET, FOLD, GET_AND_FOLD, SWAP };
struct deed {
    enum asked what;
    uint32_t base; /* of a fold: the basic type of its elements */
    uint32_t op;
    bool by_element; /* each run is an element whose data aren't in one piece */
    size_t runs, bytes;
};

/* Bytes of a window, from its base. */
struct run {
    size_t at, length;
};

/* Where what is got of a window goes. */
struct result {
    int from;
    void *buffer;
    int count;
    MPI_Datatype type;
    size_t bytes;
};

/* Memory that a member attached to a window that has none. */
struct region {
    const char *at;
    size_t length;
};

/* What the members see of one of them. Ranks are bits of world ranks. */
struct exposure {
    pthread_mutex_t guard;      /* held by who acts on its memory, or changes what stands here */
    char *piece;                /* of windows in one piece: all of it, at the first member */
    uint32_t owner, sharers;    /* who holds its lock alone; who does beside others */
    uint32_t posted, completed; /* whom it is posted to and who didn't start yet; who completed */
    bool is_closed;             /* its member freed the window */
    struct region *regions;
    int region_count;
};

struct window {
    struct comm *comm;
    struct request *hold; /* so that the communicator stays */
    unsigned number;      /* of its messages, as of a collective that is started */
    void *base;
    MPI_Aint sizes[MAX_RANKS]; /* of each member's window, in bytes */
    int units[MAX_RANKS];
    int flavor, model;
    bool is_open; /* a fence began an epoch */
    struct exposure *exposures[MAX_RANKS];
    char *bases[MAX_RANKS];
    void *memory;             /* that goes with it, or null */
    uint32_t locked, started; /* members whose locks are held here, or whose epochs were started, as bits of positions */
    uint32_t posted;          /* members that its own epoch waits for, so too */
    bool is_posted, has_started;
    struct window *next; /* of those that were freed where others may not have freed them */
    MPI_Errhandler handler;
    char name[MPI_MAX_OBJECT_NAME];
    struct attribute *attributes;
    struct pile asked[MAX_RANKS];
    struct result *results;
    int result_count;
};

enum { ALIGNED = 16 }; /* deeds, runs and data begin so */

/* window.c */
struct window *um_window_at(MPI_Win handle);
int um_fail_window(const struct window *window, MPI_Win handle, int code);
int um_answer_window(const struct window *window, MPI_Win handle, int code);
void *um_extend(struct pile *pile, size_t bytes);
int um_exchange(struct window *window, const struct pile *out, struct pile *in, bool also_empty);
int um_meet(struct window *window, int code);
void um_forget_epoch(struct window *window);
void um_clear_windows(void);

/* fence.c */
int um_do_all(char *base, const struct pile *asked, struct pile *answers);
void um_hand_out(const struct window *window, const struct pile results[]);

/* lock.c, post.c, dynamic.c: what ranks see of each other's windows. */
static inline uint32_t um_bit_of_member(const struct window *window, int position) { return 1u << window->comm->members[position]; }
static inline bool um_acts_at_once(const struct window *window, int target) { return (window->locked | window->started) >> target & 1; }
int um_why_no_access(const struct window *window, int target);
uint32_t um_running_ranks(void);
bool um_is_attached(struct exposure *exposure, uintptr_t at, size_t length);
int um_do_now(struct window *window, int target);

/* windowattribute.c */
int um_delete_window_attributes(struct window *window, MPI_Win handle);

/* Begins a call on a window. */
#define WINDOW(win, counts) \
    struct window *of = um_window_at(win); \
    um_enter_call(__func__, __builtin_return_address(0), of ? of->comm : 0, MPI_UNDEFINED, MPI_UNDEFINED, counts); \
    if (!of) return um_fail(0, MPI_ERR_WIN)

/* error.c */
int um_fail_by(MPI_Errhandler handler, struct comm *comm, void *window, const char *name, int code);

#endif
