/* A rank, in parts by subject; and the objects that several folders know: communicators, groups, requests, parcels. */
#ifndef UM_RANK_H
#define UM_RANK_H

#include "launcher/options.h"
#include "mpi.h"
#include "ulfm.h"
#include <pthread.h>
#include <setjmp.h>
#include <signal.h>
#include <stdatomic.h>
#include <stdbool.h>
#include <stdio.h>

/* PLANES: so many communicators of one group can be there at a time. */
enum { MAX_RANKS = 8, PLANES = 1024, STACK = 32 << 20 };

/* In place of a context: there is none. */
#define NO_CONTEXT UINT64_MAX

/* Error codes: the class, and a detail times 256, which MPI_Error_string tells. */
enum {
    NO_CONTEXTS = MPI_ERR_OTHER | 1 << 8,
    NO_COLLECTIVES = MPI_ERR_OTHER | 2 << 8,
    NOT_ON_PARTS = MPI_ERR_COMM | 5 << 8,
    TAKEN_FOR_FAILED = MPI_ERR_OTHER | 6 << 8,
    ONE_AT_A_TIME = MPI_ERR_OTHER | 7 << 8
};

/* What the ranks know together of the communicators of one group (mpi/plane.c). */
struct ledger;

/* What the members of a communicator share. In a list, so that those which members that failed had are freed at the end. */
struct common {
    struct common *next, *previous;
    int users;                          /* members that may have it */
    _Atomic int revoked[MAX_RANKS];     /* of parts, by the first member's world rank: the engine would revoke the whole context */
    _Atomic uint32_t agreed[MAX_RANKS]; /* how many agreements each rank entered there */
};

/* The contexts of one group, by planes: each communicator of the group has one plane, with a context for its messages and one for its collectives. Those
   of plane 0 are the first context and its duplicate, which no program revokes. Those of the others are further duplicates of that one: they are made as
   planes are needed, in order, so that a plane's are the same at all members, whatever these missed. */
struct chain {
    struct ledger *ledger;
    int planes;    /* that were made */
    int users;     /* the communicators here that point to it */
    uint64_t half; /* of the plane that comes next, where its second context wasn't made; else NO_CONTEXT */
    struct plane {
        uint64_t context, hidden;
        bool is_free;   /* the program has no communicator on it */
        unsigned begun; /* the collectives that began on it before */
    } * plane;
};

/* A communicator of the program. */
struct comm {
    uint64_t context; /* of its messages */
    uint64_t hidden;  /* of its collectives, NO_CONTEXT where there is none */
    struct chain *chain;
    struct common *common;
    int plane;        /* its number in the chain */
    int first_tag;    /* of its collectives: 0, or CREATION of those who make a communicator by themselves */
    unsigned begun;   /* how many collectives began */
    unsigned repeats; /* the number of the persistent one that is started now, or 0 */
    int size, position;
    uint8_t members[MAX_RANKS];         /* world ranks */
    uint8_t engine_position[MAX_RANKS]; /* where each member stands in the context's group */
    MPI_Errhandler handler;
    bool is_self;
    bool is_part;          /* not all of the context's group are members */
    _Atomic int *revoked;  /* of a part: what its members share */
    uint32_t acknowledged; /* how many failures are */
    char name[MPI_MAX_OBJECT_NAME];
    struct cart *cart;            /* its topology, or null */
    struct graph *graph;          /* so too */
    struct attribute *attributes; /* the last one that was set first */
};

/* A value of MPI_Group: world ranks by positions. */
struct group {
    int size;
    uint8_t members[MAX_RANKS];
};

/* What the members of a new communicator agree on, besides its plane. */
struct terms {
    unsigned begun;                         /* the collectives that began on the plane before */
    struct common *common;                  /* what they share; a member that makes none leaves it */
    int colors[MAX_RANKS], keys[MAX_RANKS]; /* of MPI_Comm_split, by positions; before, the own ones stand first */
};

/* Where the bytes of a parcel stand: with its sender, who copies them; there, and its receiver copies them; in the parcel; at the receiver. */
enum filling { LIVE, CLAIMED, FILLED, TAKEN };

/* What goes beside a message: a long body, and where its sender waits for the match, the flag that tells it. In a list of its sender's, so that those
   that nobody received are freed at the end. */
struct parcel {
    struct parcel *next, *previous;
    _Atomic int users; /* the message, its sender, the copying of its body */
    _Atomic int matched;
    _Atomic int filling;
    bool is_waited_for;
    bool has_come, is_met;    /* where the run is played: it was taken, and a receive has it */
    int matched_at, met_with; /* where the run is searched: the event in which it was matched, and the other one that this took */
    bool is_found;            /* by a matched probe, so that no other one tells of it; for the receiver alone */
    int from, to;             /* world ranks */
    uint64_t context;
    int tag;
    size_t length;      /* of the message */
    const void *source; /* where the sender has its bytes */
    unsigned char bytes[];
};

/* What a request is: a buffered send, a send that waits for its match, a receive, a send and a receive, a collective, a shrink or an agreement, one that
   starts others, or nothing that could go on. */
enum kind { SENT, SYNCHRONOUS, RECEIVE, EXCHANGE, COLLECTIVE, RECOVERY, PERSISTENT, NOTHING };

struct landing;
struct repeated;
struct start;
struct reduction;

/* What was begun, until its end is told. Of one that is free, or of a kind before EXCHANGE, the fields from `start` on are null. */
struct request {
    enum kind kind;
    struct comm *comm;
    uint64_t context;
    int peer, tag;
    void *buffer;
    size_t room;
    uint64_t id;             /* the engine's number of the receive */
    struct parcel *parcel;   /* of a synchronous send */
    struct landing *landing; /* of a receive whose data aren't in one piece */
    bool over, freed;        /* its status is known; the program freed it */
    int code;
    MPI_Status status;
    struct request *next, *previous; /* of the open receives, or of those that can be used again */
    int handle;
    struct start *start;              /* of a persistent request: what it starts */
    struct repeated *repeated;        /* of a persistent collective: its arguments */
    struct request *active;           /* of a persistent request: what it started, until its end is told */
    void (*look)(struct request *);   /* of a shrink or an agreement: looks at it once */
    void *more;                       /* what that knows of it */
    struct reduction *reduction;      /* of a collective: what is folded at its end, or null */
    struct request *parts[MAX_RANKS]; /* of a collective: its receives, by positions; of an exchange: a receive and a send */
};

/* What the rank's present call is, for reports. */
struct call {
    const char *name;
    const void *from; /* an address in the program */
    struct comm *comm;
    int peer, tag;      /* MPI_UNDEFINED: none */
    uint32_t waits_for; /* bits of world ranks, or 0 */
};

struct thread {
    pthread_t id;
    char *stack; /* its lowest byte */
    jmp_buf bottom;
};

/* What its program made of MPI, by handles. */
struct objects {
    struct comm **comms, **old_comms; /* those that the program freed too */
    struct group **groups;
    struct request **requests;
    struct message **messages;
    struct errhandler *handlers;
    struct type **types;
    char (*type_names)[MPI_MAX_OBJECT_NAME]; /* that the program gave basic types, or null */
    struct attribute **basic_attributes;     /* of basic types, or null */
    struct op *ops;
    struct keyval *keyvals;
    struct info **infos;
    struct window **windows, *left_windows;
    struct added *added; /* classes and codes of errors */
    void *attached;      /* by MPI_Buffer_attach */
    MPI_Count attached_size;
    int keyval_count, info_count, window_count, added_count, last_code;
    int comm_count, old_comm_count, group_count, request_count, message_count, handler_count, type_count, op_count, first_free;
    struct request *open;  /* receives that wait */
    struct request *spare; /* can be used again */
    int recoveries;        /* requests of shrinks and agreements */
    bool is_starting;      /* MPI_Start makes a call of its own */
};

/* The parcels that it sent, in that order. */
struct parcels {
    struct parcel *first, *last;
    pthread_mutex_t lock;
};

/* What it made of failures, and knows of them. */
struct recovery {
    _Atomic int self_revoked;
    _Atomic uint32_t known; /* the world ranks whose failures it knows, as bits, at its last call */
    int known_count;        /* how many */
    _Atomic bool is_told;   /* a call answered a failure */
};

/* How far it came. */
struct life {
    _Atomic bool has_begun, has_finalized, has_stopped;
    bool is_planned; /* it stopped by plan */
    int provided;    /* the level of threads that it was given */
    int status;      /* of main */
};

/* How it waits. */
struct patience {
    int vain;       /* looks of calls that don't wait, since anything moved */
    int impatience; /* by how much its first looks are fewer, where looks were in vain */
    int crowded;    /* so many waits yet it sleeps almost at once */
    uint64_t since; /* when it began to look on */
};

/* Where it sleeps, or is about to. */
struct in_bed {
    bool lies, has_rest; /* has_rest: it was counted as one who may wait for places */
    uint32_t wakes;      /* how often it was woken before it lay down */
    uint32_t sent_to;    /* bits of the world ranks to whom it sent something that others may not have been woken for */
};

/* Where it is in the plan of stops and yields. */
struct plan {
    _Atomic int calls; /* that count */
    int insides;       /* places inside the last one */
    uint64_t random;
};

/* Of a run that is played. */
struct played {
    bool loops;           /* over looks that find nothing */
    uint64_t times_asked; /* calls of MPI_Wtime */
    uint32_t looks;       /* at the engine in its present call */
};

/* Its standard output. */
struct output {
    FILE *file;
    bool has_closed; /* the program closed it */
    char *line;
    size_t length, room;
};

/* Its copy of the program. */
struct program {
    void *handle;
    char *path, **words;
    char *runtime;              /* its copy of Fortran's library, or null */
    const void *called_from;    /* where a wrapper's present call stands in it, or null */
    struct farewell *farewells; /* what it does at its end, the last first */
};

/* What other ranks read. */
struct shared {
    _Alignas(128) _Atomic uint64_t idle; /* all moves before its last look, and 1; 0: it runs */
    _Atomic int is_gone;                 /* it has finalized, or stopped */
    _Atomic int is_ended;                /* its thread needs nothing more */
    _Atomic int waited_for;              /* synchronous sends to it without a match */
};

struct rank {
    _Alignas(128) int number; /* no rank writes to another one's cache lines but where it has to */
    ulfm_slot *slot, home;    /* slot: home */
    struct thread thread;
    struct objects mpi;
    struct parcels sent;
    struct recovery recovery;
    struct life life;
    struct call call;          /* by progress/call.c alone */
    _Atomic bool call_is_held; /* by who writes it or looks at it, for a moment */
    struct patience patience;
    struct in_bed bed;
    struct plan plan;
    struct played played;
    struct output out;
    struct program program;
    struct shared shared;
};

/* A rank is a thread; `um_me` is the rank of the thread that runs, null outside of ranks. */
extern struct rank um_ranks[MAX_RANKS];
extern __thread struct rank *um_me __attribute__((tls_model("initial-exec")));
/* Of a further thread of a rank: whose it is. */
extern __thread struct rank *um_owner __attribute__((tls_model("initial-exec")));

/* Whether a controller plays the run (play/play.h). */
extern bool um_is_played;

#endif
