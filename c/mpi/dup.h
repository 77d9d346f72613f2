/* What the members of a new communicator tell each other, the plane that it gets, and its contexts (chain.c, plane.c, dup.c, idup.c). */
#ifndef UM_DUP_H
#define UM_DUP_H

#include "progress/rank.h"

enum { PLANES_A_WORD = 64, WORDS_OF_PLANES = PLANES / PLANES_A_WORD };

struct wish {
    uint64_t free[WORDS_OF_PLANES]; /* the planes that can be used, as bits */
    unsigned given;                 /* how many planes of the chain were given to this rank before */
    int planes;                     /* how many of the first ones were made here before */
    int color, key;                 /* of MPI_Comm_split */
};

/* What comes of their wishes. */
struct decided {
    int plane;
    bool is_old; /* a member had it before */
    struct terms terms;
};

/* chain.c */
struct common *um_new_common(int users);
void um_leave_common(struct common *common);
void um_free_chain(struct chain *chain);
int um_lengthen(struct chain *chain, int plane);
unsigned um_begun_on(const struct chain *chain, int plane);

/* plane.c */
struct ledger *um_open_ledger(uint64_t context);
void um_close_ledger(struct ledger *ledger);
void um_free_ledgers(void);
struct common *um_common_of_first(struct ledger *ledger);
bool um_has_requests(uint64_t context);
uint64_t um_name_of_copy(const struct comm *parent, unsigned number);
void um_wish_for(const struct chain *chain, struct wish *own);
bool um_decide(const struct comm *team, const struct wish *all, uint64_t name, struct decided *decided);

/* dup.c */
void um_drop_messages(const struct chain *chain, int plane);
unsigned um_most_begun(const unsigned *all, int count);
int um_first_error(const int *codes, int count);
int um_release_comm(struct comm *of, MPI_Comm *handle);

#endif
