/* The planes that communicators are made on. Each member says which ones it could use when it makes its call, and position 0 of the old communicator
   decides when all have. Several may be made at the same time, in another order at each member, and others than position 0 decide about those. So what a
   member was given stands in memory that all ranks share, and nobody gives it to another communicator until that member has said again that it could use
   it. A rank that isn't one of them may have sent on a plane before, or revoke it late: so it is used again only by all who ever shared it. */
#include "mpi/calls.h"
#include "mpi/dup.h"
#include "progress/progress.h"
#include "search/search.h"
#include <stdlib.h>
#include <string.h>

/* What a rank was given on a plane. */
struct given {
    uint64_t to;   /* what is made there, or was; 0: nothing since the rank had it free */
    unsigned when; /* it was the so-many-th that the rank was given of its chain */
    uint32_t with; /* the ranks that ever shared it with this one, as bits */
};

/* Of the chains of one context at all ranks. */
struct ledger {
    struct ledger *next;
    uint64_t context;
    int users;                        /* ranks that have such a chain */
    int planes;                       /* how many of the first ones were given before, to any rank */
    unsigned count[MAX_RANKS];        /* how many each rank was given */
    struct given (*given)[MAX_RANKS]; /* by planes */
    struct common first;              /* of the communicator on plane 0 */
};
static struct ledger *all_ledgers;
static pthread_mutex_t ledgers_lock = PTHREAD_MUTEX_INITIALIZER;

/* The ledger of a context, or null where there is no memory. */
struct ledger *um_open_ledger(uint64_t context) {
    pthread_mutex_lock(&ledgers_lock);
    struct ledger *ledger = all_ledgers;
    while (ledger && ledger->context != context) ledger = ledger->next;
    if (!ledger && (ledger = calloc(1, sizeof *ledger))) {
        ledger->context = context;
        ledger->next = all_ledgers;
        all_ledgers = ledger;
    }
    if (ledger) ledger->users++;
    pthread_mutex_unlock(&ledgers_lock);
    return ledger;
}

static void free_ledger(struct ledger *ledger) {
    free(ledger->given);
    free(ledger);
}

/* A rank has no such chain any more. The last one frees the ledger. */
void um_close_ledger(struct ledger *ledger) {
    pthread_mutex_lock(&ledgers_lock);
    if (--ledger->users == 0) {
        struct ledger **at = &all_ledgers;
        while (*at != ledger) at = &(*at)->next;
        *at = ledger->next;
        free_ledger(ledger);
    }
    pthread_mutex_unlock(&ledgers_lock);
}

void um_free_ledgers(void) {
    while (all_ledgers) {
        struct ledger *next = all_ledgers->next;
        free_ledger(all_ledgers);
        all_ledgers = next;
    }
}

struct common *um_common_of_first(struct ledger *ledger) {
    return &ledger->first;
}

static bool has_plane(const uint64_t *planes, int plane) { return planes[plane / PLANES_A_WORD] >> (plane % PLANES_A_WORD) & 1; }

/* Whether a request that isn't over is on a context. */
bool um_has_requests(uint64_t context) {
    for (int k = 0; k < um_me->mpi.request_count; k++)
        if (um_me->mpi.requests[k] && um_me->mpi.requests[k]->context == context) return true;
    return false;
}

/* The planes of a chain that this rank has not had yet, or freed, where nothing is open or revoked. */
static void put_free_planes(const struct chain *chain, uint64_t *planes) {
    for (int k = 0; k < WORDS_OF_PLANES; k++) planes[k] = ~0ull;
    for (int k = 0; k < chain->planes; k++) {
        const struct plane *plane = &chain->plane[k];
        uint32_t revoked = 0;
        bool is_free = plane->is_free && !um_has_requests(plane->context);
        if (is_free) is_free = ulfm_is_revoked(um_me->slot, plane->context, &revoked) == ULFM_OK && !revoked;
        if (!is_free) planes[k / PLANES_A_WORD] &= ~(1ull << (k % PLANES_A_WORD));
    }
}

/* What tells a communicator that is made from others of its members that are being made: its parent, and which one of that it is, by the number of the
   collective. */
uint64_t um_name_of_copy(const struct comm *parent, unsigned number) {
    return (uint64_t)number << 50 | (uint64_t)parent->members[0] << 47 | parent->context << 2 | (uint64_t)(parent->first_tag > 0) << 1 | 1;
}

/* What this rank wishes. What it was given for a communicator that isn't over here stays so; else it is over, and the rank has it free again. */
void um_wish_for(const struct chain *chain, struct wish *own) {
    struct ledger *ledger = chain->ledger;
    *own = (struct wish){.planes = chain->planes};
    put_free_planes(chain, own->free);
    pthread_mutex_lock(&ledgers_lock);
    for (int k = 0; k < ledger->planes; k++) {
        struct given *given = &ledger->given[k][um_me->number];
        if (!given->to || !has_plane(own->free, k)) continue;
        if (um_is_copying(given->to)) own->free[k / PLANES_A_WORD] &= ~(1ull << (k % PLANES_A_WORD));
        else given->to = 0;
    }
    own->given = ledger->count[um_me->number];
    pthread_mutex_unlock(&ledgers_lock);
}

static uint32_t bits_of(const struct comm *team) {
    uint32_t members = 0;
    for (int k = 0; k < team->size; k++) members |= 1u << team->members[k];
    return members;
}

/* Whether each member of a team could use a plane, was given it for nothing else since, and shared it with no other rank. */
static bool is_left(const struct comm *team, const struct wish *all, int plane) {
    const struct ledger *ledger = team->chain->ledger;
    for (int k = 0; k < team->size; k++) {
        if (!has_plane(all[k].free, plane)) return false;
        if (plane >= ledger->planes) continue;
        const struct given *given = &ledger->given[plane][team->members[k]];
        if (given->when > all[k].given || given->with & ~bits_of(team)) return false;
    }
    return true;
}

/* Makes room for what is given on planes up to this one. */
static bool reach(struct ledger *ledger, int plane) {
    while (ledger->planes <= plane) {
        if (!um_grow(&ledger->given, ledger->planes, sizeof *ledger->given)) return false;
        memset(ledger->given[ledger->planes++], 0, sizeof *ledger->given);
    }
    return true;
}

/* Gives the members the first plane that each could use. PLANES: there is none. False: there is no memory. */
static bool give(const struct comm *team, const struct wish *all, uint64_t to, int *plane) {
    struct ledger *ledger = team->chain->ledger;
    uint32_t members = bits_of(team);
    *plane = 0;
    pthread_mutex_lock(&ledgers_lock);
    while (*plane < PLANES && !is_left(team, all, *plane)) ++*plane;
    bool is_given = *plane < PLANES && reach(ledger, *plane);
    for (int k = 0; k < team->size && is_given; k++) {
        int member = team->members[k];
        struct given *given = &ledger->given[*plane][member];
        *given = (struct given){to, ++ledger->count[member], given->with | members};
    }
    bool is_well = is_given || *plane == PLANES;
    pthread_mutex_unlock(&ledgers_lock);
    if (um_footprints) um_note_given(members);
    return is_well;
}

/* What comes of the wishes of all; by position 0 alone. False: there is no memory. */
bool um_decide(const struct comm *team, const struct wish *all, uint64_t name, struct decided *decided) {
    *decided = (struct decided){0};
    for (int k = 0; k < team->size; k++) {
        decided->terms.colors[k] = all[k].color;
        decided->terms.keys[k] = all[k].key;
    }
    if (!give(team, all, name, &decided->plane)) return false;
    for (int k = 0; k < team->size; k++) decided->is_old = decided->is_old || decided->plane < all[k].planes;
    decided->terms.common = um_new_common(team->size);
    return decided->terms.common != 0;
}
