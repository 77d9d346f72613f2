/* Contexts of a run that is played. The engine's numbers of them have 45 bits; the controller and the search go by small ones, which contexts get as events
   name them, and which stay through all schedules of a process. What a context was made of, the engine's number says (ulfm_base, path_code). */
#include "search/search.h"
#include <stdlib.h>

enum { FIRST_CODE = 63, PARENTS = 31 }; /* first duplicates and shrinks of fewer than PARENTS have 2c + 1 and 2c + 2, all others codes */

static struct contexts {
    int count;
    struct {
        uint64_t context;
        int family, beside;
    } at[CONTEXTS];
} * contexts;

/* The world's has the number 0. In memory that stays, unless processes go on from places of the run, each with numbers of its own. */
bool um_begin_contexts(void) {
    contexts = um_options.branches >= 0 ? calloc(1, sizeof *contexts) : um_shared_memory(sizeof *contexts);
    return contexts && um_number_of(0) == 0;
}

/* ---- Numbers of the engine ---- */

/* The parent of a context, and which of its children it is: 3 times the number of a duplicate, or 1 more than that of a shrink. */
static uint64_t parent_of(uint64_t context, uint64_t *child) {
    if (context < FIRST_CODE) {
        *child = (context - 1) % 2;
        return (context - 1) / 2;
    }
    int bits = __builtin_ctzll(context - FIRST_CODE);
    uint64_t within = (context - FIRST_CODE) >> (bits + 1), places = 1ull << bits;
    *child = within % places + places - 1;
    return within >> bits;
}

static uint64_t child_of(uint64_t parent, uint64_t child) {
    if (parent < PARENTS && child < 2) return 2 * parent + 1 + child;
    uint64_t places = 1ull << (63 - __builtin_clzll(child + 1));
    return FIRST_CODE + places * (2 * (parent * places + child + 1 - places) + 1);
}

/* Whether a context is a duplicate: of which one, and the how many-th, from 0. */
static bool is_duplicate(uint64_t context, uint64_t *of, uint64_t *count) {
    uint64_t child = 1;
    if (context) *of = parent_of(context, &child);
    *count = child / 3;
    return child % 3 == 0;
}

/* Whether it is the first duplicate of what isn't one: there the first communicator of a group has its collectives. */
static bool is_first(uint64_t context, uint64_t *of) {
    uint64_t above, count, ignored;
    return is_duplicate(context, of, &count) && count == 0 && !is_duplicate(*of, &above, &ignored);
}

/* Of a context for collectives, the one that their communicator has for messages; else itself. Of further duplicates of the first one each second is for
   collectives, and that before it for messages (mpi/chain.c). */
static uint64_t messages_of(uint64_t context) {
    uint64_t of, above, count;
    if (is_first(context, &of)) return of;
    bool is_second = is_duplicate(context, &of, &count) && count % 2 == 1 && is_first(of, &above);
    return is_second ? child_of(of, 3 * (count - 1)) : context;
}

/* ---- Small numbers ---- */

/* The number of a context; it gets one where it has none. */
int um_number_of(uint64_t context) {
    uint64_t of, count, first = context;
    int number = 0;
    while (number < contexts->count && contexts->at[number].context != context) number++;
    if (number < contexts->count) return number;
    if (number == CONTEXTS) um_refuse_seeds("the program has messages on more communicators than a run that is played tells apart");
    contexts->at[contexts->count++].context = context;
    while (is_duplicate(first, &of, &count)) first = of;
    contexts->at[number].family = um_number_of(first);
    contexts->at[number].beside = um_number_of(messages_of(context));
    return number;
}

uint64_t um_context_of(int number) { return contexts->at[number].context; }

/* A communicator, its duplicates and theirs: a wait for a collective ends by a message on its own context, or a revocation of the communicator. */
int um_family(int number) { return contexts->at[number].family; }

/* The one whose revocation ends a wait for a message of a collective; itself where it is of no collective. */
int um_beside(int number) { return contexts->at[number].beside; }
