/* What the present call of a rank is. Its thread alone changes that, and holds it meanwhile, so that others can look at it while the rank runs: where the time is
   over. What a call refers to stays as long: a communicator that goes is forgotten before. */
#include "progress/progress.h"
#include <string.h>

void um_set_call(struct call call) {
    um_hold_call(um_me);
    um_me->call = call;
    um_let_call_go(um_me);
}

void um_change_awaited(uint32_t ranks) {
    um_hold_call(um_me);
    um_me->call.waits_for = ranks;
    um_let_call_go(um_me);
}

/* The communicator of the call goes. */
void um_forget_comm(void) {
    struct call call = um_me->call;
    call.comm = 0;
    um_set_call(call);
}

void um_name_comm(struct comm *comm, const char *name) {
    um_hold_call(um_me);
    snprintf(comm->name, sizeof comm->name, "%s", name);
    um_let_call_go(um_me);
}

/* Whether this thread was interrupted while the rank changes its call: it would wait for itself. */
bool um_is_changing_call(struct rank *rank) { return atomic_load(&rank->call_is_held); }

/* By any thread: the call, and what is told of its communicator. */
struct sight um_look_at_call(struct rank *rank) {
    struct sight sight = {0};
    um_hold_call(rank);
    const struct comm *comm = rank->call.comm;
    sight.call = rank->call;
    if (comm) {
        sight.size = comm->size;
        sight.context = comm->context;
        sight.first = comm->chain->plane[0].context;
        memcpy(sight.members, comm->members, sizeof sight.members);
        for (int k = 0; k < MAX_RANKS; k++) sight.agreed[k] = atomic_load(&comm->common->agreed[k]);
        memcpy(sight.name, comm->name, sizeof sight.name);
    }
    um_let_call_go(rank);
    return sight;
}
