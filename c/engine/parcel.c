/* Parcels: messages that stand beside their bodies, since they are long, or since their senders wait for the match. A receiver reads the parcel in the
   memory that ranks share, and lets it go. */
#include "engine/engine.h"
#include <sched.h>
#include <stdlib.h>
#include <string.h>

enum { PART = 8192, SPINS = 10000 };

/* A parcel like `like`, with room for its bytes, or null where there is no memory. */
struct parcel *um_new_parcel(const struct parcel *like) {
    struct parcel *parcel = malloc(sizeof *parcel + like->length);
    if (!parcel) return 0;
    *parcel = *like;
    pthread_mutex_lock(&um_me->sent.lock);
    parcel->previous = um_me->sent.last;
    if (um_me->sent.last) um_me->sent.last->next = parcel;
    else um_me->sent.first = parcel;
    um_me->sent.last = parcel;
    pthread_mutex_unlock(&um_me->sent.lock);
    return parcel;
}

/* One that used a parcel needs it no more; the last one frees it. */
void um_let_go(struct parcel *parcel) {
    if (atomic_fetch_sub(&parcel->users, 1) > 1) return;
    struct rank *from = &um_ranks[parcel->from];
    pthread_mutex_lock(&from->sent.lock);
    if (parcel->previous) parcel->previous->next = parcel->next;
    else from->sent.first = parcel->next;
    if (parcel->next) parcel->next->previous = parcel->previous;
    else from->sent.last = parcel->previous;
    pthread_mutex_unlock(&from->sent.lock);
    free(parcel);
}

/* Frees what nobody received. */
void um_free_parcels(void) {
    for (struct rank *rank = um_ranks; rank < um_ranks + MAX_RANKS; rank++)
        while (rank->sent.first) {
            struct parcel *next = rank->sent.first->next;
            free(rank->sent.first);
            rank->sent.first = next;
        }
}

/* Copies a message, whose body is on its way, into its parcel, unless the receiver comes before and copies it from the sender: then it waits until
   that is done. */
void um_fill_parcel(struct parcel *parcel) {
    const char *source = parcel->source;
    for (size_t at = 0; at < parcel->length && atomic_load(&parcel->filling) == LIVE; at += PART)
        memcpy(parcel->bytes + at, source + at, parcel->length - at < PART ? parcel->length - at : PART);
    int live = LIVE;
    if (!atomic_compare_exchange_strong(&parcel->filling, &live, FILLED))
        for (size_t spins = 0; atomic_load(&parcel->filling) != TAKEN; spins++)
            if (spins > SPINS + parcel->length) sched_yield(); /* the copy takes less, unless its rank doesn't run */
    um_let_go(parcel);
}

/* Copies the bytes of a message from where they stand now. */
void um_empty_parcel(struct parcel *parcel, void *buffer, size_t length) {
    int live = LIVE;
    bool is_live = atomic_compare_exchange_strong(&parcel->filling, &live, CLAIMED);
    if (length) memcpy(buffer, is_live ? parcel->source : parcel->bytes, length);
    if (is_live) atomic_store(&parcel->filling, TAKEN);
}

/* A message is about to be taken that was sent by a parcel, where the run is played: its parcel. */
struct parcel *um_parcel_that_comes(int to, int from, uint64_t context, int tag) {
    struct parcel *parcel = um_ranks[from].sent.first;
    while (parcel && (parcel->to != to || parcel->context != context || parcel->tag != tag || parcel->has_come)) parcel = parcel->next;
    if (parcel) parcel->has_come = true;
    return parcel;
}

/* .. of the first message that came to this rank and that no receive and no matched probe has. */
struct parcel *um_first_parcel(int from, uint64_t context, int tag) {
    for (struct parcel *parcel = um_ranks[from].sent.first; parcel; parcel = parcel->next) {
        bool is_kept = parcel->has_come && !parcel->is_met && !parcel->is_found;
        if (is_kept && parcel->to == um_me->number && parcel->context == context && parcel->tag == tag) return parcel;
    }
    return 0;
}

/* How long the first message is that a rank sent here by a parcel with this tag, and that nobody took or set aside. */
size_t um_length_of_first(uint64_t context, int from, int tag) {
    size_t length = 0;
    pthread_mutex_lock(&um_ranks[from].sent.lock);
    for (struct parcel *parcel = um_ranks[from].sent.first; parcel; parcel = parcel->next)
        if (parcel->to == um_me->number && parcel->context == context && parcel->tag == tag && !parcel->is_found && !atomic_load(&parcel->matched)) {
            length = parcel->length;
            break;
        }
    pthread_mutex_unlock(&um_ranks[from].sent.lock);
    return length;
}
