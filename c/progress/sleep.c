/* Where ranks sleep that wait, and whom others wake. A rank that moves something concerns those to whom it sends: as long as nothing but messages goes from
   rank to rank, and each that sleeps has sent all that it has. Else what one did may concern any. A rank lies down before its last look, so that who does
   something that this look misses wakes it. */
#define _GNU_SOURCE
#include "progress/progress.h"
#include <linux/futex.h>
#include <sys/syscall.h>
#include <unistd.h>

enum { LINE = 128 };

/* On cache lines of their own. */
static struct {
    _Alignas(LINE) _Atomic bool is_taken;
    _Atomic uint32_t wakes; /* how often its rank was woken */
} beds[MAX_RANKS];
_Alignas(LINE) _Atomic int um_sleepers;
static _Atomic int with_rest; /* those who may wait for places */
static _Atomic bool has_more;

/* More than messages goes from rank to rank from now on: words of failures, revocations, shrinks and agreements, which a rank may pass on. */
void um_go_beyond_messages(void) {
    if (!has_more) atomic_store(&has_more, true);
}

static void wake(int rank) {
    if (!atomic_load(&beds[rank].is_taken)) return;
    atomic_fetch_add(&beds[rank].wakes, 1);
    syscall(SYS_futex, &beds[rank].wakes, FUTEX_WAKE_PRIVATE, 1, 0, 0, 0);
}

void um_wake(uint32_t ranks) {
    for (int k = 0; k < um_options.ranks; k++)
        if (ranks >> k & 1) wake(k);
}

static bool has_rest(void) {
    uint32_t flushed = 0;
    return ulfm_flushed(um_me->slot, &flushed) != ULFM_OK || !flushed;
}

/* After a turn of this rank that moved something. */
void um_wake_concerned(void) {
    if (atomic_load(&has_more) || atomic_load(&with_rest) > 0) um_wake(EVERYBODY);
    else um_wake(um_me->bed.sent_to);
    if (um_me->bed.sent_to && !has_rest()) um_me->bed.sent_to = 0;
}

void um_lie_down(void) {
    struct in_bed *own = &um_me->bed;
    if (!own->lies) atomic_fetch_add(&um_sleepers, 1);
    own->lies = true;
    if (!own->has_rest && has_rest()) atomic_fetch_add(&with_rest, 1), own->has_rest = true;
    atomic_store(&beds[um_me->number].is_taken, true);
    own->wakes = atomic_load(&beds[um_me->number].wakes);
}

/* Sleeps until it is woken, unless it was since it lay down, or got up. */
void um_sleep(void) {
    if (um_me->bed.lies) syscall(SYS_futex, &beds[um_me->number].wakes, FUTEX_WAIT_PRIVATE, um_me->bed.wakes, 0, 0, 0);
}

void um_get_up(void) {
    struct in_bed *own = &um_me->bed;
    if (!own->lies) return;
    atomic_store(&beds[um_me->number].is_taken, false);
    if (own->has_rest) atomic_fetch_sub(&with_rest, 1);
    atomic_fetch_sub(&um_sleepers, 1);
    own->lies = own->has_rest = false;
}
