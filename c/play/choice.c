/* The calls of the engine as the layer makes them (the linker's --wrap). Where a run is played, each one that others may see, or whose answer depends on
   what came, is an event: the rank gives the processor to the controller, which chooses when it goes on. What it sends goes out at once. */
#include "progress/progress.h"
#include "search/search.h"

struct player um_players[MAX_RANKS];

/* The rank stands before a call until the controller lets it go on. */
static void stand_before(struct event call, uint64_t look) {
    struct player *own = &um_players[um_me->number];
    if (!own->is_granted) {
        own->call = call;
        own->look = look;
        own->state = AT_CALL;
        um_to_controller();
    }
    own->is_granted = own->is_first = false;
    if (um_footprints) um_begin_call(&call);
}

static struct event event_of(enum kind_of_event kind, uint64_t comm, uint32_t peer, uint32_t tag) {
    return (struct event){.kind = (uint8_t)kind,
                          .rank = (uint8_t)um_me->number,
                          .peer = peer > MAX_RANKS ? NOBODY : (uint8_t)peer,
                          .comm = (uint8_t)um_number_of(comm),
                          .tag = tag == ULFM_ANY ? -1 : (int32_t)tag};
}

/* Before a call that does something. */
static void before(struct event call) {
    stand_before(call, 0);
    um_forget_looks(&um_players[um_me->number]);
}

/* Before a look, which changes nothing where it is in vain. False: it is made no event. In a wait that is so where it would be in vain, and where
   something came since the rank began to look: then all of it is looked at, anew, and this look finds nothing more. */
static bool before_look(struct event call, uint64_t request, bool is_vain) {
    struct player *own = &um_players[um_me->number];
    if (um_footprints && own->in_wait && is_vain) um_note_silent(&call);
    if (own->in_wait && (is_vain || own->looks_anew)) return false;
    bool is_first = own->is_first;
    int taken = own->taken;
    stand_before(call, own->in_wait ? 0 : um_look_of(&call, request));
    if (!own->in_wait) um_remember_look(own);
    if (own->in_wait && is_first && own->taken != taken) {
        own->looks_anew = own->is_granted = true;
        return false;
    }
    return true;
}

static void push(ulfm_slot *slot) {
    uint32_t moved;
    ulfm_push(slot, &moved);
    um_block_rings(um_me->number);
}

static uint32_t bits_of_group(const ulfm_group *group) {
    uint32_t bits = 0;
    for (uint32_t k = 0; k < group->size; k++) bits |= 1u << group->members[k];
    return bits;
}

#define REAL(name) __typeof__(ulfm_##name) __real_ulfm_##name, __wrap_ulfm_##name
/* Apart, so that a run which isn't played pays one look. */
#define SELDOM __attribute__((noinline))

REAL(isend);
static SELDOM uint32_t isend(ulfm_slot *slot, uint64_t comm, uint32_t dest, uint32_t tag, const uint8_t *body, size_t length) {
    before(event_of(SENDS, comm, dest, tag));
    uint32_t code = __real_ulfm_isend(slot, comm, dest, tag, body, length);
    if (um_footprints) um_end_send(dest, code);
    push(slot);
    return code;
}

uint32_t __wrap_ulfm_isend(ulfm_slot *slot, uint64_t comm, uint32_t dest, uint32_t tag, const uint8_t *body, size_t length) {
    return um_is_played ? isend(slot, comm, dest, tag, body, length) : __real_ulfm_isend(slot, comm, dest, tag, body, length);
}

REAL(irecv);
static SELDOM uint32_t irecv(ulfm_slot *slot, uint64_t comm, uint32_t source, uint32_t tag, uint32_t room, uint64_t *request) {
    before(event_of(POSTS, comm, source, tag));
    struct parcel *parcel = um_parcel_for(comm, source, tag);
    uint32_t code = __real_ulfm_irecv(slot, comm, source, tag, room, request);
    if (um_footprints) um_end_post(source, *request, code);
    if (parcel && code == ULFM_OK) um_match(parcel);
    return code;
}

uint32_t __wrap_ulfm_irecv(ulfm_slot *slot, uint64_t comm, uint32_t source, uint32_t tag, uint32_t room, uint64_t *request) {
    return um_is_played ? irecv(slot, comm, source, tag, room, request) : __real_ulfm_irecv(slot, comm, source, tag, room, request);
}

REAL(test);
static SELDOM uint32_t test(ulfm_slot *slot, uint64_t request, ulfm_status *status, uint8_t *body, size_t size) {
    uint32_t would = ULFM_NOT_YET;
    if (um_players[um_me->number].in_wait && ulfm_would(slot, request, &would) != ULFM_OK) would = ULFM_OK;
    if (!before_look(event_of(TESTS, 0, NOBODY, (uint32_t)request), request, would == ULFM_NOT_YET)) return ULFM_NOT_YET;
    uint32_t code = __real_ulfm_test(slot, request, status, body, size);
    if (um_footprints) um_end_look(request, code, status);
    if (code == ULFM_OK) um_forget_looks(&um_players[um_me->number]);
    return code;
}

uint32_t __wrap_ulfm_test(ulfm_slot *slot, uint64_t request, ulfm_status *status, uint8_t *body, size_t size) {
    return um_is_played ? test(slot, request, status, body, size) : __real_ulfm_test(slot, request, status, body, size);
}

/* What a look at a send that waits would answer: it was matched, or why it never is, or neither. */
static uint32_t state_of_sent(const struct request *request) {
    const struct comm *comm = request->comm;
    if (atomic_load(&request->parcel->matched)) return ULFM_OK;
    if (comm->is_part ? atomic_load(comm->revoked) : um_is_known_revoked(um_me->number, um_number_of(comm->context))) return ULFM_REVOKED;
    return um_knows_failed(um_me->number, comm->members[request->peer]) ? ULFM_PROC_FAILED : ULFM_NOT_YET;
}

/* Looks at it: the flag of its match is the receiver's to set, so it is looked at as what came is. */
uint32_t um_look_at_sent(const struct request *request) {
    const struct comm *comm = request->comm;
    struct event call = event_of(LOOKS_AT_SEND, request->context, comm->engine_position[request->peer], (uint32_t)request->tag);
    if (!before_look(call, (uint64_t)request->handle, state_of_sent(request) == ULFM_NOT_YET)) return ULFM_NOT_YET;
    uint32_t code = state_of_sent(request);
    if (um_footprints) um_end_sent(comm->members[request->peer], code, request->parcel);
    if (code != ULFM_NOT_YET) um_forget_looks(&um_players[um_me->number]);
    return code;
}

REAL(cancel);
uint32_t __wrap_ulfm_cancel(ulfm_slot *slot, uint64_t request, ulfm_status *status, uint8_t *body, size_t size) {
    if (um_is_played) before(event_of(CANCELS, 0, NOBODY, (uint32_t)request));
    uint32_t code = __real_ulfm_cancel(slot, request, status, body, size);
    if (um_footprints) um_end_look(request, code, status);
    return code;
}

REAL(iprobe);
uint32_t __wrap_ulfm_iprobe(ulfm_slot *slot, uint64_t comm, uint32_t source, uint32_t tag, ulfm_status *status) {
    if (!um_is_played) return __real_ulfm_iprobe(slot, comm, source, tag, status);
    bool is_vain = um_players[um_me->number].in_wait && __real_ulfm_iprobe(slot, comm, source, tag, status) == ULFM_NOT_YET;
    if (!before_look(event_of(PROBES, comm, source, tag), 0, is_vain)) return ULFM_NOT_YET;
    uint32_t code = __real_ulfm_iprobe(slot, comm, source, tag, status);
    if (um_footprints) um_end_probe(source, code, false);
    return code;
}

REAL(improbe);
uint32_t __wrap_ulfm_improbe(ulfm_slot *slot, uint64_t comm, uint32_t source, uint32_t tag, uint64_t *message, ulfm_status *status) {
    if (!um_is_played) return __real_ulfm_improbe(slot, comm, source, tag, message, status);
    bool is_vain = um_players[um_me->number].in_wait && __real_ulfm_iprobe(slot, comm, source, tag, status) == ULFM_NOT_YET;
    if (!before_look(event_of(PROBES, comm, source, tag), 1, is_vain)) return ULFM_NOT_YET;
    uint32_t code = __real_ulfm_improbe(slot, comm, source, tag, message, status);
    if (um_footprints) um_end_probe(source, code, true);
    if (code == ULFM_OK) um_forget_looks(&um_players[um_me->number]);
    return code;
}

REAL(revoke);
uint32_t __wrap_ulfm_revoke(ulfm_slot *slot, uint64_t comm) {
    um_go_beyond_messages();
    if (!um_is_played) return __real_ulfm_revoke(slot, comm);
    before(event_of(REVOKES, comm, NOBODY, ULFM_ANY));
    uint32_t code = __real_ulfm_revoke(slot, comm);
    if (um_footprints) um_end_revoke(code != ULFM_OK || um_is_known_revoked(um_me->number, um_number_of(comm)));
    if (code == ULFM_OK) um_note_revoked(um_me->number, um_number_of(comm));
    push(slot);
    return code;
}

REAL(is_revoked);
uint32_t __wrap_ulfm_is_revoked(ulfm_slot *slot, uint64_t comm, uint32_t *answer) {
    bool is_event =
        um_is_played && before_look(event_of(ASKS_REVOKED, comm, NOBODY, ULFM_ANY), 0, !um_is_known_revoked(um_me->number, um_number_of(comm)));
    uint32_t code = __real_ulfm_is_revoked(slot, comm, answer);
    if (um_is_played && um_players[um_me->number].looks_anew) *answer = 0;
    if (um_footprints && is_event) um_end_question(*answer);
    return code;
}

REAL(get_failed);
uint32_t __wrap_ulfm_get_failed(ulfm_slot *slot, uint64_t comm, ulfm_group *failed) {
    bool is_event = um_is_played && before_look(event_of(ASKS_FAILED, comm, NOBODY, ULFM_ANY), 0, true);
    uint32_t code = __real_ulfm_get_failed(slot, comm, failed);
    if (um_is_played && um_players[um_me->number].looks_anew) failed->size = 0;
    if (um_footprints && is_event) um_end_listed(failed);
    return code;
}

REAL(ack_failed);
uint32_t __wrap_ulfm_ack_failed(ulfm_slot *slot, uint64_t comm, uint32_t count, uint32_t *total) {
    bool is_event = um_is_played && before_look(event_of(ACKNOWLEDGES, comm, NOBODY, ULFM_ANY), count, false);
    uint32_t code = __real_ulfm_ack_failed(slot, comm, count, total);
    if (um_footprints && is_event) um_end_question(*total);
    return code;
}

static uint32_t duplicate(ulfm_slot *slot, uint64_t comm, uint64_t *made, __typeof__(ulfm_dup) *real) {
    bool is_event = um_is_played && um_me->life.has_begun; /* nothing comes before MPI_Init is over */
    if (is_event) before(event_of(DUPLICATES, comm, NOBODY, ULFM_ANY));
    uint32_t code = real(slot, comm, made);
    if (um_footprints && is_event) um_end_question(code);
    return code;
}

REAL(dup);
uint32_t __wrap_ulfm_dup(ulfm_slot *slot, uint64_t comm, uint64_t *made) { return duplicate(slot, comm, made, __real_ulfm_dup); }

REAL(dup_again);
uint32_t __wrap_ulfm_dup_again(ulfm_slot *slot, uint64_t comm, uint64_t *made) { return duplicate(slot, comm, made, __real_ulfm_dup_again); }

static uint32_t enter_shrink(ulfm_slot *slot, uint64_t comm, __typeof__(ulfm_enter_shrink) *real) {
    um_go_beyond_messages();
    if (!um_is_played) return real(slot, comm);
    before(event_of(ENTERS_SHRINK, comm, NOBODY, ULFM_ANY));
    uint32_t code = real(slot, comm);
    if (code == ULFM_OK) um_note_entry(um_me->number, um_number_of(comm), false, 0);
    if (um_footprints) um_end_entry(false, 0, code);
    push(slot);
    return code;
}

REAL(enter_shrink);
uint32_t __wrap_ulfm_enter_shrink(ulfm_slot *slot, uint64_t comm) { return enter_shrink(slot, comm, __real_ulfm_enter_shrink); }

REAL(enter_shrink_again);
uint32_t __wrap_ulfm_enter_shrink_again(ulfm_slot *slot, uint64_t comm) { return enter_shrink(slot, comm, __real_ulfm_enter_shrink_again); }

REAL(enter_agree);
uint32_t __wrap_ulfm_enter_agree(ulfm_slot *slot, uint64_t comm, uint32_t flag) {
    um_go_beyond_messages();
    if (!um_is_played) return __real_ulfm_enter_agree(slot, comm, flag);
    before(event_of(ENTERS_AGREE, comm, NOBODY, ULFM_ANY));
    uint32_t code = __real_ulfm_enter_agree(slot, comm, flag);
    if (code == ULFM_OK) um_note_entry(um_me->number, um_number_of(comm), true, flag);
    if (um_footprints) um_end_entry(true, flag, code);
    push(slot);
    return code;
}

REAL(poll_shrink);
uint32_t __wrap_ulfm_poll_shrink(ulfm_slot *slot, uint64_t comm, uint64_t *made) {
    if (!um_is_played) return __real_ulfm_poll_shrink(slot, comm, made);
    if (!before_look(event_of(POLLS_SHRINK, comm, NOBODY, ULFM_ANY), 0, !um_has_heard_all(um_me->number, um_number_of(comm), false)))
        return ULFM_NOT_YET;
    struct proposal own = um_proposal_of(um_me->number, um_number_of(comm), false);
    uint32_t code = __real_ulfm_poll_shrink(slot, comm, made);
    if (um_footprints) um_end_poll(false, &own, code);
    if (code == ULFM_OK) um_forget_looks(&um_players[um_me->number]);
    return code;
}

REAL(poll_agree);
uint32_t __wrap_ulfm_poll_agree(ulfm_slot *slot, uint64_t comm, uint32_t *value, ulfm_group *missing) {
    if (!um_is_played) return __real_ulfm_poll_agree(slot, comm, value, missing);
    if (!before_look(event_of(POLLS_AGREE, comm, NOBODY, ULFM_ANY), 0, !um_has_heard_all(um_me->number, um_number_of(comm), true)))
        return ULFM_NOT_YET;
    struct proposal own = um_proposal_of(um_me->number, um_number_of(comm), true);
    uint32_t code = __real_ulfm_poll_agree(slot, comm, value, missing);
    if (um_footprints) um_end_poll(true, &own, code == ULFM_OK ? *value ^ bits_of_group(missing) << 24 : code);
    if (code == ULFM_OK) um_forget_looks(&um_players[um_me->number]);
    return code;
}

REAL(stop);
uint32_t __wrap_ulfm_stop(ulfm_slot *slot) {
    um_go_beyond_messages();
    if (!um_is_played) return __real_ulfm_stop(slot);
    before(event_of(STOPS, 0, NOBODY, ULFM_ANY));
    uint32_t code = __real_ulfm_stop(slot);
    um_players[um_me->number].has_stopped = true;
    if (um_footprints) um_end_stop();
    push(slot);
    return code;
}
