/* The calls of ulfm.h: each looks whether a pointer is null, and else calls the proved export of its name. */
#include "engine/exports.h"

/* Where a body of no bytes is read or written. */
static uint8_t nothing;

uint32_t ulfm_world(ulfm_slot *slots, size_t ranks, uint8_t capacity) {
    if (!slots) return ULFM_ENDED;
    /* No more slots are handed on than a world has: there may be none past them. */
    if (ranks > 8) return ULFM_BAD_SIZE;
    return ulfm_c_world(slots, ranks, capacity);
}

uint32_t ulfm_end(ulfm_slot *slot) {
    if (!slot) return ULFM_ENDED;
    return ulfm_c_end(slot);
}

uint32_t ulfm_stop(ulfm_slot *slot) {
    if (!slot) return ULFM_ENDED;
    return ulfm_c_stop(slot);
}

uint32_t ulfm_turn(ulfm_slot *slot, uint32_t *moved) {
    if (!slot || !moved) return ULFM_ENDED;
    return ulfm_c_turn(slot, moved);
}

uint32_t ulfm_flushed(ulfm_slot *slot, uint32_t *flushed) {
    if (!slot || !flushed) return ULFM_ENDED;
    return ulfm_c_flushed(slot, flushed);
}

uint32_t ulfm_push(ulfm_slot *slot, uint32_t *moved) {
    if (!slot || !moved) return ULFM_ENDED;
    return ulfm_c_push(slot, moved);
}

uint32_t ulfm_take(ulfm_slot *slot, uint32_t source, uint32_t *took) {
    if (!slot || !took) return ULFM_ENDED;
    return ulfm_c_take(slot, source, took);
}

uint32_t ulfm_next(ulfm_slot *slot, uint32_t source, ulfm_next_item *item) {
    if (!slot || !item) return ULFM_ENDED;
    return ulfm_c_next(slot, source, item);
}

uint32_t ulfm_would(ulfm_slot *slot, uint64_t request, uint32_t *code) {
    if (!slot || !code) return ULFM_ENDED;
    return ulfm_c_would(slot, request, code);
}

uint32_t ulfm_may_matter(const ulfm_outline *first, const ulfm_outline *second) {
    if (!first || !second) return 1;
    return ulfm_c_may_matter(first, second);
}

uint32_t ulfm_me(ulfm_slot *slot, uint32_t *rank) {
    if (!slot || !rank) return ULFM_ENDED;
    return ulfm_c_me(slot, rank);
}

uint32_t ulfm_group_of(ulfm_slot *slot, uint64_t comm, ulfm_group *group) {
    if (!slot || !group) return ULFM_ENDED;
    return ulfm_c_group_of(slot, comm, group);
}

uint32_t ulfm_position(ulfm_slot *slot, uint64_t comm, uint32_t *position) {
    if (!slot || !position) return ULFM_ENDED;
    return ulfm_c_position(slot, comm, position);
}

uint32_t ulfm_dup(ulfm_slot *slot, uint64_t comm, uint64_t *made) {
    if (!slot || !made) return ULFM_ENDED;
    return ulfm_c_dup(slot, comm, made);
}

uint32_t ulfm_dup_again(ulfm_slot *slot, uint64_t comm, uint64_t *made) {
    if (!slot || !made) return ULFM_ENDED;
    return ulfm_c_dup_again(slot, comm, made);
}

uint32_t ulfm_isend(ulfm_slot *slot, uint64_t comm, uint32_t dest, uint32_t tag, const uint8_t *body, size_t length) {
    if (!slot || (!body && length)) return ULFM_ENDED;
    return ulfm_c_isend(slot, comm, dest, tag, body ? body : &nothing, length);
}

uint32_t ulfm_irecv(ulfm_slot *slot, uint64_t comm, uint32_t source, uint32_t tag, uint32_t room, uint64_t *request) {
    if (!slot || !request) return ULFM_ENDED;
    return ulfm_c_irecv(slot, comm, source, tag, room, request);
}

uint32_t ulfm_test(ulfm_slot *slot, uint64_t request, ulfm_status *status, uint8_t *body, size_t size) {
    if (!slot || !status || (!body && size)) return ULFM_ENDED;
    return ulfm_c_test(slot, request, status, body ? body : &nothing, size);
}

uint32_t ulfm_cancel(ulfm_slot *slot, uint64_t request, ulfm_status *status, uint8_t *body, size_t size) {
    if (!slot || !status || (!body && size)) return ULFM_ENDED;
    return ulfm_c_cancel(slot, request, status, body ? body : &nothing, size);
}

uint32_t ulfm_iprobe(ulfm_slot *slot, uint64_t comm, uint32_t source, uint32_t tag, ulfm_status *status) {
    if (!slot || !status) return ULFM_ENDED;
    return ulfm_c_iprobe(slot, comm, source, tag, status);
}

uint32_t ulfm_improbe(ulfm_slot *slot, uint64_t comm, uint32_t source, uint32_t tag, uint64_t *message, ulfm_status *status) {
    if (!slot || !message || !status) return ULFM_ENDED;
    return ulfm_c_improbe(slot, comm, source, tag, message, status);
}

uint32_t ulfm_mrecv(ulfm_slot *slot, uint64_t message, ulfm_status *status, uint8_t *body, size_t size) {
    if (!slot || !status || (!body && size)) return ULFM_ENDED;
    return ulfm_c_mrecv(slot, message, status, body ? body : &nothing, size);
}

uint32_t ulfm_revoke(ulfm_slot *slot, uint64_t comm) {
    if (!slot) return ULFM_ENDED;
    return ulfm_c_revoke(slot, comm);
}

uint32_t ulfm_is_revoked(ulfm_slot *slot, uint64_t comm, uint32_t *revoked) {
    if (!slot || !revoked) return ULFM_ENDED;
    return ulfm_c_is_revoked(slot, comm, revoked);
}

uint32_t ulfm_get_failed(ulfm_slot *slot, uint64_t comm, ulfm_group *failed) {
    if (!slot || !failed) return ULFM_ENDED;
    return ulfm_c_get_failed(slot, comm, failed);
}

uint32_t ulfm_ack_failed(ulfm_slot *slot, uint64_t comm, uint32_t count, uint32_t *total) {
    if (!slot || !total) return ULFM_ENDED;
    return ulfm_c_ack_failed(slot, comm, count, total);
}

uint32_t ulfm_enter_shrink(ulfm_slot *slot, uint64_t comm) {
    if (!slot) return ULFM_ENDED;
    return ulfm_c_enter_shrink(slot, comm);
}

uint32_t ulfm_enter_shrink_again(ulfm_slot *slot, uint64_t comm) {
    if (!slot) return ULFM_ENDED;
    return ulfm_c_enter_shrink_again(slot, comm);
}

uint32_t ulfm_poll_shrink(ulfm_slot *slot, uint64_t comm, uint64_t *made) {
    if (!slot || !made) return ULFM_ENDED;
    return ulfm_c_poll_shrink(slot, comm, made);
}

uint32_t ulfm_enter_agree(ulfm_slot *slot, uint64_t comm, uint32_t flag) {
    if (!slot) return ULFM_ENDED;
    return ulfm_c_enter_agree(slot, comm, flag);
}

uint32_t ulfm_poll_agree(ulfm_slot *slot, uint64_t comm, uint32_t *value, ulfm_group *missing) {
    if (!slot || !value || !missing) return ULFM_ENDED;
    return ulfm_c_poll_agree(slot, comm, value, missing);
}
