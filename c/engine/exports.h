/* The proved exports of crates/ulfm_c, which ulfm.c calls where no pointer is null. A slice is a pointer and a length. */
#ifndef ULFM_EXPORTS_H
#define ULFM_EXPORTS_H

#include "ulfm.h"

/* The types of crates/ulfm_c that stand for these assert the same sizes. */
_Static_assert(sizeof(ulfm_slot) == 16, "a slot is a Handle");
_Static_assert(sizeof(ulfm_status) == 24, "a status is a CStatus");
_Static_assert(sizeof(ulfm_group) == 12, "a group is a CGroup");
_Static_assert(sizeof(ulfm_next_item) == 32, "an item is a CNextItem");
_Static_assert(sizeof(ulfm_outline) == 24, "an outline is a COutline");

uint32_t ulfm_c_world(ulfm_slot *slots, size_t ranks, uint8_t capacity);
uint32_t ulfm_c_end(ulfm_slot *slot);
uint32_t ulfm_c_stop(ulfm_slot *slot);
uint32_t ulfm_c_turn(ulfm_slot *slot, uint32_t *moved);
uint32_t ulfm_c_flushed(ulfm_slot *slot, uint32_t *flushed);
uint32_t ulfm_c_push(ulfm_slot *slot, uint32_t *moved);
uint32_t ulfm_c_take(ulfm_slot *slot, uint32_t source, uint32_t *took);
uint32_t ulfm_c_next(ulfm_slot *slot, uint32_t source, ulfm_next_item *item);
uint32_t ulfm_c_would(ulfm_slot *slot, uint64_t request, uint32_t *code);
uint32_t ulfm_c_may_matter(const ulfm_outline *first, const ulfm_outline *second);
uint32_t ulfm_c_me(ulfm_slot *slot, uint32_t *rank);
uint32_t ulfm_c_group_of(ulfm_slot *slot, uint64_t comm, ulfm_group *group);
uint32_t ulfm_c_position(ulfm_slot *slot, uint64_t comm, uint32_t *position);
uint32_t ulfm_c_dup(ulfm_slot *slot, uint64_t comm, uint64_t *made);
uint32_t ulfm_c_dup_again(ulfm_slot *slot, uint64_t comm, uint64_t *made);
uint32_t ulfm_c_isend(ulfm_slot *slot, uint64_t comm, uint32_t dest, uint32_t tag, const uint8_t *body, size_t length);
uint32_t ulfm_c_irecv(ulfm_slot *slot, uint64_t comm, uint32_t source, uint32_t tag, uint32_t room, uint64_t *request);
uint32_t ulfm_c_test(ulfm_slot *slot, uint64_t request, ulfm_status *status, uint8_t *body, size_t size);
uint32_t ulfm_c_cancel(ulfm_slot *slot, uint64_t request, ulfm_status *status, uint8_t *body, size_t size);
uint32_t ulfm_c_iprobe(ulfm_slot *slot, uint64_t comm, uint32_t source, uint32_t tag, ulfm_status *status);
uint32_t ulfm_c_improbe(ulfm_slot *slot, uint64_t comm, uint32_t source, uint32_t tag, uint64_t *message, ulfm_status *status);
uint32_t ulfm_c_mrecv(ulfm_slot *slot, uint64_t message, ulfm_status *status, uint8_t *body, size_t size);
uint32_t ulfm_c_revoke(ulfm_slot *slot, uint64_t comm);
uint32_t ulfm_c_is_revoked(ulfm_slot *slot, uint64_t comm, uint32_t *revoked);
uint32_t ulfm_c_get_failed(ulfm_slot *slot, uint64_t comm, ulfm_group *failed);
uint32_t ulfm_c_ack_failed(ulfm_slot *slot, uint64_t comm, uint32_t count, uint32_t *total);
uint32_t ulfm_c_enter_shrink(ulfm_slot *slot, uint64_t comm);
uint32_t ulfm_c_enter_shrink_again(ulfm_slot *slot, uint64_t comm);
uint32_t ulfm_c_poll_shrink(ulfm_slot *slot, uint64_t comm, uint64_t *made);
uint32_t ulfm_c_enter_agree(ulfm_slot *slot, uint64_t comm, uint32_t flag);
uint32_t ulfm_c_poll_agree(ulfm_slot *slot, uint64_t comm, uint32_t *value, ulfm_group *missing);

#endif
