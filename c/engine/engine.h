/* The door of the proved engine: its calls with looks at null pointers, what its answers mean in MPI, and the messages that stand beside its bodies. What a
   body holds stands in body.h. */
#ifndef UM_ENGINE_H
#define UM_ENGINE_H

#include "progress/rank.h"

/* parcel.c */
struct parcel *um_new_parcel(const struct parcel *like);
void um_let_go(struct parcel *parcel);
void um_free_parcels(void);
void um_fill_parcel(struct parcel *parcel);
void um_empty_parcel(struct parcel *parcel, void *buffer, size_t length);
size_t um_length_of_first(uint64_t context, int from, int tag);
struct parcel *um_parcel_that_comes(int to, int from, uint64_t context, int tag);
struct parcel *um_first_parcel(int from, uint64_t context, int tag);

/* answer.c */
int um_class_of(uint32_t code);
bool um_is_revoked(const struct comm *comm);
bool um_is_failed(const struct comm *comm, int position);
int um_failed_of(const struct comm *comm, ulfm_group *failed);
bool um_has_unacknowledged(const struct comm *comm);

#endif
