/* Recovery from failures (ULFM): revocations, shrinks, agreements, and what a program asks of failures. Those that don't block are requests, which wait as
   all others do. */
#ifndef UM_RECOVERY_H
#define UM_RECOVERY_H

#include "progress/rank.h"

/* agree.c */
int um_new_recovery(struct comm *comm, void (*look)(struct request *), size_t bytes, struct request **made);
int um_give_recovery(struct comm *comm, int code, struct request *request, MPI_Request *handle);
void um_look_at_recoveries(void);
uint32_t um_missing_from_agreement(const struct request *request);

#endif
