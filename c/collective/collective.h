/* Collectives: what they are made of, those that block and those that are requests. Their messages go on a context of the communicator that no
   program sends on, each with the number of its collective. */
#ifndef UM_COLLECTIVE_H
#define UM_COLLECTIVE_H

#include "mpi/calls.h"

/* Where a collective writes the handle of its request. One that is wrong here has its number too. */
#define GIVES(comm, handle) \
    if (!(handle)) return um_fail(comm, um_refuse_collective(comm, MPI_ERR_ARG)); \
    *(handle) = MPI_REQUEST_NULL

/* The tags of collectives: of those that begin one after the other; from SINGLE on of those that have a number of their own, and of duplicates that don't
   block; from CREATION on of those who make a communicator by themselves. The last tag is of no collective (play/losses.c). */
enum { SINGLE = 16384, CREATION = 24576, CREATIONS = 8191 };

/* collect.c */
int um_begin_collective(struct comm *comm);
int um_refuse_collective(struct comm *comm, int code);
int um_collect_send(struct comm *comm, int to, const void *bytes, size_t length);
struct request *um_collect_post(struct comm *comm, int from, void *bytes, size_t room, struct landing *landing);
int um_collect_finish(struct request *request);
int um_collect_receive(struct comm *comm, int from, void *bytes, size_t room);
int um_gather_all(struct comm *comm, const void *in, size_t length, void *all);
int um_spread(struct comm *comm, void *bytes, size_t length, int root);
int um_check_broadcast(struct comm *comm, const void *buf, int count, MPI_Datatype type, int root, size_t *bytes);
int um_spread_verdict(struct comm *comm, int code, void *buffer, size_t length);
enum { VERDICT = 16 }; /* bytes before a result: what follows is aligned for each type */

/* nonblocking.c */
void um_look_at_collective(struct request *collective);
uint32_t um_awaited_by(const struct request *request);
int um_start_collective(struct comm *comm, struct request **made);
void um_send_bytes(struct request *collective, int to, const void *bytes, size_t length);
void um_post_bytes(struct request *collective, int from, void *bytes, size_t room, struct landing *landing);
void um_send_data(struct request *collective, int to, struct data data);
void um_post_data(struct request *collective, int from, struct data data);
int um_wait_for_collective(struct comm *comm, int code, struct request **made);
int um_give_collective(struct comm *comm, int code, struct request **made, MPI_Request *handle);

/* reduce.c, ireduce.c */
int um_end_reduction(struct reduction *reduction, int code);
void um_free_reduction(struct reduction *reduction);

#endif
