/* The calls of MPI: how one begins and returns, and the objects that handles stand for: requests, communicators, groups, errors, attributes, topologies.
   Datatypes, collectives and windows have folders of their own. */
#ifndef UM_CALLS_H
#define UM_CALLS_H

#include "types/types.h"

/* An older name of a call. A report has the newer one. */
#define ALSO(name, of) extern __typeof__(of) name __attribute__((alias(#of)))

/* Begins a call that a program makes: `counts` where it begins something or waits. */
void um_enter_call(const char *call, const void *from, struct comm *comm, int peer, int tag, bool counts);
#define ENTER(comm, peer, tag) um_enter_call(__func__, __builtin_return_address(0), comm, peer, tag, true)
#define ENTER_LOOK(comm, peer, tag) um_enter_call(__func__, __builtin_return_address(0), comm, peer, tag, false)

/* A null pointer where a call writes what it answers: MPI_ERR_ARG. */
#define WRITES(comm, pointer) \
    if (!(pointer)) return um_fail(comm, MPI_ERR_ARG)

/* request.c */
struct request *um_new_request(enum kind kind, struct comm *comm, int peer, int tag);
static inline struct request *um_request_at(MPI_Request handle) {
    uintptr_t number = (uintptr_t)handle;
    return number && number <= (uintptr_t)um_me->mpi.request_count ? um_me->mpi.requests[number - 1] : 0;
}
/* What a handle stands for now: of a persistent request what it started; null where there is nothing to wait for. */
static inline struct request *um_active_at(MPI_Request handle) {
    struct request *request = um_request_at(handle);
    return request && request->kind == PERSISTENT ? request->active : request;
}
void um_free_request(struct request *request);
void um_end_request(struct request *request, int code);
void um_start_receive(struct request *request, void *buffer, size_t room);
int um_send_now(struct comm *comm, int peer, int tag, const void *buffer, size_t length, struct parcel **parcel);
void um_start_send(struct request *request, const void *buffer, size_t length, bool is_synchronous);
int um_look_at(struct request *request);
int um_wait_for(struct request *request);
void um_look_at_all(void);
void um_withdraw(struct request *request);
void um_tell_status(MPI_Status *status, const MPI_Status *told);
extern const MPI_Status um_empty_status;
void um_clear_requests(void);

/* cart.c, part.c */
struct cart *um_copy_cart(const struct cart *cart);
int um_split_comm(struct comm *of, int color, int key, MPI_Comm *made);

/* chain.c, comm.c, dup.c, group.c */
/* The communicator of a handle, or null: it isn't one, or not yet. */
static inline struct comm *um_comm_at(MPI_Comm handle) {
    uintptr_t number = (uintptr_t)handle;
    return um_me && number && number <= (uintptr_t)um_me->mpi.comm_count ? um_me->mpi.comms[number - 1] : 0;
}
int um_position_at(const struct comm *comm, uint32_t place);
bool um_fill_comm(struct comm *comm, const struct group *group);
void um_group_of(const struct comm *comm, struct group *group);
int um_agree_on_plane(struct comm *team, int *plane, struct terms *terms);
int um_make_on_plane(struct comm *of, int plane, const struct group *group, const struct terms *terms, MPI_Comm *made);
int um_make_another(struct comm *of, MPI_Comm *made);
void um_free_commons(void);
MPI_Comm um_handle_of(const struct comm *comm);
struct comm *um_new_comm(struct chain *chain, int plane, MPI_Errhandler handler, const struct group *group);
struct chain *um_new_chain(uint64_t context);
bool um_make_world(void);
void um_free_comm(struct comm *comm);
void um_clear_comms(void);
struct group *um_group_at(MPI_Group handle);
int um_position_in(const struct group *group, int member);
int um_compare_groups(const struct group *a, const struct group *b);
int um_make_group(const uint8_t *members, int size, MPI_Group *made);
void um_clear_groups(void);

/* op.c */
int um_fold(const void *in, void *into, int count, MPI_Datatype type, MPI_Op op);
bool um_is_op(MPI_Op op);
bool um_is_basic_op(MPI_Op op);
int um_check_op(MPI_Op op, MPI_Datatype type);
MPI_Op um_keep_op(MPI_Op op);
void um_drop_op(MPI_Op op);
void um_clear_ops(void);

/* error.c */
bool um_is_handler(MPI_Errhandler handler);
int um_succeed(void);
int um_fail(struct comm *comm, int code);
int um_answer(struct comm *comm, int code);
int um_answer_several(struct comm *comm, int code);
void um_clear_handlers(void);

/* added.c */
const char *um_text_of_added(int code);
int *um_last_used_code(void);
void um_clear_added(void);

/* point.c, persistent.c */
/* What a send or a receive is told: the data, and to or from whom they go. */
struct transfer {
    struct data data;
    int peer, tag;
    struct comm *comm;
};
int um_check_transfer(const struct transfer *of, bool is_receive);
int um_begin_send(const struct transfer *send, bool waits, struct request **made);
int um_begin_receive(const struct transfer *receive, struct request **made);
int um_begin_both(const struct transfer *send, const struct transfer *receive, struct request **sent, struct request **received);
int um_copy_to_send(struct transfer *send);
int um_send_buffered(const struct transfer *send);
int um_receive_soon(const struct transfer *of, size_t room, MPI_Status *status, struct request **waiting);
void um_free_start(struct start *start);

/* attribute.c */
int um_copy_attributes(struct comm *from, struct comm *to);
int um_delete_attributes(struct comm *comm);
void um_free_attributes(struct attribute *first);
void um_clear_keyvals(void);

/* exchange.c */
int um_look_at_exchange(struct request *exchange);

/* idup.c */
bool um_is_copying(uint64_t name);
uint32_t um_missing_from_copy(const struct request *request);
void um_free_copy(struct request *request);

/* info.c */
bool um_is_info(MPI_Info handle);
void um_clear_infos(void);

/* probe.c */
bool um_has_messages(void);
void um_clear_messages(void);

#endif
