/* Collectives that gather (MPI 4.0, 6.5, 6.7, 6.12.3, 6.12.5): each sends its data to the root, or to all others. */
#include "collective/collective.h"
#include "collective/layout.h"
#include <stdlib.h>
#include <string.h>

/* Why the data that a rank sends or gets can't be, or MPI_SUCCESS. */
int um_check_own(struct data own, bool may_be_in_place) {
    size_t bytes;
    int code;
    if (may_be_in_place && own.at == MPI_IN_PLACE) return MPI_SUCCESS;
    if (!um_check_buffer(own.count, own.type, &bytes, &code)) return code;
    return um_is_buffer(own.at, bytes, own.type) ? MPI_SUCCESS : MPI_ERR_BUFFER;
}

/* Copies data that stay at this rank. An error is told where the request ends. */
void um_copy_own(struct request *collective, struct data from, struct data to) {
    const void *data;
    void *packed;
    size_t bytes = 0, room = 0;
    int code;
    if (from.at == MPI_IN_PLACE || to.at == MPI_IN_PLACE || (from.count == 0 && to.count == 0)) return;
    um_check_buffer(from.count, from.type, &bytes, &code);
    um_check_buffer(to.count, to.type, &room, &code);
    code = um_pack_data(from.at, from.count, from.type, &data, &packed);
    size_t length = bytes < room ? bytes : room;
    if (code == MPI_SUCCESS && length && um_is_plain_type(to.type)) memmove(um_into(to), data, length);
    else if (code == MPI_SUCCESS) um_unpack_data(data, length, um_into(to), to.count, to.type);
    if (code == MPI_SUCCESS && bytes > room) code = MPI_ERR_TRUNCATE;
    if (collective->code == MPI_SUCCESS) collective->code = code;
    free(packed);
}

static int begin_gather(struct data own, const struct layout *to, int root, struct comm *comm, struct request **made) {
    if (!comm) return MPI_ERR_COMM;
    bool is_root = comm->position == root;
    int code = root < 0 || root >= comm->size ? MPI_ERR_ROOT : um_check_own(own, is_root);
    if (code == MPI_SUCCESS && is_root) code = um_check_layout(to, comm);
    if (code != MPI_SUCCESS) return um_refuse_collective(comm, code);
    code = um_start_collective(comm, made);
    if (code != MPI_SUCCESS || (*made)->over) return code;
    if (!is_root) um_send_data(*made, root, own);
    else um_copy_own(*made, own, um_part_at(to, root));
    for (int k = 0; k < comm->size && is_root; k++) um_post_data(*made, k, um_part_at(to, k));
    return MPI_SUCCESS;
}

int MPI_Gather(const void *sendbuf, int sendcount, MPI_Datatype sendtype, void *recvbuf, int recvcount, MPI_Datatype recvtype, int root,
               MPI_Comm comm) {
    struct comm *of = um_comm_at(comm);
    struct request *made;
    struct layout to = {.at = recvbuf, .count = recvcount, .type = recvtype};
    ENTER(of, MPI_UNDEFINED, MPI_UNDEFINED);
    return um_wait_for_collective(of, begin_gather((struct data){sendbuf, sendcount, sendtype}, &to, root, of, &made), &made);
}

int MPI_Igather(const void *sendbuf, int sendcount, MPI_Datatype sendtype, void *recvbuf, int recvcount, MPI_Datatype recvtype, int root,
                MPI_Comm comm, MPI_Request *handle) {
    struct comm *of = um_comm_at(comm);
    struct request *made;
    struct layout to = {.at = recvbuf, .count = recvcount, .type = recvtype};
    ENTER(of, MPI_UNDEFINED, MPI_UNDEFINED);
    GIVES(of, handle);
    return um_give_collective(of, begin_gather((struct data){sendbuf, sendcount, sendtype}, &to, root, of, &made), &made, handle);
}

int MPI_Gatherv(const void *sendbuf, int sendcount, MPI_Datatype sendtype, void *recvbuf, const int recvcounts[], const int displs[],
                MPI_Datatype recvtype, int root, MPI_Comm comm) {
    struct comm *of = um_comm_at(comm);
    struct request *made;
    struct layout to = {.at = recvbuf, .has_counts = true, .counts = recvcounts, .displs = displs, .type = recvtype};
    ENTER(of, MPI_UNDEFINED, MPI_UNDEFINED);
    return um_wait_for_collective(of, begin_gather((struct data){sendbuf, sendcount, sendtype}, &to, root, of, &made), &made);
}

int MPI_Igatherv(const void *sendbuf, int sendcount, MPI_Datatype sendtype, void *recvbuf, const int recvcounts[], const int displs[],
                 MPI_Datatype recvtype, int root, MPI_Comm comm, MPI_Request *handle) {
    struct comm *of = um_comm_at(comm);
    struct request *made;
    struct layout to = {.at = recvbuf, .has_counts = true, .counts = recvcounts, .displs = displs, .type = recvtype};
    ENTER(of, MPI_UNDEFINED, MPI_UNDEFINED);
    GIVES(of, handle);
    return um_give_collective(of, begin_gather((struct data){sendbuf, sendcount, sendtype}, &to, root, of, &made), &made, handle);
}

static int begin_allgather(struct data own, const struct layout *to, struct comm *comm, struct request **made) {
    if (!comm) return MPI_ERR_COMM;
    int code = um_check_own(own, true), at = comm->position;
    if (code == MPI_SUCCESS) code = um_check_layout(to, comm);
    if (code != MPI_SUCCESS) return um_refuse_collective(comm, code);
    code = um_start_collective(comm, made);
    if (code != MPI_SUCCESS || (*made)->over) return code;
    um_copy_own(*made, own, um_part_at(to, at));
    um_send_data(*made, MPI_UNDEFINED, own.at == MPI_IN_PLACE ? um_part_at(to, at) : own);
    for (int k = 0; k < comm->size; k++) um_post_data(*made, k, um_part_at(to, k));
    return MPI_SUCCESS;
}

int MPI_Allgather(const void *sendbuf, int sendcount, MPI_Datatype sendtype, void *recvbuf, int recvcount, MPI_Datatype recvtype, MPI_Comm comm) {
    struct comm *of = um_comm_at(comm);
    struct request *made;
    struct layout to = {.at = recvbuf, .count = recvcount, .type = recvtype};
    ENTER(of, MPI_UNDEFINED, MPI_UNDEFINED);
    return um_wait_for_collective(of, begin_allgather((struct data){sendbuf, sendcount, sendtype}, &to, of, &made), &made);
}

int MPI_Iallgather(const void *sendbuf, int sendcount, MPI_Datatype sendtype, void *recvbuf, int recvcount, MPI_Datatype recvtype, MPI_Comm comm,
                   MPI_Request *handle) {
    struct comm *of = um_comm_at(comm);
    struct request *made;
    struct layout to = {.at = recvbuf, .count = recvcount, .type = recvtype};
    ENTER(of, MPI_UNDEFINED, MPI_UNDEFINED);
    GIVES(of, handle);
    return um_give_collective(of, begin_allgather((struct data){sendbuf, sendcount, sendtype}, &to, of, &made), &made, handle);
}

int MPI_Allgatherv(const void *sendbuf, int sendcount, MPI_Datatype sendtype, void *recvbuf, const int recvcounts[], const int displs[],
                   MPI_Datatype recvtype, MPI_Comm comm) {
    struct comm *of = um_comm_at(comm);
    struct request *made;
    struct layout to = {.at = recvbuf, .has_counts = true, .counts = recvcounts, .displs = displs, .type = recvtype};
    ENTER(of, MPI_UNDEFINED, MPI_UNDEFINED);
    return um_wait_for_collective(of, begin_allgather((struct data){sendbuf, sendcount, sendtype}, &to, of, &made), &made);
}

int MPI_Iallgatherv(const void *sendbuf, int sendcount, MPI_Datatype sendtype, void *recvbuf, const int recvcounts[], const int displs[],
                    MPI_Datatype recvtype, MPI_Comm comm, MPI_Request *handle) {
    struct comm *of = um_comm_at(comm);
    struct request *made;
    struct layout to = {.at = recvbuf, .has_counts = true, .counts = recvcounts, .displs = displs, .type = recvtype};
    ENTER(of, MPI_UNDEFINED, MPI_UNDEFINED);
    GIVES(of, handle);
    return um_give_collective(of, begin_allgather((struct data){sendbuf, sendcount, sendtype}, &to, of, &made), &made, handle);
}
