/* Collectives that scatter (MPI 4.0, 6.6, 6.8, 6.12.4, 6.12.6): the root sends each its part, or each sends each its part. */
#include "collective/collective.h"
#include "collective/layout.h"

static int begin_scatter(const struct layout *from, struct data own, int root, struct comm *comm, struct request **made) {
    if (!comm) return MPI_ERR_COMM;
    bool is_root = comm->position == root;
    int code = root < 0 || root >= comm->size ? MPI_ERR_ROOT : um_check_own(own, is_root);
    if (code == MPI_SUCCESS && is_root) code = um_check_layout(from, comm);
    if (code != MPI_SUCCESS) return um_refuse_collective(comm, code);
    code = um_start_collective(comm, made);
    if (code != MPI_SUCCESS || (*made)->over) return code;
    if (is_root) um_copy_own(*made, um_part_at(from, root), own);
    else um_post_data(*made, root, own);
    for (int k = 0; k < comm->size && is_root; k++) um_send_data(*made, k, um_part_at(from, k));
    return MPI_SUCCESS;
}

int MPI_Scatter(const void *sendbuf, int sendcount, MPI_Datatype sendtype, void *recvbuf, int recvcount, MPI_Datatype recvtype, int root,
                MPI_Comm comm) {
    struct comm *of = um_comm_at(comm);
    struct request *made;
    struct layout from = {.at = (char *)(uintptr_t)sendbuf, .count = sendcount, .type = sendtype};
    ENTER(of, MPI_UNDEFINED, MPI_UNDEFINED);
    return um_wait_for_collective(of, begin_scatter(&from, (struct data){recvbuf, recvcount, recvtype}, root, of, &made), &made);
}

int MPI_Iscatter(const void *sendbuf, int sendcount, MPI_Datatype sendtype, void *recvbuf, int recvcount, MPI_Datatype recvtype, int root,
                 MPI_Comm comm, MPI_Request *handle) {
    struct comm *of = um_comm_at(comm);
    struct request *made;
    struct layout from = {.at = (char *)(uintptr_t)sendbuf, .count = sendcount, .type = sendtype};
    ENTER(of, MPI_UNDEFINED, MPI_UNDEFINED);
    GIVES(of, handle);
    return um_give_collective(of, begin_scatter(&from, (struct data){recvbuf, recvcount, recvtype}, root, of, &made), &made, handle);
}

int MPI_Scatterv(const void *sendbuf, const int sendcounts[], const int displs[], MPI_Datatype sendtype, void *recvbuf, int recvcount,
                 MPI_Datatype recvtype, int root, MPI_Comm comm) {
    struct comm *of = um_comm_at(comm);
    struct request *made;
    struct layout from = {.at = (char *)(uintptr_t)sendbuf, .has_counts = true, .counts = sendcounts, .displs = displs, .type = sendtype};
    ENTER(of, MPI_UNDEFINED, MPI_UNDEFINED);
    return um_wait_for_collective(of, begin_scatter(&from, (struct data){recvbuf, recvcount, recvtype}, root, of, &made), &made);
}

int MPI_Iscatterv(const void *sendbuf, const int sendcounts[], const int displs[], MPI_Datatype sendtype, void *recvbuf, int recvcount,
                  MPI_Datatype recvtype, int root, MPI_Comm comm, MPI_Request *handle) {
    struct comm *of = um_comm_at(comm);
    struct request *made;
    struct layout from = {.at = (char *)(uintptr_t)sendbuf, .has_counts = true, .counts = sendcounts, .displs = displs, .type = sendtype};
    ENTER(of, MPI_UNDEFINED, MPI_UNDEFINED);
    GIVES(of, handle);
    return um_give_collective(of, begin_scatter(&from, (struct data){recvbuf, recvcount, recvtype}, root, of, &made), &made, handle);
}

/* What goes out is sent before a receive is posted, which in place would write over it. */
static int begin_alltoall(const struct layout *from, const struct layout *to, struct comm *comm, struct request **made) {
    bool is_in_place = from->at == MPI_IN_PLACE;
    if (!comm) return MPI_ERR_COMM;
    int code = um_check_layout(to, comm), at = comm->position;
    if (code == MPI_SUCCESS && !is_in_place) code = um_check_layout(from, comm);
    if (code != MPI_SUCCESS) return um_refuse_collective(comm, code);
    code = um_start_collective(comm, made);
    if (code != MPI_SUCCESS || (*made)->over) return code;
    if (is_in_place) from = to;
    else um_copy_own(*made, um_part_at(from, at), um_part_at(to, at));
    for (int k = 0; k < comm->size; k++) um_send_data(*made, k, um_part_at(from, k));
    for (int k = 0; k < comm->size; k++) um_post_data(*made, k, um_part_at(to, k));
    return MPI_SUCCESS;
}

int MPI_Alltoall(const void *sendbuf, int sendcount, MPI_Datatype sendtype, void *recvbuf, int recvcount, MPI_Datatype recvtype, MPI_Comm comm) {
    struct comm *of = um_comm_at(comm);
    struct request *made;
    struct layout from = {.at = (char *)(uintptr_t)sendbuf, .count = sendcount, .type = sendtype};
    struct layout to = {.at = recvbuf, .count = recvcount, .type = recvtype};
    ENTER(of, MPI_UNDEFINED, MPI_UNDEFINED);
    return um_wait_for_collective(of, begin_alltoall(&from, &to, of, &made), &made);
}

int MPI_Ialltoall(const void *sendbuf, int sendcount, MPI_Datatype sendtype, void *recvbuf, int recvcount, MPI_Datatype recvtype, MPI_Comm comm,
                  MPI_Request *handle) {
    struct comm *of = um_comm_at(comm);
    struct request *made;
    struct layout from = {.at = (char *)(uintptr_t)sendbuf, .count = sendcount, .type = sendtype};
    struct layout to = {.at = recvbuf, .count = recvcount, .type = recvtype};
    ENTER(of, MPI_UNDEFINED, MPI_UNDEFINED);
    GIVES(of, handle);
    return um_give_collective(of, begin_alltoall(&from, &to, of, &made), &made, handle);
}

int MPI_Alltoallv(const void *sendbuf, const int sendcounts[], const int sdispls[], MPI_Datatype sendtype, void *recvbuf, const int recvcounts[],
                  const int rdispls[], MPI_Datatype recvtype, MPI_Comm comm) {
    struct comm *of = um_comm_at(comm);
    struct request *made;
    struct layout from = {.at = (char *)(uintptr_t)sendbuf, .has_counts = true, .counts = sendcounts, .displs = sdispls, .type = sendtype};
    struct layout to = {.at = recvbuf, .has_counts = true, .counts = recvcounts, .displs = rdispls, .type = recvtype};
    ENTER(of, MPI_UNDEFINED, MPI_UNDEFINED);
    return um_wait_for_collective(of, begin_alltoall(&from, &to, of, &made), &made);
}

int MPI_Ialltoallv(const void *sendbuf, const int sendcounts[], const int sdispls[], MPI_Datatype sendtype, void *recvbuf, const int recvcounts[],
                   const int rdispls[], MPI_Datatype recvtype, MPI_Comm comm, MPI_Request *handle) {
    struct comm *of = um_comm_at(comm);
    struct request *made;
    struct layout from = {.at = (char *)(uintptr_t)sendbuf, .has_counts = true, .counts = sendcounts, .displs = sdispls, .type = sendtype};
    struct layout to = {.at = recvbuf, .has_counts = true, .counts = recvcounts, .displs = rdispls, .type = recvtype};
    ENTER(of, MPI_UNDEFINED, MPI_UNDEFINED);
    GIVES(of, handle);
    return um_give_collective(of, begin_alltoall(&from, &to, of, &made), &made, handle);
}

int MPI_Alltoallw(const void *sendbuf, const int sendcounts[], const int sdispls[], const MPI_Datatype sendtypes[], void *recvbuf,
                  const int recvcounts[], const int rdispls[], const MPI_Datatype recvtypes[], MPI_Comm comm) {
    struct comm *of = um_comm_at(comm);
    struct request *made;
    struct layout from = {(char *)(uintptr_t)sendbuf, 0, true, true, sendcounts, sdispls, MPI_DATATYPE_NULL, sendtypes};
    struct layout to = {recvbuf, 0, true, true, recvcounts, rdispls, MPI_DATATYPE_NULL, recvtypes};
    ENTER(of, MPI_UNDEFINED, MPI_UNDEFINED);
    return um_wait_for_collective(of, begin_alltoall(&from, &to, of, &made), &made);
}

int MPI_Ialltoallw(const void *sendbuf, const int sendcounts[], const int sdispls[], const MPI_Datatype sendtypes[], void *recvbuf,
                   const int recvcounts[], const int rdispls[], const MPI_Datatype recvtypes[], MPI_Comm comm, MPI_Request *handle) {
    struct comm *of = um_comm_at(comm);
    struct request *made;
    struct layout from = {(char *)(uintptr_t)sendbuf, 0, true, true, sendcounts, sdispls, MPI_DATATYPE_NULL, sendtypes};
    struct layout to = {recvbuf, 0, true, true, recvcounts, rdispls, MPI_DATATYPE_NULL, recvtypes};
    ENTER(of, MPI_UNDEFINED, MPI_UNDEFINED);
    GIVES(of, handle);
    return um_give_collective(of, begin_alltoall(&from, &to, of, &made), &made, handle);
}
