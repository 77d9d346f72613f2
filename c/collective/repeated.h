/* What a collective is that is started as often as wanted. */
#ifndef UM_REPEATED_H
#define UM_REPEATED_H

#include "types/types.h"

/* The arguments of a collective, those that it has, by the names of its parameters. */
struct repeated {
    int (*begin)(const struct repeated *of, MPI_Comm comm, MPI_Request *request);
    unsigned number;
    const void *sendbuf;
    void *buf, *recvbuf;
    MPI_Count count, sendcount, recvcount;
    const void *counts, *sendcounts, *recvcounts, *displs, *sdispls, *rdispls; /* lists as the call has them */
    MPI_Datatype type, sendtype, recvtype, kept[3];
    const MPI_Datatype *sendtypes, *recvtypes;
    MPI_Op op;
    int root;
};

void um_free_repeated(struct repeated *of);
int um_init_repeated(const struct repeated *like, MPI_Comm comm, MPI_Info info, MPI_Request *handle);
int um_start_repeated(const struct repeated *of, struct comm *comm, struct request **active);

#endif
