/* Duplicates that don't block (MPI 4.0, 7.4.2). Each member tells position 0 what it wishes, in the call that begins one, and position 0 tells all what came
   of it. Where the plane was used before, each hears from each other one, takes away what is left on it, and tells position 0. As many as wanted may be
   made at the same time, in another order at each member: their messages have the number that the duplicate has among the collectives of its parent. */
#include "collective/collective.h"
#include "mpi/dup.h"
#include "mpi/graph.h"
#include "recovery/recovery.h"
#include "search/search.h"
#include <stdlib.h>

/* What position 0 tells. */
struct told {
    int code;
    struct decided decided;
};

/* A duplicate that is being made. */
struct copy {
    MPI_Comm *made;
    uint64_t name;
    unsigned number;       /* of its messages, as of a collective that is started */
    int code;              /* of the copy functions of attributes */
    struct comm like;      /* what the program gave the old one, when the call was made */
    struct request *round; /* what it waits for now */
    int rounds;            /* that were begun: two more where the plane has to be emptied */
    bool is_looked_at;     /* what it does makes progress, and so looks at it once more */
    struct wish all[MAX_RANKS];
    unsigned begun[MAX_RANKS]; /* of the plane, where it was used before */
    int codes[MAX_RANKS];      /* of the round in which they told that */
    struct told told;
};

/* Tells position 0 its part of what all tell, of so many bytes, and posts what that one tells of it; there posts what each other one tells. */
static int begin_round(struct comm *of, struct copy *copy, void *all, size_t length) {
    unsigned before = of->repeats; /* progress in a collective that is started leads here too */
    of->repeats = copy->number;
    copy->rounds++;
    int code = um_start_collective(of, &copy->round);
    bool is_open = code == MPI_SUCCESS && !copy->round->over;
    if (is_open && of->position) {
        um_send_bytes(copy->round, 0, (char *)all + length * (size_t)of->position, length);
        um_post_bytes(copy->round, 0, &copy->told, sizeof copy->told, 0);
    }
    for (int k = 1; is_open && !of->position && k < of->size; k++) um_post_bytes(copy->round, k, (char *)all + length * (size_t)k, length, 0);
    of->repeats = before;
    return code;
}

/* Tells each other member how many collectives began on the plane: so all that this rank sent there before comes too. */
static int begin_second_round(struct comm *of, struct copy *copy) {
    unsigned before = of->repeats;
    unsigned *own = &copy->begun[of->position];
    *own = um_begun_on(of->chain, copy->told.decided.plane);
    of->repeats = copy->number;
    copy->rounds++;
    int code = um_start_collective(of, &copy->round);
    bool is_open = code == MPI_SUCCESS && !copy->round->over;
    for (int k = 0; k < of->size && is_open; k++) um_send_bytes(copy->round, k, own, sizeof *own);
    for (int k = 0; k < of->size && is_open; k++) um_post_bytes(copy->round, k, &copy->begun[k], sizeof *own, 0);
    of->repeats = before;
    return code;
}

/* Takes away what is left on the plane, and tells position 0 what came of the second round. */
static int end_second_round(struct comm *of, struct copy *copy) {
    copy->codes[of->position] = copy->round->code;
    um_free_request(copy->round);
    copy->round = 0;
    um_drop_messages(of->chain, copy->told.decided.plane);
    return begin_round(of, copy, copy->codes, sizeof *copy->codes);
}

/* Position 0 tells the others what came of a round, also of one that failed: else they would wait for it. */
static void tell(struct comm *of, struct copy *copy) {
    unsigned before = of->repeats;
    of->repeats = copy->number;
    for (int k = 1; k < of->size; k++) (void)um_collect_send(of, k, &copy->told, sizeof copy->told);
    of->repeats = before;
}

/* What came of a round that is over. */
static int end_round(struct comm *of, struct copy *copy) {
    int code = copy->round->code;
    um_free_request(copy->round);
    copy->round = 0;
    if (of->position) return code != MPI_SUCCESS ? code : copy->told.code;
    if (code == MPI_SUCCESS && copy->rounds == 1 && !um_decide(of, copy->all, copy->name, &copy->told.decided)) code = MPI_ERR_NO_MEM;
    if (copy->rounds > 1) copy->told.decided.terms.begun = um_most_begun(copy->begun, of->size);
    if (copy->rounds > 1 && code == MPI_SUCCESS) code = um_first_error(copy->codes, of->size);
    copy->told.code = code;
    tell(of, copy);
    return code;
}

/* The new one has what the program gave the old one. */
static int make(struct comm *of, struct copy *copy) {
    struct group group;
    um_group_of(of, &group);
    int code = um_make_on_plane(of, copy->told.decided.plane, &group, &copy->told.decided.terms, copy->made);
    if (code != MPI_SUCCESS) return code;
    struct comm *made = um_comm_at(*copy->made);
    made->cart = copy->like.cart;
    made->graph = copy->like.graph;
    made->attributes = copy->like.attributes;
    made->handler = copy->like.handler;
    copy->like = (struct comm){0};
    return MPI_SUCCESS;
}

static void forget(struct copy *copy) {
    free(copy->like.cart);
    um_free_graph(copy->like.graph);
    um_free_attributes(copy->like.attributes);
    copy->like = (struct comm){0};
}

/* What comes after a round that is over: another one, or the end. */
static int go_on(struct comm *of, struct copy *copy) {
    if (copy->rounds == 2) return end_second_round(of, copy);
    int code = end_round(of, copy);
    if (code == MPI_SUCCESS && copy->told.decided.is_old && copy->rounds == 1) return begin_second_round(of, copy);
    if (code == MPI_SUCCESS && copy->code == MPI_SUCCESS) return make(of, copy);
    um_leave_common(copy->told.decided.terms.common);
    return code;
}

static void advance(struct request *request) {
    struct copy *copy = request->more;
    int code = MPI_SUCCESS;
    while (code == MPI_SUCCESS && copy->round) {
        um_look_at(copy->round);
        if (!copy->round->over) return;
        code = go_on(request->comm, copy);
    }
    forget(copy);
    um_end_request(request, code != MPI_SUCCESS ? code : copy->code);
}

static void look_at_copy(struct request *request) {
    struct copy *copy = request->more;
    if (request->over || copy->is_looked_at) return;
    copy->is_looked_at = true;
    advance(request);
    copy->is_looked_at = false;
}

/* Whether a duplicate of this name is being made here; 0: of any. */
bool um_is_copying(uint64_t name) {
    for (int k = 0; k < um_me->mpi.request_count; k++) {
        const struct request *request = um_me->mpi.requests[k];
        const struct copy *copy = request && request->look == look_at_copy && !request->over ? request->more : 0;
        if (copy && (!name || copy->name == name)) return true;
    }
    return false;
}

/* What a request has of a duplicate that isn't over goes with it. */
void um_free_copy(struct request *request) {
    if (request->look == look_at_copy) forget(request->more);
}

/* The world ranks that a duplicate waits for, as bits. */
uint32_t um_missing_from_copy(const struct request *request) {
    const struct copy *copy = request->more;
    return request->look == look_at_copy && !request->over && copy->round ? um_awaited_by(copy->round) : 0;
}

/* Says what this rank wishes, and what the program gave the old one. */
static void begin(struct comm *of, struct request *request, MPI_Comm *made) {
    struct copy *copy = request->more;
    *copy = (struct copy){.made = made, .number = ++of->begun, .is_looked_at = true, .like.handler = of->handler};
    copy->name = um_name_of_copy(of, copy->number);
    um_wish_for(of->chain, &copy->all[of->position]);
    copy->like.cart = um_copy_cart(of->cart);
    copy->code = um_copy_graph(of, &copy->like);
    if (copy->code == MPI_SUCCESS) copy->code = um_copy_attributes(of, &copy->like);
    *made = MPI_COMM_NULL;
    if (um_footprints && of->size > 1) um_note_copy();
    int code = begin_round(of, copy, copy->all, sizeof *copy->all);
    copy->is_looked_at = false;
    if (code != MPI_SUCCESS) um_end_request(request, code);
}

static int idup(struct comm *of, MPI_Comm *made, MPI_Request *handle) {
    struct request *request;
    int code = um_new_recovery(of, look_at_copy, sizeof(struct copy), &request);
    if (code != MPI_SUCCESS) return um_give_recovery(of, um_refuse_collective(of, code), 0, handle);
    begin(of, request, made);
    return um_give_recovery(of, MPI_SUCCESS, request, handle);
}

int MPI_Comm_idup(MPI_Comm comm, MPI_Comm *made, MPI_Request *request) {
    struct comm *of = um_comm_at(comm);
    ENTER(of, MPI_UNDEFINED, MPI_UNDEFINED);
    if (!of) return um_fail(0, MPI_ERR_COMM);
    GIVES(of, request);
    if (!made) return um_fail(of, um_refuse_collective(of, MPI_ERR_ARG));
    return idup(of, made, request);
}

/* No hint changes what a duplicate does. */
int MPI_Comm_idup_with_info(MPI_Comm comm, MPI_Info info, MPI_Comm *made, MPI_Request *request) {
    struct comm *of = um_comm_at(comm);
    ENTER(of, MPI_UNDEFINED, MPI_UNDEFINED);
    if (!of) return um_fail(0, MPI_ERR_COMM);
    GIVES(of, request);
    if (!made) return um_fail(of, um_refuse_collective(of, MPI_ERR_ARG));
    if (!um_is_info(info)) return um_fail(of, um_refuse_collective(of, MPI_ERR_INFO));
    return idup(of, made, request);
}
