/* What a body of the engine holds: a message, or where the parcel of one stands. Who sends or receives goes by these calls, and looks into no body. */
#ifndef UM_BODY_H
#define UM_BODY_H

#include "engine/engine.h"

enum { BODY = 1024, AT_ONCE = BODY - 1 }; /* the longest body, and the longest message in one */

enum content { MESSAGE = 1, REFERENCE };

/* A body: its first byte says what it holds. */
union body {
    uint8_t content;
    struct whole {
        uint8_t content, message[AT_ONCE];
    } whole;
    struct reference {
        uint8_t content, unused[sizeof(struct parcel *) - 1];
        struct parcel *parcel; /* ranks share their memory */
    } reference;
};

/* What the engine told of a body, and the body. */
struct received {
    ulfm_status told;
    union body body;
};

/* A message, where its sender has it. */
struct bytes {
    const void *at;
    size_t length;
};

/* Sends a message that stands in its body to the position `dest`, where nobody waits for its match. */
int um_send_short(uint64_t context, int dest, int world, int tag, struct bytes message);

/* Whether a message of this length can stand in its body. No such body is as long as one that refers to a parcel. */
static inline bool um_is_short(size_t length) { return length <= AT_ONCE && length != sizeof(struct reference) - 1; }

/* Sends a message to the position `dest`, the world rank `world`. Where `waits` isn't null, it gets a parcel whose flag tells the match. */
int um_send_body(uint64_t context, int dest, int world, int tag, struct bytes message, struct parcel **waits);

/* Copies the message of a body that came into a buffer, and tells its sender that it was matched. The source in the status is the engine's. */
void um_take_body(const struct received *received, void *buffer, size_t room, MPI_Status *status, int *code);

/* Nobody wants the message of a body that came. */
void um_drop_body(const struct received *received);

/* A matched probe took the body, whose message isn't received yet: other probes tell of those behind it (3.8.2). How long the message is. */
size_t um_set_body_aside(const struct received *received);

/* Whether a body is as long as one that refers to a parcel. */
bool um_is_long(size_t length);

/* How long the message is that a probe found, of the world rank `from`. Receives that have theirs were looked at before. */
size_t um_length_of_probed(const ulfm_status *told, uint64_t context, int from);

#endif
