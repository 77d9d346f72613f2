/* The steps of a job over ulfm.h, and their answers in the words of a trace. */
#include "race.h"
#include <stdio.h>
#include <string.h>

static const char *const names[] = {"", "NoComm", "BadRank", "BadTag", "TooLong", "ProcFailed", "Revoked", "NoRequest", "AlreadyMade",
                                    "NoContext", "Stopped", "NotMember", "OutOfMemory", "BadSize", "NotEntered", "Truncated"};

/* ---- Answers ---- */

static int answered(struct step *step, const char *answer) {
    snprintf(step->answer, sizeof step->answer, "%s", answer);
    return 0;
}

static int refused(struct step *step, uint32_t code) {
    if (code > ULFM_TRUNCATED) give_up("an unknown code", code, step->op);
    snprintf(step->answer, sizeof step->answer, "refused %u %s", code, names[code]);
    return 0;
}

/* What a call without an out parameter is answered. */
static int plainly(struct step *step, uint32_t code, const char *answer) { return code ? refused(step, code) : answered(step, answer); }

/* A list of ranks in brackets behind a text. */
static int listed(struct step *step, const char *text, const uint32_t *members, uint32_t count, const char *rest) {
    int used = snprintf(step->answer, sizeof step->answer, "%s [", text);
    for (uint32_t k = 0; k < count; k++) used += snprintf(step->answer + used, sizeof step->answer - (size_t)used, "%s%u", k ? " " : "", members[k]);
    snprintf(step->answer + used, sizeof step->answer - (size_t)used, "]%s", rest);
    return 0;
}

/* How a receive or a message ended. */
static int told(struct step *step, const ulfm_status *status, const uint8_t *body) {
    if (status->error) {
        snprintf(step->answer, sizeof step->answer, "over %u %s", status->error, names[status->error]);
        return 0;
    }
    int used = snprintf(step->answer, sizeof step->answer, "done from %u tag %u %s", status->source, status->tag, status->length ? "" : "-");
    for (uint64_t k = 0; k < status->length; k++) used += snprintf(step->answer + used, sizeof step->answer - (size_t)used, "%02x", body[k]);
    return 0;
}

/* The members of a communicator that stand in a group, by their positions: as the group has them, or in rising order. */
static uint32_t positions(uint32_t me, uint64_t comm, const ulfm_group *some, bool rising, uint32_t *found) {
    ulfm_group all;
    uint32_t count = 0;
    if (ulfm_group_of(slot_of(me), comm, &all)) give_up("no group", me, "");
    for (uint32_t k = 0; k < (rising ? all.size : some->size); k++)
        for (uint32_t i = 0; i < (rising ? some->size : all.size); i++)
            if (rising ? all.members[k] == some->members[i] : some->members[k] == all.members[i]) found[count++] = rising ? k : i;
    return count;
}

/* ---- Steps: each answers, or says that it is OPEN ---- */

/* Whether a step has this op, plainly or as one that asks for a further communicator. */
static bool is_op_or_again(const struct step *step, const char *op) {
    size_t length = strlen(op);
    return !strncmp(step->op, op, length) && (!step->op[length] || !strcmp(step->op + length, "-again"));
}

/* The number of the request or message of a step that is named, where that step has the op. */
static uint64_t named(const struct actor *actor, const struct step *step, const char *op) {
    return step->who < actor->count && !strcmp(actor->steps[step->who].op, op) ? actor->steps[step->who].number : NONE;
}

static int receive(struct actor *actor, struct step *step) {
    uint32_t code = ulfm_irecv(slot_of(actor->me), step->comm, step->who, step->tag, step->more, &step->number);
    return plainly(step, code, "posted");
}

static int look(struct actor *actor, struct step *step) {
    ulfm_status status;
    uint32_t code = ulfm_improbe(slot_of(actor->me), step->comm, step->who, step->tag, &step->number, &status);
    if (code == ULFM_NOT_YET) return OPEN;
    if (code) return refused(step, code);
    snprintf(step->answer, sizeof step->answer, "found from %u tag %u length %u", status.source, status.tag, (unsigned)status.length);
    return 0;
}

static int end_receive(struct actor *actor, struct step *step) {
    ulfm_status status;
    uint8_t body[MOST_BYTES];
    bool is_wait = *step->op == 'w';
    uint64_t number = named(actor, step, "recv");
    uint32_t code = is_wait ? ulfm_test(slot_of(actor->me), number, &status, body, sizeof body)
                            : ulfm_cancel(slot_of(actor->me), number, &status, body, sizeof body);
    if (is_wait && code == ULFM_NOT_YET) return OPEN;
    if (is_wait && code == ULFM_PENDING) return answered(step, "pending");
    if (code) return refused(step, code);
    return status.cancelled ? answered(step, "cancelled") : told(step, &status, body);
}

static int get_message(struct actor *actor, struct step *step) {
    ulfm_status status;
    uint8_t body[MOST_BYTES];
    uint32_t code = ulfm_mrecv(slot_of(actor->me), named(actor, step, "probe"), &status, body, step->more);
    return code ? refused(step, code) : told(step, &status, body);
}

static int tell_failed(struct actor *actor, struct step *step) {
    ulfm_group failed;
    uint32_t found[MOST_ACTORS], code = ulfm_get_failed(slot_of(actor->me), step->comm, &failed);
    return code ? refused(step, code) : listed(step, "ranks", found, positions(actor->me, step->comm, &failed, false, found), "");
}

static int acknowledge(struct actor *actor, struct step *step) {
    uint32_t total, code = ulfm_ack_failed(slot_of(actor->me), step->comm, step->more, &total);
    if (code) return refused(step, code);
    snprintf(step->answer, sizeof step->answer, "acked %u", total);
    return 0;
}

static int duplicate(struct actor *actor, struct step *step) {
    uint64_t made;
    uint32_t code = (strcmp(step->op, "dup") ? ulfm_dup_again : ulfm_dup)(slot_of(actor->me), step->comm, &made);
    if (code) return refused(step, code);
    snprintf(step->answer, sizeof step->answer, "comm %llu", (unsigned long long)made);
    return 0;
}

static int shrink(struct actor *actor, struct step *step) {
    ulfm_group group;
    uint64_t made;
    uint32_t position, members[MOST_ACTORS], code;
    char first[64], rest[64];
    if (!step->is_entered) {
        code = (strcmp(step->op, "shrink") ? ulfm_enter_shrink_again : ulfm_enter_shrink)(slot_of(actor->me), step->comm);
        step->is_entered = true;
        return code ? refused(step, code) : OPEN;
    }
    code = ulfm_poll_shrink(slot_of(actor->me), step->comm, &made);
    if (code == ULFM_NOT_YET) return OPEN;
    if (code) return refused(step, code);
    if (ulfm_group_of(slot_of(actor->me), made, &group) || ulfm_position(slot_of(actor->me), made, &position)) give_up("no group", actor->me, "shrink");
    for (uint32_t k = 0; k < group.size; k++) members[k] = group.members[k];
    snprintf(first, sizeof first, "comm %llu ranks", (unsigned long long)made);
    snprintf(rest, sizeof rest, " me %u", position);
    return listed(step, first, members, group.size, rest);
}

static int agree(struct actor *actor, struct step *step) {
    ulfm_group missing;
    uint32_t value, found[MOST_ACTORS], code;
    char first[64];
    if (!step->is_entered) {
        code = ulfm_enter_agree(slot_of(actor->me), step->comm, step->more);
        step->is_entered = true;
        return code ? refused(step, code) : OPEN;
    }
    code = ulfm_poll_agree(slot_of(actor->me), step->comm, &value, &missing);
    if (code == ULFM_NOT_YET) return OPEN;
    if (code) return refused(step, code);
    snprintf(first, sizeof first, "agreed %u without", value);
    return listed(step, first, found, positions(actor->me, step->comm, &missing, true, found), "");
}

int poll_step(struct actor *actor, struct step *step) {
    ulfm_slot *slot = slot_of(actor->me);
    const char *op = step->op;
    if (!strcmp(op, "send")) return plainly(step, ulfm_isend(slot, step->comm, step->who, step->tag, step->body, step->length), "sent");
    if (!strcmp(op, "revoke")) return plainly(step, ulfm_revoke(slot, step->comm), "revoked");
    if (!strcmp(op, "note")) return answered(step, "noted");
    if (!strcmp(op, "stop")) return plainly(step, ulfm_stop(slot), "stopped");
    if (!strcmp(op, "recv")) return receive(actor, step);
    if (!strcmp(op, "wait") || !strcmp(op, "cancel")) return end_receive(actor, step);
    if (!strcmp(op, "probe")) return look(actor, step);
    if (!strcmp(op, "mrecv")) return get_message(actor, step);
    if (!strcmp(op, "failed")) return tell_failed(actor, step);
    if (!strcmp(op, "ack")) return acknowledge(actor, step);
    if (is_op_or_again(step, "dup")) return duplicate(actor, step);
    if (is_op_or_again(step, "shrink")) return shrink(actor, step);
    if (!strcmp(op, "agree")) return agree(actor, step);
    give_up("no such op", actor->me, op);
    return 0;
}
