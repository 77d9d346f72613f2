/* Which events commute: neither changes what the other one sees or does, nor whether it can be. Of two ranks the engine says so, which is proved
   (ulfm_may_matter), but for polls of one shrink or agreement. The rules of those, and of events of one rank, stand here and are tested, as are those of
   what this layer adds: planes for one rank, and the match of a send that waits with its sender's looks at that. */
#include "collective/collective.h"
#include "search/search.h"

enum {
    NAMED_ALONE,
    ONE_ANY,
    MANY_ANY
}; /* receives of a context: each names its sender; any sender, all with one tag; so, with several tags, or probes */
enum { OF_ANYBODY = -3, OF_NOBODY = -2, BEFORE = -2 };

/* What was learnt of the program, in memory that stays: of receives from any source, and of looks. */
static struct learnt {
    int use[MAX_RANKS][CONTEXTS], tag[MAX_RANKS][CONTEXTS];
    bool polls_in_passing; /* shrinks and agreements whose requests are looked at */
    uint8_t lists_failed;  /* bits of ranks that ask which failures they know */
    bool copies, is_new;   /* duplicates that don't block; that isn't known yet */
} * learnt;

bool um_begin_commute(void) { return (learnt = um_shared_memory(sizeof *learnt)) != 0; }

static bool is_item(const struct footprint *e, int item) { return e->kind == TAKES && e->item == item; }
static bool is_message(const struct footprint *e) { return is_item(e, ULFM_MESSAGE); }
static bool is_failure(const struct footprint *e) { return is_item(e, ULFM_STOP_NOTICE); }
static bool is_revocation(const struct footprint *e) { return is_item(e, ULFM_REVOCATION); }
static bool is_entry(const struct footprint *e) { return is_item(e, ULFM_SHRINK_ENTRY) || is_item(e, ULFM_AGREE_ENTRY); }
static bool is_call(const struct footprint *e) { return e->kind != TAKES; }
static bool is_poll(const struct footprint *e) { return e->kind == POLLS_SHRINK || e->kind == POLLS_AGREE; }
static bool is_revoker(const struct footprint *e) { return is_revocation(e) || e->kind == REVOKES; }
static bool is_end_of_receive(const struct footprint *e) { return (e->kind == TESTS || e->kind == CANCELS) && e->flags & ASKED; }
static bool uses_messages(const struct footprint *e) { return e->kind == POSTS || e->kind == PROBES || e->kind == CANCELS; }
static bool covers(int named, int source) { return named == ANYBODY || named == source; }
static bool has_tag(int asked, int tag) { return asked == -1 || asked == tag; }

static bool reads_revocations(const struct footprint *e) {
    if (e->kind == LOOKS_AT_SEND) return !(e->flags & FOUND);
    return e->kind == SENDS || e->kind == POSTS || e->kind == DUPLICATES || e->kind == ASKS_REVOKED || e->kind == PROBES;
}

static bool are_of_family(const struct footprint *a, const struct footprint *b) { return um_family(a->comm) == um_family(b->comm); }

/* Whether the wait that a call ends, or one that looked and went on, looked in vain for a message of a communicator (-1: of any) and a source. */
static bool has_silent(const struct footprint *e, int comm, int source) {
    if (!e->silent_count) return false;
    if (e->silent_count == TOO_MANY) return true;
    for (int k = 0; k < e->silent_count; k++) {
        bool is_of = e->silent[k].is_message && (comm < 0 || e->silent[k].comm == comm);
        if (is_of && (source == OF_ANYBODY || (e->silent[k].source != OF_NOBODY && covers(e->silent[k].source, source)))) return true;
    }
    return false;
}

/* Whether it looked in vain at a send that waits, which an item ends otherwise. */
static bool has_silent_send(const struct footprint *e, const struct footprint *item) {
    return e->sends && (is_revoker(item) || (is_failure(item) && e->sends >> item->source & 1));
}

/* An item came, and then a wait ended that had looked for it in vain. */
static bool is_silent_before(const struct footprint *a, const struct footprint *b) {
    return has_silent_send(b, a) || (is_message(a) && has_silent(b, a->comm, a->source)) || (is_failure(a) && has_silent(b, -1, a->source)) ||
           (is_revocation(a) && has_silent(b, a->comm, OF_ANYBODY));
}

/* Word of a failure and a revocation: the first one ends a receive, or a wait for it, that the other one would have ended. Else a rank knows both,
   whichever was first. */
static bool end_the_same(const struct footprint *failure, const struct footprint *revocation) {
    return failure->ended_on >> um_family(revocation->comm) & 1 || revocation->ended_of & failure->fails;
}

/* A call that sends something, and a revocation that is handed on: another rank takes what they send in their order. */
static bool are_sent_in_order(const struct footprint *call, const struct footprint *revocation) {
    return (call->kind == SENDS || call->kind == ENTERS_SHRINK || call->kind == ENTERS_AGREE) && is_revocation(revocation) &&
           revocation->flags & REVOKED_FIRST;
}

/* A message that no receive has, and a revocation: it is gone, whichever comes first. */
static bool is_gone(const struct footprint *message, const struct footprint *revocation) {
    return message->comm == revocation->comm && !(revocation->ended_from >> message->source & 1);
}

static bool is_before_revocation(const struct footprint *a, int at, const struct footprint *b) {
    if (!is_revoker(b)) return false;
    bool is_kept = is_message(a) && !((a->is_dropped || at == BEFORE) && is_gone(a, b));
    bool saw_none = a->flags & SAW_NO_REVOCATION;
    return (saw_none && is_call(a) && a->comm == b->comm) || (saw_none && is_kept && are_of_family(a, b)) || (is_failure(a) && end_the_same(a, b)) ||
           has_silent(a, b->comm, OF_ANYBODY) || has_silent_send(a, b) || are_sent_in_order(a, b);
}

/* `at` is the number of a; BEFORE: that isn't known. */
static bool is_after_revocation(const struct footprint *a, int at, const struct footprint *b) {
    if (!is_revoker(a) || !(a->flags & REVOKED_FIRST)) return false;
    return (reads_revocations(b) && b->comm == a->comm) || (is_message(b) && are_of_family(a, b) && !is_gone(b, a)) ||
           (is_failure(b) && end_the_same(b, a)) || are_sent_in_order(b, a) ||
           (is_end_of_receive(b) && b->comm == a->comm && (b->by == at || at == BEFORE));
}

static bool is_before_failure(const struct footprint *a, const struct footprint *b) {
    if (!is_failure(b)) return false;
    bool pends = a->kind == TESTS && a->answer == ULFM_PENDING, has_found = a->kind == PROBES && !(a->flags & IN_VAIN);
    return (is_call(a) && a->fails & b->fails && !pends && !has_found) || has_silent(a, -1, b->source) || has_silent_send(a, b);
}

/* An entry has the failures that its rank knows. One more of them lets others decide sooner, and changes no decision: the rank that failed isn't among
   those who entered. So what can be where it is missing can be where it is there, and that it was known needs no other order, while that it wasn't does.
   Where ranks look at a decision in passing, they may see that it is sooner. */
static bool is_told_by_entry(const struct footprint *entry, const struct footprint *failure) {
    return learnt->polls_in_passing || entry->entered & failure->fails;
}

static bool is_after_failure(const struct footprint *a, int at, const struct footprint *b) {
    if (!is_failure(a) || !is_call(b)) return false;
    if (b->kind == ENTERS_SHRINK || b->kind == ENTERS_AGREE) return is_told_by_entry(b, a);
    bool made_possible = is_poll(b) && !((b->listed | b->by_entries) & a->fails);
    return b->fails & a->fails || made_possible || (is_end_of_receive(b) && (b->by == at || (at == BEFORE && b->source == a->source)));
}

static bool is_before_message(const struct footprint *a, const struct footprint *b) {
    if (!is_message(b)) return false;
    int use = learnt->use[b->rank][b->comm], tag = learnt->tag[b->rank][b->comm];
    bool is_look = a->kind == TESTS || a->kind == CANCELS || a->kind == PROBES, is_same = a->comm == b->comm;
    if (is_look && a->flags & IN_VAIN && is_same && covers(a->source, b->source) && has_tag(a->tag, b->tag)) return true;
    if (has_silent(a, b->comm, b->source)) return true;
    if (use && is_message(a) && is_same && (use == MANY_ANY || (has_tag(tag, a->tag) && has_tag(tag, b->tag)))) return true;
    return use == MANY_ANY && uses_messages(a) && is_same;
}

static bool is_after_message(const struct footprint *a, int at, const struct footprint *b) {
    if (!is_message(a) || !is_call(b) || a->comm != b->comm) return false;
    if (is_end_of_receive(b) && (b->by == at || (at == BEFORE && covers(b->source, a->source)))) return true;
    if (b->kind == PROBES && covers(b->source, a->source) && has_tag(b->tag, a->tag)) return true;
    return learnt->use[a->rank][a->comm] == MANY_ANY && uses_messages(b);
}

/* Whether a message is of a collective that has a number of its own, or of a duplicate that doesn't block. */
static bool is_of_single(const struct footprint *e) {
    return is_message(e) && um_beside(e->comm) != e->comm && e->tag >= SINGLE && e->tag < CREATION;
}

/* What a duplicate that doesn't block waits for at a rank, which then sends, and another item, by which the rank goes on or sends something else. */
static bool are_of_copy(const struct footprint *a, const struct footprint *b) {
    bool is_same = is_message(a) && is_message(b) && a->comm == b->comm && a->tag == b->tag;
    if (!learnt->copies || is_same || a->kind != TAKES || b->kind != TAKES) return false;
    return is_of_single(a) || is_of_single(b);
}

/* An entry and a poll of its topic; where that was decided before the poll, it needs the entry to be made at all, or doesn't care for it. */
static bool are_entry_and_poll(const struct footprint *a, int at, const struct footprint *b) {
    if (a->topic != b->topic) return false;
    if (is_entry(b)) return is_poll(a) && !a->follows;
    return is_entry(a) && is_poll(b) && !(b->follows && (at == BEFORE || b->optional >> a->source & 1));
}

/* Polls of one topic by two ranks: the first one decides. */
static bool are_polls(const struct footprint *a, int at, const struct footprint *b) {
    bool is_decided = a->follows || (at == BEFORE && b->follows);
    return is_poll(a) && is_poll(b) && a->topic == b->topic && a->flags & b->flags & FOUND && a->proposal != b->proposal && !is_decided;
}

/* Whether an event of the sender looks whether its send to a rank was matched. */
static bool looks_at_sent(const struct footprint *e, int to) { return (e->kind == LOOKS_AT_SEND && e->source == to) || e->sends >> to & 1; }

static bool are_match_and_look(const struct footprint *a, const struct footprint *b) {
    return (a->matches >> b->rank & 1 && looks_at_sent(b, a->rank)) || (b->matches >> a->rank & 1 && looks_at_sent(a, b->rank));
}

/* A message is matched as it is taken, which no rank does that has stopped. */
static bool are_match_and_stop(const struct footprint *a, const struct footprint *b) {
    return (a->kind == STOPS && b->kind == TAKES && b->matches) || (b->kind == STOPS && a->kind == TAKES && a->matches);
}

/* A rank that asks which failures it knows, or acknowledges some, has them in the order in which word of them came. */
static bool are_listed(const struct footprint *a, const struct footprint *b) {
    return learnt->lists_failed >> a->rank & 1 && is_failure(a) && is_failure(b);
}

/* Whether an event may not commute with one of another rank. */
bool um_is_across(const struct footprint *e) { return is_poll(e) || e->matches || e->kind == LOOKS_AT_SEND || e->sends || e->gives; }

/* Word of a revocation that was known. */
static bool brings_nothing(const struct footprint *e) { return e->first != NO_STEP && !(e->flags & REVOKED_FIRST); }

/* Two words of one revocation, or one and the rank's own: any of them may be the first one, and then the others bring nothing. */
static bool are_words_of_one(const struct footprint *a, const struct footprint *b) {
    return a->first != NO_STEP && b->first != NO_STEP && a->rank == b->rank && a->comm == b->comm;
}

/* Whether an event and a word that brought nothing don't commute, since the word might have been the first one before the event. */
static bool is_before_word(const struct footprint *a, int at, const struct footprint *word) {
    if (at == BEFORE || at >= word->first) return false;
    const struct footprint *first = &um_footprints[word->first];
    struct footprint own = *word;
    own.flags |= REVOKED_FIRST;
    own.ended = first->ended;
    own.ended_on = first->ended_on;
    own.ended_of = first->ended_of;
    own.ended_from = first->ended_from;
    return um_is_dependent(a, at, &own);
}

/* Whether an event is word of a revocation, or one's own, that might bring something if it came at another one's place. */
bool um_may_revoke(const struct footprint *e, int at) { return e->flags & REVOKED_FIRST || e->first > at; }

/* An event that commutes with another one comes after it: a word of a revocation that is known brings nothing. */
void um_come_after(struct footprint *e, const struct footprint *other) {
    if (!are_words_of_one(e, other)) return;
    e->first = other->first;
    e->flags &= (uint8_t)~REVOKED_FIRST;
    e->ended = e->ended_of = e->ended_from = 0;
    e->ended_on = 0;
}

/* What the engine is told of an event: its rank, and of a poll what it polls. */
static ulfm_outline outline_of(const struct footprint *e) {
    ulfm_outline outline = {.kind = ULFM_DOES_CALL, .rank = e->rank, .source = e->other};
    if (e->kind == TAKES) outline.kind = ULFM_DOES_TAKE;
    if (!is_poll(e)) return outline;
    outline.kind = e->kind == POLLS_AGREE ? ULFM_DOES_POLL_AGREE : ULFM_DOES_POLL_SHRINK;
    outline.comm = um_context_of(e->comm);
    outline.round = um_round_of(e->topic);
    return outline;
}

/* Whether two events of the engine may not commute, which is proved where it says no: crates/ulfm_commute. */
static bool may_matter(const struct footprint *a, const struct footprint *b) {
    ulfm_outline one = outline_of(a), other = outline_of(b);
    return ulfm_may_matter(&one, &other);
}

/* Whether a, of the number `at`, and a later event of another process don't commute. */
bool um_is_dependent(const struct footprint *a, int at, const struct footprint *b) {
    if (a->kind == LOSES || b->kind == LOSES) return false; /* these are no races: see keep_nodes */
    if ((a->matches | b->matches) && are_match_and_look(a, b)) return true;
    if (a->gives & b->gives) return true;
    if (!may_matter(a, b)) return false;
    if (a->rank != b->rank) return are_polls(a, at, b);
    if (are_words_of_one(a, b)) return false;
    if (are_match_and_stop(a, b) || is_silent_before(a, b)) return true;
    if (brings_nothing(b)) return is_before_word(a, at, b);
    return is_before_revocation(a, at, b) || is_after_revocation(a, at, b) || is_before_failure(a, b) || is_after_failure(a, at, b) ||
           is_before_message(a, b) || is_after_message(a, at, b) || are_entry_and_poll(a, at, b) || are_of_copy(a, b) || are_listed(a, b);
}

/* Whether both are of one ring: an item is taken, and what is behind is lost. */
static bool are_of_ring(const struct footprint *a, const struct footprint *b) {
    return ((a->kind == LOSES && b->kind == TAKES) || (a->kind == TAKES && b->kind == LOSES)) && a->rank == b->rank && a->source == b->source;
}

bool um_do_commute(const struct footprint *a, const struct footprint *b) {
    return !are_of_ring(a, b) && a->process != b->process && !um_is_dependent(a, BEFORE, b) && !um_is_dependent(b, BEFORE, a);
}

/* Whether b couldn't be without a: then they are no race. */
bool um_is_needed(const struct footprint *a, const struct footprint *b) {
    if (b->kind == ASKS_REVOKED && b->waits && is_revoker(a)) return true;
    if (!is_poll(b) || !(b->flags & FOUND) || a->rank != b->rank) return false;
    if (is_entry(a) && a->topic == b->topic) return b->follows || !(b->excluded >> a->source & 1);
    return is_failure(a) && !((b->listed | b->by_entries) & a->fails);
}

/* A rank receives or probes twice otherwise than by one receive from any source: with a tag of its own, by name, or by probes. */
static bool differs(const struct footprint *e, const struct footprint *other, int tag) {
    bool is_same = (other->kind == POSTS || other->kind == PROBES) && other->rank == e->rank && other->comm == e->comm;
    return is_same && (!(other->flags & OF_ANY) || other->tag != tag || other->kind == PROBES);
}

/* A duplicate that doesn't block is begun. */
void um_note_copy(void) {
    if (!learnt->copies) learnt->copies = learnt->is_new = true;
}

/* Then a rank looks in passing at what came, and makes other calls where something else came before. */
bool um_has_copies(void) { return learnt->copies; }

/* Learns which receives name no source, whether polls are made in passing, and who asks for failures, from the events that were run. Whether it learnt
   something: then the search begins anew. */
bool um_learn(int count) {
    bool has_learnt = learnt->is_new;
    learnt->is_new = false;
    for (int j = 0; j < count; j++) {
        const struct footprint *e = &um_footprints[j];
        if (is_poll(e) && !e->waits && !learnt->polls_in_passing) learnt->polls_in_passing = has_learnt = true;
        bool lists = (e->kind == ASKS_FAILED || e->kind == ACKNOWLEDGES) && !(learnt->lists_failed >> e->rank & 1);
        if (lists) learnt->lists_failed |= (uint8_t)(1u << e->rank), has_learnt = true;
        if (e->kind != POSTS && e->kind != PROBES) continue;
        int *use = &learnt->use[e->rank][e->comm], *tag = &learnt->tag[e->rank][e->comm];
        if (e->flags & OF_ANY && *use == NAMED_ALONE) {
            *use = ONE_ANY;
            *tag = e->tag;
            has_learnt = true;
            for (int k = 0; k < count; k++)
                if (differs(e, &um_footprints[k], e->tag)) *use = MANY_ANY;
        } else if (*use == ONE_ANY && differs(e, e, *tag)) {
            *use = MANY_ANY;
            has_learnt = true;
        }
    }
    return has_learnt;
}
