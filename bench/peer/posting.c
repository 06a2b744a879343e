/* Fresh start, opening, posting, emitting. */
#include <string.h>

#include "rules.h"

struct kamusseori_reply peer_fresh(TABLES) {
    memset(pairs, 0, pair_count * sizeof *pairs);
    memset(slots, 0, slot_count * sizeof *slots);
    for (uint32_t i = 0; i < KAMUSSEORI_PAIRS; i++)
        pairs[i].queue.first = pairs[i].queue.last = KAMUSSEORI_NO_SLOT;
    for (uint32_t i = 0; i < KAMUSSEORI_SLOTS; i++)
        slots[i].link = i + 1; /* the last one's is 256, none */
    ends->first = 0;
    ends->last = KAMUSSEORI_SLOTS - 1;
    return answered(KAMUSSEORI_ANSWER_DONE, 0, 0);
}

struct kamusseori_reply peer_open(TABLES, uint32_t pair, struct kamusseori_settings settings, uint32_t first) {
    (void)pair_count, (void)ends, (void)slots, (void)slot_count;
    if (pair >= KAMUSSEORI_PAIRS)
        return refused(KAMUSSEORI_NO_SUCH_PAIR);
    struct kamusseori_standing *standing = &pairs[pair].standing;
    if (standing->state != KAMUSSEORI_STATE_CLOSED)
        return refused(KAMUSSEORI_WRONG_STATE);
    if (bad_settings(&settings) || first > LAST_PSN)
        return refused(KAMUSSEORI_OUT_OF_RANGE);
    if (claimed(pairs) + settings.share > KAMUSSEORI_SLOTS)
        return refused(KAMUSSEORI_NO_ROOM);
    standing->state = KAMUSSEORI_STATE_READY;
    standing->settings = settings;
    standing->line = (struct kamusseori_line){first, first, first, first};
    standing->clock = (struct kamusseori_clock){settings.retry, settings.rnr, 0, 0};
    return answered(KAMUSSEORI_ANSWER_DONE, 0, 0);
}

/* ---- posting */

static bool bad_post(const struct kamusseori_post *p) {
    if (p->kind > KAMUSSEORI_READ || p->immediate > 1 || p->fenced > 1 || (p->kind == KAMUSSEORI_READ && p->immediate))
        return true;
    return bad_reach(p->offset, p->length, p->kind != KAMUSSEORI_SEND, p->address);
}

static bool holds_read(const struct kamusseori_pair *pair, const struct kamusseori_slot *slots) {
    for (uint32_t at = pair->queue.first; at != KAMUSSEORI_NO_SLOT; at = slots[at].link)
        if (slots[at].packet.opcode == READ_REQUEST)
            return true;
    return false;
}

/* The first of 3 to 8 that holds; 0 if none does. */
static uint32_t post_refusal(const struct kamusseori_pair *pairs, const struct kamusseori_slot *slots, const struct kamusseori_pair *pair,
                             const struct kamusseori_post *post, uint32_t psns, uint32_t needed) {
    const struct kamusseori_standing *standing = &pair->standing;
    uint32_t held = pair->queue.held + needed, ceiling = standing->settings.ceiling;
    if (needed > ceiling)
        return KAMUSSEORI_OVER_CEILING;
    if (post->fenced && holds_read(pair, slots))
        return KAMUSSEORI_FENCED;
    if (distance(standing->line.u, standing->line.n) + psns > HALF)
        return KAMUSSEORI_PSNS_USED_UP;
    if (held > ceiling || claimed(pairs) - claim_of(pair) + larger(standing->settings.share, held) > KAMUSSEORI_SLOTS)
        return KAMUSSEORI_NO_ROOM;
    return 0;
}

/* Places 0 to count - 1 of a message, into slots from `at` on by their links; gives the last one. */
static uint32_t store(struct kamusseori_slot *slots, uint32_t at, const struct kamusseori_post *post, uint32_t shift, uint32_t psn, uint32_t count) {
    const uint32_t mtu = 1u << shift;
    uint32_t slot = at;
    for (uint32_t i = 0; i < count; i++, at = slots[at].link) {
        uint32_t opcode = READ_REQUEST, length = post->length;
        if (post->kind != KAMUSSEORI_READ) {
            bool last = i + 1 == count;
            uint32_t form = count == 1 ? 4 + post->immediate : last ? 2 + post->immediate : i > 0;
            opcode = 6 * post->kind + form;
            length = last ? post->length - i * mtu : mtu;
        }
        const struct carries carries = carried[opcode];
        struct kamusseori_packet *packet = &slots[at].packet;
        packet->psn = plus(psn, i);
        packet->ticket = post->ticket;
        packet->opcode = opcode;
        packet->offset = (uint32_t)post->offset + i * mtu;
        packet->length = length;
        packet->address = carries.reth ? post->address : 0;
        packet->key = carries.reth ? post->key : 0;
        packet->total = carries.reth ? post->length : 0;
        packet->value = carries.immediate ? post->value : 0;
        slot = at;
    }
    return slot;
}

/* The run of `count` slots from the free queue's front to `last` joins the pair's end. */
static void join(struct kamusseori_pair *pair, struct kamusseori_ends *ends, struct kamusseori_slot *slots, uint32_t last, uint32_t count) {
    struct kamusseori_queue *queue = &pair->queue;
    uint32_t first = ends->first;
    ends->first = slots[last].link;
    if (ends->first == KAMUSSEORI_NO_SLOT)
        ends->last = KAMUSSEORI_NO_SLOT;
    slots[last].link = KAMUSSEORI_NO_SLOT;
    *(queue->held == 0 ? &queue->first : &slots[queue->last].link) = first;
    queue->last = last;
    queue->held += count;
}

struct kamusseori_reply peer_post(TABLES, uint32_t pair, struct kamusseori_post post) {
    (void)pair_count, (void)slot_count;
    uint32_t refusal = not_ready(pairs, pair);
    if (refusal != 0)
        return refused(refusal);
    if (bad_post(&post))
        return refused(KAMUSSEORI_OUT_OF_RANGE);
    struct kamusseori_pair *of = &pairs[pair];
    uint32_t shift = shift_of(&of->standing.settings), psns = packets_for(shift, post.length);
    uint32_t needed = post.kind == KAMUSSEORI_READ ? 1 : psns, first = of->standing.line.n;
    refusal = post_refusal(pairs, slots, of, &post, psns, needed);
    if (refusal != 0)
        return refused(refusal);
    uint32_t last = store(slots, ends->first, &post, shift, first, needed);
    join(of, ends, slots, last, needed);
    of->standing.line.n = plus(first, psns);
    return numbered(first);
}

/* ---- emitting */

/* The first record that ends after X: the one at X, or the first one if X is U. */
static uint32_t waiting(const struct kamusseori_pair *pair, const struct kamusseori_slot *slots) {
    const struct kamusseori_line *line = &pair->standing.line;
    uint32_t at = pair->queue.first;
    if (line->x == line->n)
        return KAMUSSEORI_NO_SLOT;
    if (line->x != line->u)
        while (slots[at].packet.psn != line->x)
            at = slots[at].link;
    return at;
}

struct kamusseori_reply peer_emit(TABLES, uint8_t *records, size_t record_bytes, uint32_t pair, uint32_t budget) {
    (void)pair_count, (void)ends, (void)slot_count;
    uint32_t refusal = not_ready(pairs, pair);
    if (refusal != 0)
        return refused(refusal);
    if (budget < 1 || budget > KAMUSSEORI_BUDGET)
        return refused(KAMUSSEORI_OUT_OF_RANGE);
    if (record_bytes < (size_t)KAMUSSEORI_RECORD_BYTES * budget)
        return refused(KAMUSSEORI_SHORT_BUFFER);
    struct kamusseori_standing *standing = &pairs[pair].standing;
    if (standing->clock.hold > 0)
        return numbered(0);
    struct kamusseori_line *line = &standing->line;
    uint32_t shift = shift_of(&standing->settings), count = 0;
    for (uint32_t at = waiting(&pairs[pair], slots); count < budget && at != KAMUSSEORI_NO_SLOT; at = slots[at].link) {
        const struct kamusseori_packet *packet = &slots[at].packet;
        write_record(records + (size_t)KAMUSSEORI_RECORD_BYTES * count++, standing, packet);
        line->x = plus(packet->psn, span_of(shift, packet));
    }
    line->h = further(line->u, line->h, line->x);
    return numbered(count);
}
