/* What releases and flushes: acknowledgements, read responses, timer steps, closing. */
#include <string.h>

#include "rules.h"

/* RNR waits, codes 0 to 31, in units of 10,000 ns. */
static const uint32_t waits[32] = {65536, 1,   2,   3,   4,    6,    8,    12,   16,   24,   32,   48,    64,    96,    128,   192,
                                   256,   384, 512, 768, 1024, 1536, 2048, 3072, 4096, 6144, 8192, 12288, 16384, 24576, 32768, 49152};

/* One call's work on one pair; `messages` are complete, the numbers of the next go to `completions`. */
struct work {
    struct kamusseori_pair *pair;
    struct kamusseori_ends *ends;
    struct kamusseori_slot *slots;
    uint32_t *completions;
    uint32_t messages;
};

static struct kamusseori_reply report(const struct work *work, uint32_t answer) {
    return answered(answer, work->messages, 0);
}

/* The front `count` slots leave the pair for the free queue's end; what they complete is told. */
static void leave(struct work *work, uint32_t count, uint32_t status) {
    struct kamusseori_queue *queue = &work->pair->queue;
    struct kamusseori_slot *slots = work->slots;
    struct kamusseori_ends *ends = work->ends;
    uint32_t first = queue->first, last = KAMUSSEORI_NO_SLOT, at = first;
    if (count == 0)
        return;
    for (uint32_t i = 0; i < count; i++) {
        const struct kamusseori_packet *packet = &slots[at].packet;
        if (carried[packet->opcode].last) {
            work->completions[2 * work->messages] = packet->ticket;
            work->completions[2 * work->messages + 1] = status;
            work->messages++;
        }
        last = at;
        at = slots[at].link;
    }
    queue->first = at;
    if (at == KAMUSSEORI_NO_SLOT)
        queue->last = KAMUSSEORI_NO_SLOT;
    queue->held -= count;
    *(ends->first == KAMUSSEORI_NO_SLOT ? &ends->first : &slots[ends->last].link) = first;
    ends->last = last;
    slots[last].link = KAMUSSEORI_NO_SLOT;
}

/* U becomes `to`; X the further of X and U. Where U moves, counts and elapsed time return. */
static void advance(struct kamusseori_standing *standing, uint32_t to) {
    struct kamusseori_line *line = &standing->line;
    if (to == line->u)
        return;
    line->x = further(line->u, line->x, to);
    line->u = to;
    standing->clock.retries = standing->settings.retry;
    standing->clock.rnrs = standing->settings.rnr;
    standing->clock.elapsed = 0;
}

/* Releases before `b`, and says whether a read stopped it. U is the first record's first unanswered PSN. */
static bool release(struct work *work, uint32_t b) {
    struct kamusseori_standing *standing = &work->pair->standing;
    uint32_t u = standing->line.u, at = work->pair->queue.first, start = u, count = 0;
    bool stopped = false;
    while (at != KAMUSSEORI_NO_SLOT && distance(u, start) < distance(u, b)) {
        stopped = work->slots[at].packet.opcode == READ_REQUEST;
        if (stopped)
            break;
        count++;
        start = plus(start, 1);
        at = work->slots[at].link;
    }
    leave(work, count, KAMUSSEORI_RELEASED);
    advance(standing, stopped ? start : b);
    return stopped;
}

static struct kamusseori_reply resend(const struct work *work, uint32_t answer) {
    struct kamusseori_standing *standing = &work->pair->standing;
    standing->line.x = standing->line.u;
    standing->clock.elapsed = 0;
    return report(work, answer);
}

static struct kamusseori_reply end(struct work *work) {
    struct kamusseori_standing *standing = &work->pair->standing;
    uint32_t n = standing->line.n;
    leave(work, work->pair->queue.held, KAMUSSEORI_FLUSHED);
    standing->state = KAMUSSEORI_STATE_ENDED;
    standing->line = (struct kamusseori_line){n, n, n, n};
    standing->clock.elapsed = standing->clock.hold = 0;
    return report(work, KAMUSSEORI_ANSWER_ENDED);
}

static bool inside(const struct kamusseori_line *line, uint32_t psn) {
    return distance(line->u, psn) < distance(line->u, line->h);
}

/* ---- acknowledgements */

static bool bad_syndrome(uint32_t syndrome) {
    return syndrome > KAMUSSEORI_NAK_REMOTE_OPERATIONAL || (syndrome >= 64 && syndrome < KAMUSSEORI_NAK_SEQUENCE);
}

/* The far end is not ready: a count of retries, unless it is set to 7, then a hold. */
static struct kamusseori_reply not_ready_yet(struct work *work, uint32_t code) {
    struct kamusseori_standing *standing = &work->pair->standing;
    if (standing->settings.rnr < 7) {
        if (standing->clock.rnrs == 0)
            return end(work);
        standing->clock.rnrs--;
    }
    standing->clock.hold = (uint64_t)10000 * waits[code];
    return resend(work, KAMUSSEORI_ANSWER_HELD);
}

struct kamusseori_reply peer_acknowledge(TABLES, NUMBERS, uint32_t pair, uint32_t psn, uint32_t syndrome) {
    (void)pair_count, (void)slot_count;
    uint32_t refusal = not_ready(pairs, pair);
    if (refusal != 0)
        return refused(refusal);
    if (psn > LAST_PSN || bad_syndrome(syndrome))
        return refused(KAMUSSEORI_OUT_OF_RANGE);
    if (completion_count < KAMUSSEORI_COMPLETIONS)
        return refused(KAMUSSEORI_SHORT_BUFFER);
    struct work work = {&pairs[pair], ends, slots, completions, 0};
    if (!inside(&work.pair->standing.line, psn))
        return report(&work, KAMUSSEORI_ANSWER_DROPPED);
    if (syndrome < KAMUSSEORI_RNR)
        return release(&work, plus(psn, 1)) ? resend(&work, KAMUSSEORI_ANSWER_RESENDING) : report(&work, KAMUSSEORI_ANSWER_DONE);
    release(&work, psn);
    if (syndrome < KAMUSSEORI_NAK_SEQUENCE)
        return not_ready_yet(&work, syndrome - KAMUSSEORI_RNR);
    return syndrome == KAMUSSEORI_NAK_REMOTE_OPERATIONAL ? end(&work) : resend(&work, KAMUSSEORI_ANSWER_RESENDING);
}

/* ---- read responses */

/* The read that a PSN belongs to, if there is one. */
static const struct kamusseori_packet *read_at(const struct work *work, uint32_t psn) {
    uint32_t shift = shift_of(&work->pair->standing.settings);
    for (uint32_t at = work->pair->queue.first; at != KAMUSSEORI_NO_SLOT; at = work->slots[at].link) {
        const struct kamusseori_packet *packet = &work->slots[at].packet;
        if (distance(packet->psn, psn) < span_of(shift, packet))
            return packet->opcode == READ_REQUEST ? packet : NULL;
    }
    return NULL;
}

struct kamusseori_reply peer_response(TABLES, NUMBERS, uint32_t pair, uint32_t psn, uint32_t opcode, uint32_t length) {
    (void)pair_count, (void)slot_count;
    uint32_t refusal = not_ready(pairs, pair);
    if (refusal != 0)
        return refused(refusal);
    if (psn > LAST_PSN || opcode < 13 || opcode > 16)
        return refused(KAMUSSEORI_OUT_OF_RANGE);
    if (completion_count < KAMUSSEORI_COMPLETIONS)
        return refused(KAMUSSEORI_SHORT_BUFFER);
    struct work work = {&pairs[pair], ends, slots, completions, 0};
    if (!inside(&work.pair->standing.line, psn))
        return report(&work, KAMUSSEORI_ANSWER_DROPPED);
    const struct kamusseori_packet *read = read_at(&work, psn);
    if (read == NULL)
        return refused(KAMUSSEORI_DOES_NOT_FIT);
    uint32_t shift = shift_of(&work.pair->standing.settings), k = distance(read->psn, psn), done = k << shift;
    bool last = k + 1 == packets_for(shift, read->length);
    if (length != (last ? read->length - done : 1u << shift) || (opcode >= 15) != last)
        return refused(KAMUSSEORI_DOES_NOT_FIT);
    if (release(&work, psn))
        return resend(&work, KAMUSSEORI_ANSWER_RESENDING);
    uint32_t place = read->offset + done;
    if (last)
        leave(&work, 1, KAMUSSEORI_RELEASED);
    advance(&work.pair->standing, plus(psn, 1));
    return answered(KAMUSSEORI_ANSWER_DONE, work.messages, place);
}

/* ---- time, and the end */

struct kamusseori_reply peer_timer(TABLES, NUMBERS, uint32_t pair, uint64_t elapsed) {
    (void)pair_count, (void)slot_count;
    uint32_t refusal = not_ready(pairs, pair);
    if (refusal != 0)
        return refused(refusal);
    if (elapsed > UINT32_MAX)
        return refused(KAMUSSEORI_OUT_OF_RANGE);
    if (completion_count < KAMUSSEORI_COMPLETIONS)
        return refused(KAMUSSEORI_SHORT_BUFFER);
    struct work work = {&pairs[pair], ends, slots, completions, 0};
    struct kamusseori_standing *standing = &pairs[pair].standing;
    struct kamusseori_clock *clock = &standing->clock;
    if (clock->hold > 0) {
        bool over = elapsed >= clock->hold;
        clock->hold = over ? 0 : clock->hold - elapsed;
        return report(&work, over ? KAMUSSEORI_ANSWER_RESUMED : KAMUSSEORI_ANSWER_IDLE);
    }
    if (standing->line.u == standing->line.h || standing->settings.timeout == 0)
        return report(&work, KAMUSSEORI_ANSWER_IDLE);
    if (clock->elapsed + elapsed < (uint64_t)4096 << standing->settings.timeout) {
        clock->elapsed += elapsed;
        return report(&work, KAMUSSEORI_ANSWER_IDLE);
    }
    if (clock->retries == 0)
        return end(&work);
    clock->retries--;
    return resend(&work, KAMUSSEORI_ANSWER_RESENDING);
}

struct kamusseori_reply peer_close(TABLES, NUMBERS, uint32_t pair) {
    (void)pair_count, (void)slot_count;
    if (pair >= KAMUSSEORI_PAIRS)
        return refused(KAMUSSEORI_NO_SUCH_PAIR);
    if (pairs[pair].standing.state == KAMUSSEORI_STATE_CLOSED)
        return refused(KAMUSSEORI_WRONG_STATE);
    if (completion_count < KAMUSSEORI_COMPLETIONS)
        return refused(KAMUSSEORI_SHORT_BUFFER);
    struct work work = {&pairs[pair], ends, slots, completions, 0};
    leave(&work, pairs[pair].queue.held, KAMUSSEORI_FLUSHED);
    memset(&pairs[pair].standing, 0, sizeof pairs[pair].standing);
    return report(&work, KAMUSSEORI_ANSWER_DONE);
}
