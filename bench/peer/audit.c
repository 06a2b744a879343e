/* The audit: one walk along every queue, with a mark for each slot seen. */
#include "rules.h"

#define LONGEST_HOLD 655360000u

/* The slots seen so far, and how many. A byte each: a bit each would make every step wait for the one before. */
struct seen {
    bool slots[KAMUSSEORI_SLOTS];
    uint32_t count;
};

static bool see(struct seen *seen, uint32_t slot) {
    if (slot >= KAMUSSEORI_SLOTS || seen->slots[slot])
        return false;
    seen->slots[slot] = true;
    seen->count++;
    return true;
}

/* Along one pair's queue. Of a message that is not at its end: its kind, how many records it has so far, and what they must agree on. */
struct walk {
    const struct kamusseori_standing *standing;
    uint32_t shift;
    uint32_t place; /* where the next record starts: a plain number, the distance from U with spans added */
    bool x_stands, h_stands;
    uint32_t records, kind, ticket, total;
    bool whole; /* its First is here, so a write's length is told */
    uint64_t offset;
};

static bool immediate_fits(const struct kamusseori_packet *p) {
    return carried[p->opcode].immediate || p->value == 0;
}

static bool has_no_reth(const struct kamusseori_packet *p) {
    return p->address == 0 && p->key == 0 && p->total == 0;
}

/* A read or an Only: a whole post by itself. */
static bool single_fits(const struct walk *w, const struct kamusseori_packet *p) {
    bool far = carried[p->opcode].reth;
    if (p->opcode != READ_REQUEST && p->length > 1u << w->shift)
        return false;
    if (far ? p->total != p->length : !has_no_reth(p))
        return false;
    return immediate_fits(p) && !bad_reach(p->offset, p->length, far, p->address);
}

/* A First, of a message that goes on. A write tells its length, which the Last must bear out. */
static bool first_fits(const struct walk *w, const struct kamusseori_packet *p) {
    if (p->length != 1u << w->shift || p->value != 0)
        return false;
    if (!carried[p->opcode].reth)
        return has_no_reth(p);
    return !bad_reach(p->offset, p->total, true, p->address);
}

static void begin_message(struct walk *w, const struct kamusseori_packet *p, bool whole, uint64_t offset) {
    w->records = 1;
    w->kind = p->opcode / 6;
    w->ticket = p->ticket;
    w->total = p->total;
    w->whole = whole;
    w->offset = offset;
}

/* A Middle or Last behind w->records others of its message. */
static bool rest_fits(struct walk *w, const struct kamusseori_packet *p) {
    uint32_t mtu = 1u << w->shift, ahead = w->records << w->shift;
    if (p->opcode / 6 != w->kind || p->ticket != w->ticket || p->offset != w->offset + ahead)
        return false;
    if (!has_no_reth(p) || !immediate_fits(p) || ++w->records > w->standing->settings.ceiling)
        return false;
    if (!carried[p->opcode].last)
        return p->length == mtu;
    uint32_t length = ahead + p->length;
    bool told = w->whole && w->kind == KAMUSSEORI_WRITE;
    w->records = 0;
    return p->length >= 1 && p->length <= mtu && !bad_reach(w->offset, length, false, 0) && (!told || w->total == length);
}

/* The next record of the queue's messages; only the pair's first message may lack its front, of which one packet is the least. */
static bool message_fits(struct walk *w, const struct kamusseori_packet *p, bool foremost) {
    if (p->opcode > READ_REQUEST)
        return false;
    uint32_t form = p->opcode % 6; /* 0 First (or a read), 1 Middle, 2 and 3 Last, 4 and 5 Only */
    bool rear = form >= 1 && form <= 3;
    if (!rear && w->records > 0)
        return false;
    if (rear) {
        if (w->records == 0) {
            if (!foremost || p->offset < 1u << w->shift)
                return false;
            begin_message(w, p, false, p->offset - (1u << w->shift));
        }
        return rest_fits(w, p);
    }
    if (form >= 4 || p->opcode == READ_REQUEST)
        return single_fits(w, p);
    begin_message(w, p, true, p->offset);
    return first_fits(w, p);
}

/* A record starts where the one before ends; U is one of the first one's PSNs, and H past it if it is partly answered. */
static bool order_fits(struct walk *w, const struct kamusseori_packet *p, bool foremost) {
    const struct kamusseori_line *line = &w->standing->line;
    uint32_t span = span_of(w->shift, p);
    if (p->psn > LAST_PSN)
        return false;
    if (foremost) {
        uint32_t gone = distance(p->psn, line->u);
        if (gone >= span || (gone > 0 && span - gone > distance(line->u, line->h)))
            return false;
        w->place = span - gone;
    } else {
        if (distance(line->u, p->psn) != w->place)
            return false;
        w->place += span;
    }
    w->x_stands |= line->x == p->psn;
    w->h_stands |= line->h == p->psn;
    return true;
}

static bool line_fits(const struct kamusseori_line *l) {
    uint32_t x = distance(l->u, l->x), h = distance(l->u, l->h), n = distance(l->u, l->n);
    return x <= h && h <= n && n <= HALF;
}

static bool clock_fits(const struct kamusseori_standing *s) {
    const struct kamusseori_clock *c = &s->clock;
    bool still = s->line.u == s->line.h || c->hold > 0 || s->settings.timeout == 0;
    return c->hold <= LONGEST_HOLD && c->elapsed < (uint64_t)4096 << s->settings.timeout && (!still || c->elapsed == 0);
}

/* An open pair's record by itself. */
static bool record_fits(const struct kamusseori_pair *pair) {
    const struct kamusseori_standing *s = &pair->standing;
    if (bad_settings(&s->settings) || (s->line.u | s->line.x | s->line.h | s->line.n) > LAST_PSN)
        return false;
    return s->clock.retries <= s->settings.retry && s->clock.rnrs <= s->settings.rnr && pair->queue.held <= s->settings.ceiling;
}

/* A ready pair's queue, by its links. */
static bool queue_fits(const struct kamusseori_pair *pair, const struct kamusseori_slot *slots, struct seen *seen) {
    const struct kamusseori_line *line = &pair->standing.line;
    struct walk w = {.standing = &pair->standing, .shift = shift_of(&pair->standing.settings)};
    uint32_t at = pair->queue.first, last = KAMUSSEORI_NO_SLOT;
    for (uint32_t i = 0; i < pair->queue.held; i++) {
        if (!see(seen, at))
            return false;
        const struct kamusseori_packet *packet = &slots[at].packet;
        if (!message_fits(&w, packet, i == 0) || !order_fits(&w, packet, i == 0))
            return false;
        last = at;
        at = slots[at].link;
    }
    if (at != KAMUSSEORI_NO_SLOT || last != pair->queue.last || w.records > 0 || w.place != distance(line->u, line->n))
        return false;
    bool x_stands = w.x_stands || line->x == line->u || line->x == line->n;
    bool h_stands = w.h_stands || line->h == line->u || line->h == line->n;
    return x_stands && h_stands;
}

static bool pair_fits(const struct kamusseori_pair *pair, const struct kamusseori_slot *slots, struct seen *seen) {
    uint32_t state = pair->standing.state;
    if (state > KAMUSSEORI_STATE_ENDED || (state != KAMUSSEORI_STATE_CLOSED && !record_fits(pair)))
        return false;
    if (state == KAMUSSEORI_STATE_READY)
        return line_fits(&pair->standing.line) && clock_fits(&pair->standing) && queue_fits(pair, slots, seen);
    return pair->queue.held == 0 && pair->queue.first == KAMUSSEORI_NO_SLOT && pair->queue.last == KAMUSSEORI_NO_SLOT;
}

/* The free queue has every slot that no pair has. */
static bool free_fits(const struct kamusseori_ends *ends, const struct kamusseori_slot *slots, struct seen *seen) {
    uint32_t at = ends->first, last = KAMUSSEORI_NO_SLOT;
    while (seen->count < KAMUSSEORI_SLOTS) {
        if (!see(seen, at))
            return false;
        last = at;
        at = slots[at].link;
    }
    return at == KAMUSSEORI_NO_SLOT && last == ends->last;
}

bool passes(TABLES) {
    if (pair_count != KAMUSSEORI_PAIRS || slot_count != KAMUSSEORI_SLOTS)
        return false;
    struct seen seen = {{0}, 0};
    uint32_t sum = 0;
    for (uint32_t i = 0; i < KAMUSSEORI_PAIRS; i++) {
        if (!pair_fits(&pairs[i], slots, &seen))
            return false;
        sum += claim_of(&pairs[i]);
    }
    return sum <= KAMUSSEORI_SLOTS && free_fits(ends, slots, &seen);
}
