#include "card.h"

#include <string.h>

const struct calls archive = {kamusseori_fresh,    kamusseori_open,  kamusseori_post,  kamusseori_emit, kamusseori_acknowledge,
                              kamusseori_response, kamusseori_timer, kamusseori_close, kamusseori_audit};

const char *const call_names[CALLS] = {"fresh", "open", "post", "emit", "acknowledge", "response", "timer", "close", "audit"};

unsigned long gaps_differ;

struct lent lend(struct card *card) {
    struct lent lent = {card->pairs, KAMUSSEORI_PAIRS, &card->ends, card->slots, KAMUSSEORI_SLOTS, card->records, 0, card->completions, 0};
    lent.record_bytes = KAMUSSEORI_RECORD_BYTES * KAMUSSEORI_BUDGET;
    lent.completion_count = KAMUSSEORI_COMPLETIONS;
    return lent;
}

struct kamusseori_reply carry_out(const struct calls *by, struct lent l, const struct request *r) {
#define LENT l.pairs, l.pair_count, l.ends, l.slots, l.slot_count
#define LENT_NUMBERS LENT, l.completions, l.completion_count
    switch (r->call) {
    case FRESH:
        return by->fresh(LENT);
    case OPEN:
        return by->open(LENT, r->pair, r->settings, r->first);
    case POST:
        return by->post(LENT, r->pair, r->post);
    case EMIT:
        return by->emit(LENT, l.records, l.record_bytes, r->pair, r->budget);
    case ACKNOWLEDGE:
        return by->acknowledge(LENT_NUMBERS, r->pair, r->psn, r->syndrome);
    case RESPONSE:
        return by->response(LENT_NUMBERS, r->pair, r->psn, r->opcode, r->length);
    case TIMER:
        return by->timer(LENT_NUMBERS, r->pair, r->elapsed);
    case CLOSE:
        return by->close(LENT_NUMBERS, r->pair);
    default:
        return (struct kamusseori_reply){by->audit(LENT), 0, 0, 0};
    }
}

bool same_reply(struct kamusseori_reply a, struct kamusseori_reply b) {
    return memcmp(&a, &b, sizeof a) == 0;
}

/* The bytes of a record after `field` and before the next. */
#define CLEAR_GAP(record, field, next) \
    memset((char *)(record) + (offsetof(__typeof__(*(record)), field) + sizeof(record)->field), 0, \
           (next) - (offsetof(__typeof__(*(record)), field) + sizeof(record)->field))

static void clear_gaps(struct card *card) {
    for (size_t i = 0; i < KAMUSSEORI_PAIRS + SPARE; i++) {
        struct kamusseori_pair *pair = &card->pairs[i];
        CLEAR_GAP(&pair->standing, line, offsetof(struct kamusseori_standing, clock));
        CLEAR_GAP(pair, queue, sizeof *pair);
    }
    for (size_t i = 0; i < KAMUSSEORI_SLOTS + SPARE; i++) {
        struct kamusseori_slot *slot = &card->slots[i];
        CLEAR_GAP(slot, link, offsetof(struct kamusseori_slot, packet));
        CLEAR_GAP(&slot->packet, length, offsetof(struct kamusseori_packet, address));
        CLEAR_GAP(&slot->packet, value, sizeof slot->packet);
    }
}

bool same_card(const struct card *a, const struct card *b) {
    static struct card left, right;
    if (memcmp(a, b, sizeof *a) == 0)
        return true;
    left = *a;
    right = *b;
    clear_gaps(&left);
    clear_gaps(&right);
    bool same = memcmp(&left, &right, sizeof left) == 0;
    gaps_differ += same;
    return same;
}
