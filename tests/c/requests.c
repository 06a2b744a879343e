#include "requests.h"

static uint64_t state;

void seed_random(uint64_t seed) {
    state = seed;
}

/* splitmix64 */
uint64_t random_bits(void) {
    uint64_t z = state += 0x9e3779b97f4a7c15;
    z = (z ^ z >> 30) * 0xbf58476d1ce4e5b9;
    z = (z ^ z >> 27) * 0x94d049bb133111eb;
    return z ^ z >> 31;
}

uint32_t below(uint32_t bound) {
    return (uint32_t)(random_bits() % bound);
}

bool one_in(uint32_t times) {
    return below(times) == 0;
}

/* A number at some range's end. */
static uint32_t odd(void) {
    static const uint32_t numbers[] = {0,  1,   2,   5,   6,      7,       8,        31,        32,         63,         64,
                                       65, 255, 256, 257, 0xffff, 0x10000, 0xffffff, 0x1000000, 0x7fffffff, 0x80000000, 0xffffffff};
    return numbers[below(sizeof numbers / sizeof *numbers)];
}

static struct kamusseori_settings random_settings(void) {
    uint32_t share = 1 + below(one_in(4) ? 256 : 30), ceiling = share + below(257 - share);
    struct kamusseori_settings s = {below(1 << 24), below(1 << 16), 1 + below(one_in(2) ? 5 : 2), share, ceiling, below(8), below(8), below(32)};
    uint32_t *const fields[] = {&s.far, &s.pkey, &s.pmtu, &s.share, &s.ceiling, &s.retry, &s.rnr, &s.timeout};
    if (one_in(12))
        *fields[below(8)] = odd();
    return s;
}

/* Lengths about a whole number of packets; a read may be of any. */
static uint32_t random_length(uint32_t kind, uint32_t pmtu) {
    uint32_t mtu = 128u << (pmtu & 7), packets = one_in(6) ? below(300) : below(6);
    if (one_in(64))
        return odd();
    if (kind == KAMUSSEORI_READ && one_in(6))
        return (uint32_t)(random_bits() >> (33 + below(20)));
    return one_in(3) ? below(packets * mtu + 2) : packets * mtu + below(3) - (packets > 0);
}

static struct kamusseori_post random_post(const struct kamusseori_pair *pair) {
    uint32_t kind = below(3), length = random_length(kind, pair->standing.settings.pmtu);
    uint64_t offset = one_in(16) ? ((uint64_t)1 << 32) - length + below(3) - 1 : below(0x7fffffff);
    uint64_t address = one_in(8) ? (uint64_t)0 - length + below(3) - 1 : random_bits() >> 1;
    struct kamusseori_post p = {kind,
                                kind != KAMUSSEORI_READ && one_in(3),
                                one_in(8),
                                (uint32_t)random_bits(),
                                offset,
                                length,
                                address,
                                (uint32_t)random_bits(),
                                (uint32_t)random_bits()};
    uint32_t *const fields[] = {&p.kind, &p.immediate, &p.fenced, &p.length};
    if (one_in(40))
        *fields[below(4)] = odd();
    return p;
}

/* A PSN at U, at H or between, or one off. */
static uint32_t random_psn(const struct kamusseori_line *line) {
    uint32_t open = (line->h - line->u) & 0xffffff;
    if (one_in(50))
        return odd();
    uint32_t from = one_in(3) ? open : below(one_in(2) ? 3 : open + 1);
    return (line->u + from + below(3) - 1) & 0xffffff;
}

/* A response that fits the first read behind `psn`, if there is one: queues may run anywhere. */
static void aim_response(const struct card *card, const struct kamusseori_pair *pair, struct request *r) {
    uint32_t at = pair->queue.first, mtu = 128u << (pair->standing.settings.pmtu & 7);
    r->opcode = 13 + below(4);
    r->length = mtu;
    for (int i = 0; i < KAMUSSEORI_SLOTS && at < KAMUSSEORI_SLOTS; i++, at = card->slots[at].link) {
        const struct kamusseori_packet *p = &card->slots[at].packet;
        uint32_t place = (r->psn - p->psn) & 0xffffff, places = p->length == 0 ? 1 : (p->length - 1) / mtu + 1;
        if (p->opcode != 12 || place >= places)
            continue;
        bool last = place + 1 == places;
        r->opcode = (last ? 15 : 13) + below(2);
        r->length = last ? p->length - place * mtu : mtu;
        return;
    }
}

static uint32_t random_syndrome(void) {
    if (one_in(16))
        return one_in(2) ? below(256) : odd();
    if (one_in(5))
        return KAMUSSEORI_RNR + below(32);
    if (one_in(5))
        return KAMUSSEORI_NAK_SEQUENCE + below(one_in(6) ? 4 : 3);
    return below(32);
}

struct request random_request(const struct card *card) {
    static const enum call calls[] = {OPEN, OPEN,        POST,        POST,        POST,     POST,     EMIT,  EMIT,
                                      EMIT, ACKNOWLEDGE, ACKNOWLEDGE, ACKNOWLEDGE, RESPONSE, RESPONSE, TIMER, AUDIT};
    struct request r = {.call = calls[below(sizeof calls / sizeof *calls)], .pair = below(6)};
    if (one_in(60))
        r.call = CLOSE;
    if (one_in(2000))
        r.call = FRESH;
    if (one_in(50))
        r.pair = one_in(2) ? below(64) : odd();
    const struct kamusseori_pair *pair = &card->pairs[r.pair & 63];
    r.settings = random_settings();
    r.first = one_in(20) ? odd() : 0xffffff - below(one_in(2) ? 20 : 0xffffff);
    r.post = random_post(pair);
    r.budget = one_in(30) ? odd() : 1 + below(one_in(3) ? 64 : 6);
    r.psn = random_psn(&pair->standing.line);
    r.syndrome = random_syndrome();
    r.elapsed = random_bits() >> (one_in(40) ? 0 : 32 + below(24));
    aim_response(card, pair, &r);
    if (one_in(8))
        r.length = below(2) ? r.length + 1 : odd();
    if (one_in(30))
        r.opcode = odd();
    return r;
}
