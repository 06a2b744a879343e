/* What the peer's files share: PSNs, a message's sizes, the tests of settings and posts, moves between queues. */
#ifndef RULES_H
#define RULES_H

#include "peer.h"

enum { READ_REQUEST = 12, HALF = 8388607, LAST_PSN = KAMUSSEORI_PSNS - 1 };

/* ---- PSNs: 24 bits, compared by distance */

static inline uint32_t distance(uint32_t a, uint32_t b) {
    return (b - a) & LAST_PSN;
}

static inline uint32_t plus(uint32_t psn, uint32_t n) {
    return (psn + n) & LAST_PSN;
}

static inline uint32_t further(uint32_t u, uint32_t a, uint32_t b) {
    return distance(u, a) < distance(u, b) ? b : a;
}

/* ---- a message's sizes; a PMTU is a power of two */

static inline uint32_t shift_of(const struct kamusseori_settings *settings) {
    return 7 + settings->pmtu;
}

/* Of a length below 2^31. */
static inline uint32_t packets_for(uint32_t shift, uint32_t length) {
    return length == 0 ? 1 : ((length - 1) >> shift) + 1;
}

static inline uint32_t span_of(uint32_t shift, const struct kamusseori_packet *packet) {
    return packet->opcode == READ_REQUEST ? packets_for(shift, packet->length) : 1;
}

/* ---- what a request's opcode carries: opcodes 0 to 12 */

struct carries {
    uint8_t header_length;
    bool reth, immediate, last;
};

extern const struct carries carried[READ_REQUEST + 1];

/* ---- ranges, and the audit's last sum */

bool bad_settings(const struct kamusseori_settings *settings);
bool bad_reach(uint64_t offset, uint32_t length, bool far, uint64_t address);
uint32_t claimed(const struct kamusseori_pair *pairs);

static inline uint32_t larger(uint32_t a, uint32_t b) {
    return a > b ? a : b;
}

static inline uint32_t claim_of(const struct kamusseori_pair *pair) {
    return pair->standing.state == KAMUSSEORI_STATE_CLOSED ? 0 : larger(pair->standing.settings.share, pair->queue.held);
}

/* ---- replies */

static inline struct kamusseori_reply refused(uint32_t number) {
    return (struct kamusseori_reply){number, 0, 0, 0};
}

static inline struct kamusseori_reply answered(uint32_t answer, uint32_t number, uint32_t place) {
    return (struct kamusseori_reply){0, answer, number, place};
}

static inline struct kamusseori_reply numbered(uint32_t number) {
    return (struct kamusseori_reply){0, 0, number, 0};
}

/* 1 and 2, for a call that wants the pair ready. */
static inline uint32_t not_ready(const struct kamusseori_pair *pairs, uint32_t pair) {
    if (pair >= KAMUSSEORI_PAIRS)
        return KAMUSSEORI_NO_SUCH_PAIR;
    return pairs[pair].standing.state == KAMUSSEORI_STATE_READY ? 0 : KAMUSSEORI_WRONG_STATE;
}

/* ---- the files' own parts */

bool passes(TABLES);
void write_record(uint8_t *record, const struct kamusseori_standing *standing, const struct kamusseori_packet *packet);
struct kamusseori_reply peer_fresh(TABLES);
struct kamusseori_reply peer_open(TABLES, uint32_t pair, struct kamusseori_settings settings, uint32_t first);
struct kamusseori_reply peer_post(TABLES, uint32_t pair, struct kamusseori_post post);
struct kamusseori_reply peer_emit(TABLES, uint8_t *records, size_t record_bytes, uint32_t pair, uint32_t budget);
struct kamusseori_reply peer_acknowledge(TABLES, NUMBERS, uint32_t pair, uint32_t psn, uint32_t syndrome);
struct kamusseori_reply peer_response(TABLES, NUMBERS, uint32_t pair, uint32_t psn, uint32_t opcode, uint32_t length);
struct kamusseori_reply peer_timer(TABLES, NUMBERS, uint32_t pair, uint64_t elapsed);
struct kamusseori_reply peer_close(TABLES, NUMBERS, uint32_t pair);

#endif
