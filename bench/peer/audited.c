/* The peer's two sets: the calls as they are, and each with the audit in front. */
#include "rules.h"

#define LENT pairs, pair_count, ends, slots, slot_count
#define AUDITED(call) (passes(LENT) ? (call) : refused(KAMUSSEORI_AUDIT_FAILED))

static uint32_t audit(TABLES) {
    return passes(LENT) ? 0 : KAMUSSEORI_AUDIT_FAILED;
}

/* A fresh start tests only the two lengths. */
static struct kamusseori_reply audited_fresh(TABLES) {
    bool fits = pair_count == KAMUSSEORI_PAIRS && slot_count == KAMUSSEORI_SLOTS;
    return fits ? peer_fresh(LENT) : refused(KAMUSSEORI_AUDIT_FAILED);
}

static struct kamusseori_reply audited_open(TABLES, uint32_t pair, struct kamusseori_settings settings, uint32_t first) {
    return AUDITED(peer_open(LENT, pair, settings, first));
}

static struct kamusseori_reply audited_post(TABLES, uint32_t pair, struct kamusseori_post post) {
    return AUDITED(peer_post(LENT, pair, post));
}

static struct kamusseori_reply audited_emit(TABLES, uint8_t *records, size_t record_bytes, uint32_t pair, uint32_t budget) {
    return AUDITED(peer_emit(LENT, records, record_bytes, pair, budget));
}

static struct kamusseori_reply audited_acknowledge(TABLES, NUMBERS, uint32_t pair, uint32_t psn, uint32_t syndrome) {
    return AUDITED(peer_acknowledge(LENT, completions, completion_count, pair, psn, syndrome));
}

static struct kamusseori_reply audited_response(TABLES, NUMBERS, uint32_t pair, uint32_t psn, uint32_t opcode, uint32_t length) {
    return AUDITED(peer_response(LENT, completions, completion_count, pair, psn, opcode, length));
}

static struct kamusseori_reply audited_timer(TABLES, NUMBERS, uint32_t pair, uint64_t elapsed) {
    return AUDITED(peer_timer(LENT, completions, completion_count, pair, elapsed));
}

static struct kamusseori_reply audited_close(TABLES, NUMBERS, uint32_t pair) {
    return AUDITED(peer_close(LENT, completions, completion_count, pair));
}

const struct calls plain = {peer_fresh, peer_open, peer_post, peer_emit, peer_acknowledge, peer_response, peer_timer, peer_close, audit};
const struct calls audited = {audited_fresh,    audited_open,  audited_post,  audited_emit, audited_acknowledge,
                              audited_response, audited_timer, audited_close, audit};
