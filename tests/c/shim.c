/*
 * The audited peer under the archive's names, so that a program over the archive can be tried without it. FAULT puts a fault in, one of those that
 * the tests must find.
 */
#include "peer.h"

#ifndef FAULT
#define FAULT 0
#endif

#define LENT pairs, pair_count, ends, slots, slot_count
#define LENT_NUMBERS LENT, completions, completion_count

struct kamusseori_reply kamusseori_fresh(TABLES) {
    return audited.fresh(LENT);
}

struct kamusseori_reply kamusseori_open(TABLES, uint32_t pair, struct kamusseori_settings settings, uint32_t first) {
    if (FAULT == 1) /* two settings change places */
        settings = (struct kamusseori_settings){settings.far,     settings.pkey, settings.pmtu,  settings.share,
                                                settings.ceiling, settings.rnr,  settings.retry, settings.timeout};
    return audited.open(LENT, pair, settings, first);
}

struct kamusseori_reply kamusseori_post(TABLES, uint32_t pair, struct kamusseori_post post) {
    return audited.post(LENT, pair, post);
}

struct kamusseori_reply kamusseori_emit(TABLES, uint8_t *records, size_t record_bytes, uint32_t pair, uint32_t budget) {
    if (FAULT == 2 && budget == 0) /* a refused call writes */
        records[0] = 0;
    return audited.emit(LENT, records, record_bytes, pair, budget);
}

struct kamusseori_reply kamusseori_acknowledge(TABLES, NUMBERS, uint32_t pair, uint32_t psn, uint32_t syndrome) {
    struct kamusseori_reply reply = audited.acknowledge(LENT_NUMBERS, pair, psn, syndrome);
    if (FAULT == 3 && reply.refusal == 0 && reply.number > 1) /* a number too many */
        completions[2 * reply.number] = 0;
    return reply;
}

struct kamusseori_reply kamusseori_response(TABLES, NUMBERS, uint32_t pair, uint32_t psn, uint32_t opcode, uint32_t length) {
    return audited.response(LENT_NUMBERS, pair, psn, opcode, length);
}

struct kamusseori_reply kamusseori_timer(TABLES, NUMBERS, uint32_t pair, uint64_t elapsed) {
    /* no audit */
    return (FAULT == 4 ? &plain : &audited)->timer(LENT_NUMBERS, pair, elapsed);
}

struct kamusseori_reply kamusseori_close(TABLES, NUMBERS, uint32_t pair) {
    if (FAULT == 5 && pair < KAMUSSEORI_PAIRS) /* a refused call repairs the tables */
        pairs[pair].standing.clock.rnrs = 0;
    return audited.close(LENT_NUMBERS, pair);
}

uint32_t kamusseori_audit(TABLES) {
    return audited.audit(LENT);
}
