/*
 * The peer: a plain C requester in place, written from the same rules over the same records. It is what the archive is measured against and
 * tested against. `plain` takes the tables on trust; `audited` audits first, as the archive does.
 */
#ifndef PEER_H
#define PEER_H

#include <stdbool.h>

#include "kamusseori.h"

#define TABLES struct kamusseori_pair *pairs, size_t pair_count, struct kamusseori_ends *ends, struct kamusseori_slot *slots, size_t slot_count
#define NUMBERS uint32_t *completions, size_t completion_count

/* One implementation of the interface. */
struct calls {
    struct kamusseori_reply (*fresh)(TABLES);
    struct kamusseori_reply (*open)(TABLES, uint32_t pair, struct kamusseori_settings settings, uint32_t first);
    struct kamusseori_reply (*post)(TABLES, uint32_t pair, struct kamusseori_post post);
    struct kamusseori_reply (*emit)(TABLES, uint8_t *records, size_t record_bytes, uint32_t pair, uint32_t budget);
    struct kamusseori_reply (*acknowledge)(TABLES, NUMBERS, uint32_t pair, uint32_t psn, uint32_t syndrome);
    struct kamusseori_reply (*response)(TABLES, NUMBERS, uint32_t pair, uint32_t psn, uint32_t opcode, uint32_t length);
    struct kamusseori_reply (*timer)(TABLES, NUMBERS, uint32_t pair, uint64_t elapsed);
    struct kamusseori_reply (*close)(TABLES, NUMBERS, uint32_t pair);
    uint32_t (*audit)(TABLES);
};

extern const struct calls plain, audited;

#endif
