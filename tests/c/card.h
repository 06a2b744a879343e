/* One card's lent memory, a call as a record, and two cards compared. */
#ifndef CARD_H
#define CARD_H

#include "peer.h"

/* Each row has some more than is lent, which no call may touch. */
enum { SPARE = 2, SPARE_BYTES = 40 };

struct card {
    struct kamusseori_pair pairs[KAMUSSEORI_PAIRS + SPARE];
    struct kamusseori_ends ends;
    struct kamusseori_slot slots[KAMUSSEORI_SLOTS + SPARE];
    uint8_t records[KAMUSSEORI_RECORD_BYTES * KAMUSSEORI_BUDGET + SPARE_BYTES];
    uint32_t completions[KAMUSSEORI_COMPLETIONS + SPARE];
};

/* What is lent to a call. */
struct lent {
    struct kamusseori_pair *pairs;
    size_t pair_count;
    struct kamusseori_ends *ends;
    struct kamusseori_slot *slots;
    size_t slot_count;
    uint8_t *records;
    size_t record_bytes;
    uint32_t *completions;
    size_t completion_count;
};

enum call { FRESH, OPEN, POST, EMIT, ACKNOWLEDGE, RESPONSE, TIMER, CLOSE, AUDIT, CALLS };

/* A call and its arguments; each call has some of them. */
struct request {
    enum call call;
    uint32_t pair;
    struct kamusseori_settings settings;
    struct kamusseori_post post;
    uint32_t first, budget, psn, syndrome, opcode, length;
    uint64_t elapsed;
};

/* The archive's calls, by its own names. */
extern const struct calls archive;

extern const char *const call_names[CALLS];

struct lent lend(struct card *card);
struct kamusseori_reply carry_out(const struct calls *by, struct lent lent, const struct request *request);
bool same_reply(struct kamusseori_reply a, struct kamusseori_reply b);

/* The same in every field and every byte of the buffers. The bytes between fields are nobody's; `gaps_differ` counts cards that differ there. */
bool same_card(const struct card *a, const struct card *b);
extern unsigned long gaps_differ;

#endif
