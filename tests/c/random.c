/* The archive beside the peer, over the same bytes: the same reply and the same memory, for tables that calls have made, such tables damaged, and any bytes. */
#include <string.h>

#include "requests.h"
#include "test.h"

enum { STEPS = 60000, DAMAGED = 12000, CALLS_ON_DAMAGED = 6, ANY_BYTES = 2000 };

static struct card ours, theirs, before;

/* How many calls each refusal had, so that no kind of answer is missed for want of aim. */
static unsigned long given[16];

static void random_lengths(struct lent *a, struct lent *b) {
    if (one_in(40))
        a->record_bytes = b->record_bytes = below(KAMUSSEORI_RECORD_BYTES * KAMUSSEORI_BUDGET);
    if (one_in(40))
        a->completion_count = b->completion_count = below(KAMUSSEORI_COMPLETIONS);
    if (one_in(200))
        a->pair_count = b->pair_count = below(KAMUSSEORI_PAIRS + SPARE);
    if (one_in(200))
        a->slot_count = b->slot_count = below(KAMUSSEORI_SLOTS + SPARE);
}

/* One call on both cards, which are equal. */
static void step(const char *about) {
    struct request request = random_request(&ours);
    struct lent to_archive = lend(&ours), to_peer = lend(&theirs);
    random_lengths(&to_archive, &to_peer);
    before = ours;
    struct kamusseori_reply a = carry_out(&archive, to_archive, &request), p = carry_out(&audited, to_peer, &request);
    const char *name = call_names[request.call];
    check(same_reply(a, p), "%s: %s answers %u %u %u %u, the peer %u %u %u %u", about, name, a.refusal, a.answer, a.number, a.place, p.refusal,
          p.answer, p.number, p.place);
    check(same_card(&ours, &theirs), "%s: %s leaves other memory than the peer", about, name);
    if (a.refusal != 0)
        check(same_card(&ours, &before), "%s: %s is refused by %u and changes something", about, name, a.refusal);
    given[a.refusal & 15]++;
    ours = theirs;
}

static void random_fill(void *memory, size_t bytes) {
    for (uint8_t *byte = memory; bytes > 0; byte++, bytes--)
        *byte = (uint8_t)random_bits();
}

/* A whole number of 32 bits of the tables becomes another, mostly a near one. */
static void damage(struct card *card) {
    const size_t tables = offsetof(struct card, records) / sizeof(uint32_t);
    uint32_t *number = (uint32_t *)(void *)card + below((uint32_t)tables);
    /* a slot that is held or a pair that is open matters more */
    if (one_in(2))
        number = (uint32_t *)(void *)&card->pairs[below(6)] + below(sizeof card->pairs[0] / sizeof *number);
    switch (below(4)) {
    case 0:
        *number = (uint32_t)random_bits();
        break;
    case 1:
        *number ^= (uint32_t)1 << below(32);
        break;
    default:
        *number += below(5) - 2;
    }
}

/* From time to time a card damaged in a few places; the undamaged one goes on. */
static void damaged_calls(void) {
    static struct card kept;
    kept = ours;
    for (uint32_t n = 1 + below(3); n > 0; n--)
        damage(&ours);
    theirs = ours;
    for (int i = 0; i < CALLS_ON_DAMAGED; i++)
        step("damaged tables");
    ours = theirs = kept;
}

void test_random(void) {
    seed_random(20);
    start(&ours);
    theirs = ours;
    for (int i = 0; i < STEPS; i++) {
        step("calls");
        if (i % (STEPS / DAMAGED) == 0)
            damaged_calls();
    }
    for (uint32_t number = 0; number <= 9; number++)
        check(given[number] > 0, "no random call was refused by %u", number);
    check(given[15] > DAMAGED, "only %lu random calls were refused by 15", given[15]);
    for (int i = 0; i < ANY_BYTES; i++) {
        random_fill(&ours, sizeof ours);
        theirs = ours;
        for (int k = 0; k < CALLS; k++)
            step("any bytes");
    }
}
