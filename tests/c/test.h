/* What the tests share: counting, and the list of them. */
#ifndef TEST_H
#define TEST_H

#include "card.h"

/* Counts a check; one that fails writes what it was about. */
void check(bool holds, const char *format, ...) __attribute__((format(printf, 2, 3)));

/* A card after a fresh start, made by the archive; a call on it that must be accepted. */
void start(struct card *card);
struct kamusseori_reply accepted(struct card *card, struct request request);

/* The call is refused so, and not a byte is changed. */
void refuses(struct card *card, struct lent lent, const struct request *request, uint32_t number, const char *about);

/* Sets `bytes` bytes at `place` of a card to a number. */
struct change {
    size_t place, bytes;
    uint64_t number;
};

#define AT(field, number) \
    { offsetof(struct card, field), sizeof((struct card *)0)->field, number }

void apply(struct card *card, struct change change);

/* ---- the tests */

void test_layout(void);
void test_broken(void);
void test_refusals(void);
void test_random(void);

/* ---- the card that is broken (scene.c), and in how many ways (broken_*.c) */

enum { MOST_CHANGES = 9 };

struct variant {
    const char *name;
    struct change changes[MOST_CHANGES];
};

struct variants {
    const struct variant *row;
    size_t count;
};

extern const struct variants broken_queues, broken_records, broken_order, broken_messages, sound;

void make_scene(struct card *card);
void make_full(struct card *card);

#endif
