/* The card that is broken: pairs of every kind, made by calls. Slots are given in order, so their numbers are known. */
#ifndef SCENE_H
#define SCENE_H

#include "test.h"

enum {
    CLOSED_ONE = 0,
    REAR = 1,  /* the rear of a Send, then a Write with immediate and an Only; PSNs around 0; part of it emitted, time running */
    READS = 2, /* a read partly answered, a Send with immediate, a read, a Write */
    HELD_ONE = 3,
    ENDED_ONE = 4,
    EMPTY = 5,
    FAR = 6,   /* one read of all the PSNs that a pair may have out; no timer */
    TIGHT = 7, /* the rear of a message of as many slots as its ceiling */
    STILL = 63 /* nothing emitted */
};

/* Slots by what they hold. */
enum {
    REAR_MIDDLE = 2,
    REAR_LAST,
    WRITE_FIRST,
    WRITE_MIDDLE,
    WRITE_LAST,
    ONLY,
    READ_BEGUN,
    ONLY_IMMEDIATE,
    READ_NEXT,
    WRITE_ONLY,
    HELD_FIRST = 13,
    HELD_LAST,
    FAR_READ = 16,
    TIGHT_MIDDLE = 18,
    TIGHT_LAST,
    STILL_WRITE,
    STILL_WRITE_LAST,
    STILL_SEND,
    STILL_SEND_LAST,
    FREE_FIRST,
    FREE_LAST = 17, /* released as the last */
    NONE = KAMUSSEORI_NO_SLOT
};

enum { FAR_PSNS = 8388607, EMPTY_SHARE = 231 };

#define SETTING(pair, field, number) AT(pairs[pair].standing.settings.field, number)
#define LINE(pair, field, number) AT(pairs[pair].standing.line.field, number)
#define CLOCK(pair, field, number) AT(pairs[pair].standing.clock.field, number)
#define STATE(pair, number) AT(pairs[pair].standing.state, number)
#define QUEUE(pair, field, number) AT(pairs[pair].queue.field, number)
#define LINK(slot, number) AT(slots[slot].link, number)
#define PACKET(slot, field, number) AT(slots[slot].packet.field, number)
#define ENDS(field, number) AT(ends.field, number)

#define VARIANTS(list) \
    { list, sizeof list / sizeof *list }

#endif
