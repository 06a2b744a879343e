/* "a ready pair's queue starts at U (its first record may be a read partly answered up to U), each record starts where the one before ends, the last
 * ends at N, and an empty queue has U = N; U, X, H, N lie in that order by distance, N at most 8,388,607 from U; X and H stand at U, a record's start
 * or N, and H is past a partly answered read" */
#include "scene.h"

enum { LONGEST = 0x7fffffff, ONE_MORE = FAR_PSNS + 1 };

static const struct variant list[] = {
    {"U past the first record", {LINE(REAR, u, 1)}},
    {"U ahead of the first record", {LINE(REAR, u, 16777215)}},
    {"U ahead of a read", {LINE(READS, u, 99)}},
    {"U past the end of the first read", {LINE(READS, u, 105)}},
    {"the first record starts after U", {PACKET(REAR_MIDDLE, psn, 1)}},
    {"a record starts after the end of the one before", {PACKET(ONLY, psn, 6), LINE(REAR, n, 7)}},
    {"a record starts ahead of the end of the one before", {PACKET(ONLY, psn, 4), LINE(REAR, n, 5)}},
    {"a read of a place more than is left to the next", {PACKET(READ_NEXT, length, 769), PACKET(READ_NEXT, total, 769)}},
    {"a read of a place less than is left to the next", {PACKET(READ_NEXT, length, 512), PACKET(READ_NEXT, total, 512)}},
    {"two records change their PSNs", {PACKET(HELD_FIRST, psn, 9), PACKET(HELD_LAST, psn, 8)}},
    {"N past the last record's end", {LINE(REAR, n, 7)}},
    {"N ahead of the last record's end", {LINE(REAR, n, 5)}},
    {"an empty queue with N past U", {LINE(EMPTY, n, 61)}},
    {"an empty queue with U past N", {LINE(EMPTY, u, 61), LINE(EMPTY, x, 61), LINE(EMPTY, h, 61)}},
    {"an empty queue with X away from U", {LINE(EMPTY, x, 61)}},
    {"an empty queue with X and H away from U", {LINE(EMPTY, x, 61), LINE(EMPTY, h, 61)}},
    {"X past H", {LINE(REAR, x, 5)}},
    {"X at the start of a partly answered read", {LINE(READS, x, 100)}},
    {"H past N", {LINE(READS, h, 100)}},
    {"X and H past N", {LINE(READS, x, 100), LINE(READS, h, 100)}},
    {"H ahead of X", {LINE(REAR, h, 3)}},
    {"N of 8,388,608 from U",
     {PACKET(FAR_READ, length, LONGEST), PACKET(FAR_READ, total, LONGEST), LINE(FAR, n, 500 + ONE_MORE), LINE(FAR, x, 500 + ONE_MORE),
      LINE(FAR, h, 500 + ONE_MORE)}},
    {"two reads once around all PSNs",
     {PACKET(HELD_FIRST, opcode, 12), PACKET(HELD_FIRST, length, LONGEST), PACKET(HELD_FIRST, total, LONGEST), PACKET(HELD_LAST, opcode, 12),
      PACKET(HELD_LAST, length, LONGEST), PACKET(HELD_LAST, total, LONGEST), PACKET(HELD_LAST, psn, 8 + ONE_MORE), LINE(HELD_ONE, h, 8),
      LINE(HELD_ONE, n, 8)}},
    {"X inside a read", {LINE(READS, x, 107)}},
    {"X inside a partly answered read", {LINE(READS, x, 103)}},
    {"H inside a read", {LINE(READS, x, 105), LINE(READS, h, 107)}},
    {"X and H inside a read", {LINE(READS, x, 107), LINE(READS, h, 107)}},
    {"H at a partly answered read", {LINE(READS, x, 102), LINE(READS, h, 102), CLOCK(READS, elapsed, 0)}},
    {"H inside a partly answered read", {LINE(READS, x, 102), LINE(READS, h, 104)}},
};

const struct variants broken_order = VARIANTS(list);
