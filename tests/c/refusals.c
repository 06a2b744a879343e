/* Each refusal from 1 to 9 changes nothing; what an accepted call does not write stays. */
#include <string.h>

#include "scene.h"

enum { LONG = KAMUSSEORI_RECORD_BYTES * KAMUSSEORI_BUDGET };

/* A call that is refused on the scene, with buffers of these lengths; 0 stands for the whole. */
struct refusal {
    uint32_t number;
    struct request request;
    size_t record_bytes, completion_count;
};

#define GOOD 5, 6, 1, 1, 4, 7, 7, 14
#define OPENING(pair_, first_, ...) {.call = OPEN, .pair = pair_, .settings = {__VA_ARGS__}, .first = first_}
#define POSTING(pair_, ...) {.call = POST, .pair = pair_, .post = {__VA_ARGS__}}
#define EMITTING(pair_, budget_) {.call = EMIT, .pair = pair_, .budget = budget_}
#define ACKING(pair_, psn_, syndrome_) {.call = ACKNOWLEDGE, .pair = pair_, .psn = psn_, .syndrome = syndrome_}
#define RESPONDING(pair_, psn_, opcode_, length_) {.call = RESPONSE, .pair = pair_, .psn = psn_, .opcode = opcode_, .length = length_}
#define TICKING(pair_, elapsed_) {.call = TIMER, .pair = pair_, .elapsed = elapsed_}
#define CLOSING(pair_) {.call = CLOSE, .pair = pair_}

static const struct refusal list[] = {
    {1, OPENING(64, 0, GOOD), 0, 0},
    {1, POSTING(64, .kind = 9), 0, 0},
    {1, EMITTING(0xffffffff, 0), 0, 0},
    {1, ACKING(64, 0, 0), 0, 0},
    {1, RESPONDING(256, 0, 13, 0), 0, 0},
    {1, TICKING(65, 0), 0, 0},
    {1, CLOSING(64), 0, 1},
    {2, OPENING(REAR, 0, GOOD), 0, 0},
    {2, OPENING(ENDED_ONE, 0, GOOD), 0, 0},
    {2, POSTING(CLOSED_ONE, .kind = 9), 0, 0},
    {2, POSTING(ENDED_ONE, .kind = 0), 0, 0},
    {2, EMITTING(ENDED_ONE, 1), 0, 0},
    {2, ACKING(CLOSED_ONE, 0, 0), 0, 0},
    {2, ACKING(ENDED_ONE, 50, 255), 0, 0},
    {2, RESPONDING(ENDED_ONE, 50, 13, 0), 0, 0},
    {2, TICKING(ENDED_ONE, 5), 0, 0},
    {2, CLOSING(CLOSED_ONE), 0, 1},
    {3, OPENING(0, 0, 1 << 24, 6, 1, 1, 4, 7, 7, 14), 0, 0},
    {3, OPENING(0, 0, 5, 1 << 16, 1, 1, 4, 7, 7, 14), 0, 0},
    {3, OPENING(0, 0, 5, 6, 0, 1, 4, 7, 7, 14), 0, 0},
    {3, OPENING(0, 0, 5, 6, 6, 1, 4, 7, 7, 14), 0, 0},
    {3, OPENING(0, 0, 5, 6, 1, 0, 4, 7, 7, 14), 0, 0},
    {3, OPENING(0, 0, 5, 6, 1, 5, 4, 7, 7, 14), 0, 0},
    {3, OPENING(0, 0, 5, 6, 1, 1, 257, 7, 7, 14), 0, 0},
    {3, OPENING(0, 0, 5, 6, 1, 1, 4, 8, 7, 14), 0, 0},
    {3, OPENING(0, 0, 5, 6, 1, 1, 4, 7, 8, 14), 0, 0},
    {3, OPENING(0, 0, 5, 6, 1, 1, 4, 7, 7, 32), 0, 0},
    {3, OPENING(0, 1 << 24, GOOD), 0, 0},
    {3, POSTING(REAR, .kind = 3), 0, 0},
    {3, POSTING(REAR, .immediate = 2), 0, 0},
    {3, POSTING(REAR, .fenced = 2), 0, 0},
    {3, POSTING(REAR, .immediate = 0xffffffff), 0, 0},
    {3, POSTING(REAR, .fenced = 256), 0, 0},
    {3, POSTING(REAR, .kind = 2, .immediate = 1), 0, 0},
    {3, POSTING(REAR, .length = 0x80000000), 0, 0},
    {3, POSTING(REAR, .offset = 0x100000000), 0, 0},
    {3, POSTING(REAR, .offset = 0xffffffff, .length = 2), 0, 0},
    {3, POSTING(REAR, .offset = 0xffffffffffffffff, .length = 1), 0, 0},
    {3, POSTING(REAR, .kind = 1, .address = 0xffffffffffffffff, .length = 2), 0, 0},
    {3, POSTING(REAR, .kind = 2, .address = 0xfffffffffffffffe, .length = 3), 0, 0},
    {3, EMITTING(REAR, 0), 1, 0},
    {3, EMITTING(REAR, 65), 1, 0},
    {3, EMITTING(HELD_ONE, 65), 1, 0},
    {3, ACKING(REAR, 1 << 24, 0), 0, 1},
    {3, ACKING(REAR, 1, 64), 0, 1},
    {3, ACKING(REAR, 1, 95), 0, 1},
    {3, ACKING(REAR, 1, 100), 0, 1},
    {3, ACKING(REAR, 1, 128), 0, 1},
    {3, ACKING(REAR, 1, 256), 0, 1},
    {3, RESPONDING(READS, 1 << 24, 13, 256), 0, 1},
    {3, RESPONDING(READS, 102, 12, 256), 0, 1},
    {3, RESPONDING(READS, 102, 17, 256), 0, 1},
    {3, TICKING(REAR, 0x100000000), 0, 1},
    {4, EMITTING(REAR, 2), 95, 0},
    {4, EMITTING(HELD_ONE, 64), LONG - 1, 0},
    {4, ACKING(REAR, 1, 0), 0, 511},
    {4, ACKING(REAR, 16777000, 0), 0, 1},
    {4, RESPONDING(READS, 102, 15, 9), 0, 511},
    {4, TICKING(REAR, 10), 0, 511},
    {4, CLOSING(EMPTY), 0, 511},
    {5, POSTING(REAR, .length = 17 * 256, .fenced = 1), 0, 0},
    {5, POSTING(READS, .kind = 1, .length = 17 * 256, .fenced = 1), 0, 0},
    {6, POSTING(READS, .length = 16 * 256, .fenced = 1), 0, 0},
    {6, POSTING(FAR, .kind = 2, .length = 1, .fenced = 1), 0, 0},
    {7, POSTING(FAR, .length = 16 * 256), 0, 0},
    {7, POSTING(FAR, .kind = 2, .length = 0), 0, 0},
    {7, POSTING(EMPTY, .kind = 2, .length = 0x7fffffff), 0, 0},
    {8, POSTING(REAR, .length = 11 * 256), 0, 0},
    {8, POSTING(READS, .length = 2 * 256), 0, 0},
    {8, POSTING(EMPTY, .length = 233 * 256), 0, 0},
    {8, OPENING(0, 0, 5, 6, 1, 2, 4, 7, 7, 14), 0, 0},
    {9, RESPONDING(READS, 105, 16, 20), 0, 0},
    {9, RESPONDING(READS, 102, 14, 255), 0, 0},
    {9, RESPONDING(READS, 102, 15, 256), 0, 0},
    {9, RESPONDING(READS, 104, 14, 176), 0, 0},
    {9, RESPONDING(READS, 104, 15, 256), 0, 0},
    {9, RESPONDING(READS, 108, 16, 189), 0, 0},
    {9, RESPONDING(REAR, 0, 13, 256), 0, 0},
};

static void each_refused(const struct card *scene) {
    static struct card card;
    for (size_t i = 0; i < sizeof list / sizeof *list; i++) {
        struct lent lent = lend(&card);
        card = *scene;
        if (list[i].record_bytes > 0)
            lent.record_bytes = list[i].record_bytes;
        if (list[i].completion_count > 0)
            lent.completion_count = list[i].completion_count;
        refuses(&card, lent, &list[i].request, list[i].number, "refusal");
    }
}

/* Buffers as long as they must be and no longer; so many bytes or numbers are written at the front and the rest stays. */
static void rest_stays(const struct card *scene) {
    static struct card card, before;
    static const struct {
        struct request request;
        uint32_t count, bytes, numbers;
    } calls[] = {
        {EMITTING(REAR, 1), 1, 48, 0}, {EMITTING(REAR, 64), 2, 96, 0}, {EMITTING(HELD_ONE, 64), 0, 0, 0}, {ACKING(REAR, 1, 0), 1, 0, 2},
        {ACKING(REAR, 3, 0), 1, 0, 2}, {ACKING(REAR, 5, 0), 0, 0, 0},  {CLOSING(REAR), 3, 0, 6},          {CLOSING(READS), 4, 0, 8},
        {CLOSING(EMPTY), 0, 0, 0},     {TICKING(REAR, 5), 0, 0, 0},    {ACKING(REAR, 2, 99), 3, 0, 6},    {RESPONDING(READS, 102, 13, 256), 0, 0, 0},
    };
    for (size_t i = 0; i < sizeof calls / sizeof *calls; i++) {
        card = *scene;
        memset(card.records, 0x5a, sizeof card.records);
        memset(card.completions, 0x5a, sizeof card.completions);
        before = card;
        struct lent lent = lend(&card);
        lent.record_bytes = calls[i].request.call == EMIT ? KAMUSSEORI_RECORD_BYTES * calls[i].request.budget : 0;
        struct kamusseori_reply reply = carry_out(&archive, lent, &calls[i].request);
        check(reply.refusal == 0 && reply.number == calls[i].count, "%s %zu: %u %u", call_names[calls[i].request.call], i, reply.refusal,
              reply.number);
        check(memcmp(card.records + calls[i].bytes, before.records + calls[i].bytes, sizeof card.records - calls[i].bytes) == 0,
              "%s: writes past its records", call_names[calls[i].request.call]);
        check(memcmp(card.completions + calls[i].numbers, before.completions + calls[i].numbers,
                     sizeof card.completions - sizeof *card.completions * calls[i].numbers) == 0,
              "%s: writes past its completions", call_names[calls[i].request.call]);
    }
}

void test_refusals(void) {
    static struct card scene;
    make_scene(&scene);
    each_refused(&scene);
    rest_stays(&scene);
}
