/* The header's layout is the archive's: each field is given a number of its own and found, by what the calls do, where the header says. */
#include <string.h>

#include "test.h"

enum { PAIR = 37, FIRST_PSN = 16777000 };

static void pair_is(const struct card *card, struct kamusseori_pair wanted, const char *when) {
    const struct kamusseori_pair *pair = &card->pairs[PAIR];
#define SAME(field) check(pair->field == wanted.field, "%s: pair's " #field " is %lu", when, (unsigned long)pair->field)
    SAME(standing.state);
    SAME(standing.settings.far);
    SAME(standing.settings.pkey);
    SAME(standing.settings.pmtu);
    SAME(standing.settings.share);
    SAME(standing.settings.ceiling);
    SAME(standing.settings.retry);
    SAME(standing.settings.rnr);
    SAME(standing.settings.timeout);
    SAME(standing.line.u);
    SAME(standing.line.x);
    SAME(standing.line.h);
    SAME(standing.line.n);
    SAME(standing.clock.retries);
    SAME(standing.clock.rnrs);
    SAME(standing.clock.elapsed);
    SAME(standing.clock.hold);
    SAME(queue.first);
    SAME(queue.last);
    SAME(queue.held);
#undef SAME
}

static void slot_is(const struct card *card, uint32_t number, struct kamusseori_slot wanted) {
    const struct kamusseori_slot *slot = &card->slots[number];
#define SAME(field) check(slot->field == wanted.field, "slot %u's " #field " is %lu", number, (unsigned long)slot->field)
    SAME(link);
    SAME(packet.psn);
    SAME(packet.ticket);
    SAME(packet.opcode);
    SAME(packet.offset);
    SAME(packet.length);
    SAME(packet.address);
    SAME(packet.key);
    SAME(packet.total);
    SAME(packet.value);
#undef SAME
}

static void fresh_is(const struct card *card) {
    for (uint32_t i = 0; i < KAMUSSEORI_SLOTS; i++)
        slot_is(card, i, (struct kamusseori_slot){.link = i + 1});
    check(card->ends.first == 0 && card->ends.last == 255, "fresh: ends are %u %u", card->ends.first, card->ends.last);
    pair_is(card, (struct kamusseori_pair){.queue = {256, 256, 0}}, "fresh");
}

static const struct kamusseori_settings settings = {0xabcdef, 0x1234, 1, 21, 43, 5, 3, 23};

/* Opens, posts and emits: every field of a pair and of two slots has a number of its own. */
static struct kamusseori_pair fill(struct card *card) {
    struct kamusseori_pair wanted = {{1, settings, {FIRST_PSN, FIRST_PSN, FIRST_PSN, FIRST_PSN}, {5, 3, 0, 0}}, {256, 256, 0}};
    struct kamusseori_post write = {1, 1, 0, 0x11111111, 0x22222222, 250, 0x3333333344444444, 0x55555555, 0x66666666};
    struct kamusseori_post read = {2, 0, 1, 0x77777777, 0x88888888, 700, 0x99999999aaaaaaaa, 0xbbbbbbbb, 0xcccccccc};
    accepted(card, (struct request){.call = OPEN, .pair = PAIR, .settings = settings, .first = FIRST_PSN});
    pair_is(card, wanted, "open");
    struct kamusseori_reply reply = accepted(card, (struct request){.call = POST, .pair = PAIR, .post = write});
    check(same_reply(reply, (struct kamusseori_reply){0, 0, FIRST_PSN, 0}), "post: its first PSN is %u", reply.number);
    accepted(card, (struct request){.call = POST, .pair = PAIR, .post = read});
    slot_is(card, 0, (struct kamusseori_slot){1, {FIRST_PSN, 0x11111111, 11, 0x22222222, 250, 0x3333333344444444, 0x55555555, 250, 0x66666666}});
    slot_is(card, 1, (struct kamusseori_slot){256, {FIRST_PSN + 1, 0x77777777, 12, 0x88888888, 700, 0x99999999aaaaaaaa, 0xbbbbbbbb, 700, 0}});
    check(card->ends.first == 2 && card->ends.last == 255, "post: ends are %u %u", card->ends.first, card->ends.last);
    wanted.standing.line.n = FIRST_PSN + 4;
    wanted.queue = (struct kamusseori_queue){0, 1, 2};
    pair_is(card, wanted, "post");
    return wanted;
}

static void emission_is(struct card *card) {
    static const uint8_t record[KAMUSSEORI_RECORD_BYTES] = {0x0b, 0xa0, 0x12, 0x34, 0x00, 0xab, 0xcd, 0xef, 0x80, 0xff, 0xff, 0x28,
                                                            0x33, 0x33, 0x33, 0x33, 0x44, 0x44, 0x44, 0x44, 0x55, 0x55, 0x55, 0x55,
                                                            0x00, 0x00, 0x00, 0xfa, 0x66, 0x66, 0x66, 0x66, 0x00, 0x00, 0x00, 0x20,
                                                            0x11, 0x11, 0x11, 0x11, 0x22, 0x22, 0x22, 0x22, 0x00, 0x00, 0x00, 0xfa};
    struct kamusseori_reply reply = accepted(card, (struct request){.call = EMIT, .pair = PAIR, .budget = 9});
    check(same_reply(reply, (struct kamusseori_reply){0, 0, 2, 0}), "emit: its count is %u", reply.number);
    check(memcmp(card->records, record, sizeof record) == 0, "emit: a Write's record");
    check(card->records[2 * KAMUSSEORI_RECORD_BYTES] == 0xa5, "emit: a byte behind the records");
}

/* Each event moves some of the pair's fields; all of them are looked at. */
static void events_are(struct card *card, struct kamusseori_pair wanted) {
    wanted.standing.line.x = wanted.standing.line.h = FIRST_PSN + 4;
    pair_is(card, wanted, "emit");
    /* the timeout is 2^35 ns: eight of the longest steps, and 8 ns */
    for (int i = 0; i < 8; i++)
        accepted(card, (struct request){.call = TIMER, .pair = PAIR, .elapsed = 0xffffffff});
    wanted.standing.clock.elapsed = 0x7fffffff8;
    pair_is(card, wanted, "timer steps below the timeout");
    struct kamusseori_reply reply = accepted(card, (struct request){.call = TIMER, .pair = PAIR, .elapsed = 8});
    check(same_reply(reply, (struct kamusseori_reply){0, KAMUSSEORI_ANSWER_RESENDING, 0, 0}), "timer: answer %u", reply.answer);
    wanted.standing.line.x = FIRST_PSN;
    wanted.standing.clock = (struct kamusseori_clock){4, 3, 0, 0};
    pair_is(card, wanted, "a timer step to the timeout");
    accepted(card, (struct request){.call = ACKNOWLEDGE, .pair = PAIR, .psn = FIRST_PSN, .syndrome = KAMUSSEORI_RNR});
    wanted.standing.clock = (struct kamusseori_clock){4, 2, 0, 655360000};
    pair_is(card, wanted, "RNR");
    reply = accepted(card, (struct request){.call = ACKNOWLEDGE, .pair = PAIR, .psn = FIRST_PSN, .syndrome = KAMUSSEORI_ACK});
    check(same_reply(reply, (struct kamusseori_reply){0, KAMUSSEORI_ANSWER_DONE, 1, 0}), "ACK: answer %u", reply.answer);
    check(card->completions[0] == 0x11111111 && card->completions[1] == 0, "ACK: completion %u", card->completions[0]);
    wanted.standing.line.u = wanted.standing.line.x = FIRST_PSN + 1;
    wanted.standing.clock = (struct kamusseori_clock){5, 3, 0, 655360000};
    wanted.queue = (struct kamusseori_queue){1, 1, 1};
    pair_is(card, wanted, "ACK");
    check(card->ends.first == 2 && card->ends.last == 0, "ACK: ends are %u %u", card->ends.first, card->ends.last);
    check(card->slots[255].link == 0 && card->slots[0].link == 256, "ACK: the free queue's last links");
    reply = accepted(card, (struct request){.call = RESPONSE, .pair = PAIR, .psn = FIRST_PSN + 1, .opcode = 13, .length = 256});
    check(same_reply(reply, (struct kamusseori_reply){0, KAMUSSEORI_ANSWER_DONE, 0, 0x88888888}), "response: place %x", reply.place);
    reply = accepted(card, (struct request){.call = CLOSE, .pair = PAIR});
    check(same_reply(reply, (struct kamusseori_reply){0, KAMUSSEORI_ANSWER_DONE, 1, 0}), "close: %u messages", reply.number);
    check(card->completions[0] == 0x77777777 && card->completions[1] == 1, "close: completion %u", card->completions[0]);
    pair_is(card, (struct kamusseori_pair){.queue = {256, 256, 0}}, "close");
}

void test_layout(void) {
    static struct card card, before;
    start(&card);
    fresh_is(&card);
    before = card;
    struct kamusseori_pair wanted = fill(&card);
    emission_is(&card);
    events_are(&card, wanted);
    for (uint32_t i = 0; i < KAMUSSEORI_PAIRS + SPARE; i++)
        check(i == PAIR || memcmp(&card.pairs[i], &before.pairs[i], sizeof before.pairs[i]) == 0, "layout: pair %u is not the call's", i);
    for (uint32_t i = KAMUSSEORI_SLOTS; i < KAMUSSEORI_SLOTS + SPARE; i++)
        check(memcmp(&card.slots[i], &before.slots[i], sizeof before.slots[i]) == 0, "layout: slot %u is not the card's", i);
}
