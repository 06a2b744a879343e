#include "scene.h"

static void open_pair(struct card *card, uint32_t pair, uint32_t first, uint32_t share, uint32_t ceiling, uint32_t rnr, uint32_t timeout) {
    struct kamusseori_settings settings = {1000 + pair, 65535, 1, share, ceiling, 7, rnr, timeout};
    accepted(card, (struct request){.call = OPEN, .pair = pair, .settings = settings, .first = first});
}

static void post(struct card *card, uint32_t pair, uint32_t kind, uint32_t immediate, uint32_t length) {
    struct kamusseori_post post = {kind, immediate, 0, 100 * pair + kind, 4096, length, 0x100000000000, 77, 88};
    accepted(card, (struct request){.call = POST, .pair = pair, .post = post});
}

static void emit(struct card *card, uint32_t pair, uint32_t budget) {
    accepted(card, (struct request){.call = EMIT, .pair = pair, .budget = budget});
}

static void acknowledge(struct card *card, uint32_t pair, uint32_t psn, uint32_t syndrome) {
    accepted(card, (struct request){.call = ACKNOWLEDGE, .pair = pair, .psn = psn, .syndrome = syndrome});
}

static void respond(struct card *card, uint32_t pair, uint32_t psn) {
    accepted(card, (struct request){.call = RESPONSE, .pair = pair, .psn = psn, .opcode = 14, .length = 256});
}

static void wait(struct card *card, uint32_t pair, uint64_t elapsed) {
    accepted(card, (struct request){.call = TIMER, .pair = pair, .elapsed = elapsed});
}

static void make_posts(struct card *card) {
    post(card, REAR, KAMUSSEORI_SEND, 0, 1000);
    post(card, REAR, KAMUSSEORI_WRITE, 1, 600);
    post(card, REAR, KAMUSSEORI_SEND, 0, 10);
    post(card, READS, KAMUSSEORI_READ, 0, 1200);
    post(card, READS, KAMUSSEORI_SEND, 1, 20);
    post(card, READS, KAMUSSEORI_READ, 0, 700);
    post(card, READS, KAMUSSEORI_WRITE, 0, 30);
    post(card, HELD_ONE, KAMUSSEORI_SEND, 0, 40);
    post(card, HELD_ONE, KAMUSSEORI_SEND, 0, 50);
    post(card, HELD_ONE, KAMUSSEORI_SEND, 0, 60);
    post(card, ENDED_ONE, KAMUSSEORI_SEND, 0, 70);
    post(card, FAR, KAMUSSEORI_READ, 0, 256u * FAR_PSNS);
    post(card, TIGHT, KAMUSSEORI_SEND, 0, 768);
    post(card, STILL, KAMUSSEORI_WRITE, 0, 300);
    post(card, STILL, KAMUSSEORI_SEND, 0, 400);
}

void make_scene(struct card *card) {
    start(card);
    open_pair(card, REAR, 16777214, 8, 16, 7, 14);
    open_pair(card, READS, 100, 1, 16, 7, 14);
    open_pair(card, HELD_ONE, 7, 1, 16, 3, 14);
    open_pair(card, ENDED_ONE, 50, 3, 5, 1, 14);
    open_pair(card, FAR, 500, 1, 16, 7, 0);
    open_pair(card, TIGHT, 70, 1, 3, 7, 14);
    open_pair(card, STILL, 80, 2, 16, 7, 14);
    make_posts(card);
    emit(card, REAR, 6);
    acknowledge(card, REAR, 16777215, KAMUSSEORI_ACK);
    wait(card, REAR, 100);
    emit(card, READS, 3);
    respond(card, READS, 100);
    respond(card, READS, 101);
    wait(card, READS, 50);
    emit(card, HELD_ONE, 3);
    acknowledge(card, HELD_ONE, 8, KAMUSSEORI_RNR + 20);
    emit(card, ENDED_ONE, 1);
    acknowledge(card, ENDED_ONE, 50, KAMUSSEORI_NAK_REMOTE_OPERATIONAL);
    emit(card, FAR, 1);
    emit(card, TIGHT, 3);
    acknowledge(card, TIGHT, 70, KAMUSSEORI_ACK);
    open_pair(card, EMPTY, 60, EMPTY_SHARE, 256, 7, 14); /* the audit's last sum is 255 now */
}

/* No slot is free. */
void make_full(struct card *card) {
    start(card);
    open_pair(card, 0, 16777000, 1, 256, 7, 14);
    post(card, 0, KAMUSSEORI_WRITE, 0, 256 * 256);
}
