#include "scenes.h"

#include <stdio.h>
#include <stdlib.h>
#include <string.h>

enum { PMTU = 256, FIRST_PSN = 16777200 };

const struct load loads[] = {
    {"16 slots held in all, 4 pairs open", 4, 16},
    {"256 slots held in all, 16 pairs open", 16, 256},
};
const size_t load_count = sizeof loads / sizeof *loads;

/* Scenes are made by the peer that audits. */
static void make(struct card *card, struct request request) {
    if (carry_out(&audited, lend(card), &request).refusal != 0) {
        printf("a scene's call was refused\n");
        exit(1);
    }
}

static void open_pair(struct card *card, uint32_t pair) {
    struct kamusseori_settings settings = {1000 + pair, 65535, 1, 1, 256, 7, 7, 20};
    make(card, (struct request){.call = OPEN, .pair = pair, .settings = settings, .first = FIRST_PSN});
}

static void post(struct card *card, uint32_t pair, uint32_t kind, uint32_t packets) {
    struct kamusseori_post post = {.kind = kind, .ticket = pair, .offset = 4096, .length = PMTU * packets - 3, .address = 1 << 20, .key = 7};
    make(card, (struct request){.call = POST, .pair = pair, .post = post});
}

static void emit(struct card *card, uint32_t pair) {
    make(card, (struct request){.call = EMIT, .pair = pair, .budget = KAMUSSEORI_BUDGET});
}

/* ---- what pair 0 holds when the call comes */

static void not_open(struct card *card, uint32_t own) {
    (void)card, (void)own;
}

static void opened(struct card *card, uint32_t own) {
    (void)own;
    open_pair(card, 0);
}

/* A Write, as long as pair 0's part. */
static void posted(struct card *card, uint32_t own) {
    open_pair(card, 0);
    post(card, 0, KAMUSSEORI_WRITE, own);
}

static void emitted(struct card *card, uint32_t own) {
    posted(card, own);
    emit(card, 0);
}

/* Messages of one packet, all out. */
static void sends_emitted(struct card *card, uint32_t own) {
    open_pair(card, 0);
    for (uint32_t i = 0; i < own; i++)
        post(card, 0, KAMUSSEORI_SEND, 1);
    emit(card, 0);
}

/* A read of 16 places. */
static void read_emitted(struct card *card, uint32_t own) {
    (void)own;
    open_pair(card, 0);
    post(card, 0, KAMUSSEORI_READ, 16);
    emit(card, 0);
}

const struct measured measured[] = {
    {"open", {.call = OPEN, .settings = {5, 6, 1, 1, 256, 7, 7, 14}, .first = 3}, 1, not_open},
    {"post of 1 packet", {.call = POST, .post = {.kind = KAMUSSEORI_SEND, .ticket = 5, .length = 200}}, 1, opened},
    {"post of 16 packets", {.call = POST, .post = {.kind = KAMUSSEORI_WRITE, .ticket = 5, .length = 16 * PMTU, .key = 7}}, 16, opened},
    {"emit of 16 packets", {.call = EMIT, .budget = 16}, 16, posted},
    {"ACK of 1 packet", {.call = ACKNOWLEDGE, .psn = FIRST_PSN}, 1, emitted},
    {"ACK of 16 packets, 1 message", {.call = ACKNOWLEDGE, .psn = FIRST_PSN + 15}, 16, emitted},
    {"ACK of 16 packets, 16 messages", {.call = ACKNOWLEDGE, .psn = FIRST_PSN + 15}, 16, sends_emitted},
    {"read response", {.call = RESPONSE, .psn = FIRST_PSN, .opcode = 13, .length = PMTU}, 1, read_emitted},
    {"timer step", {.call = TIMER, .elapsed = 1000}, 1, emitted},
    {"close, 16 packets", {.call = CLOSE}, 16, emitted},
    {"the audit alone", {.call = AUDIT}, 16, emitted},
};
const size_t measured_count = sizeof measured / sizeof *measured;

/* Another pair's part: messages of one to five packets, Sends and Writes by turns, the first half of them out. */
static void fill(struct card *card, uint32_t pair, uint32_t part) {
    open_pair(card, pair);
    for (uint32_t held = 0, packets = 1 + pair % 5, turn = 0; held < part; held += packets, turn++) {
        packets = packets > part - held ? part - held : packets;
        post(card, pair, turn % 2 == 0 ? KAMUSSEORI_SEND : KAMUSSEORI_WRITE, packets);
        if (2 * held < part)
            emit(card, pair);
    }
}

void set_scene(struct card *card, const struct load *load, const struct measured *call) {
    memset(card, 0, sizeof *card);
    make(card, (struct request){.call = FRESH});
    call->prepare(card, call->own);
    for (uint32_t pair = 1; pair < load->pairs; pair++)
        fill(card, pair, (load->held - call->own) / (load->pairs - 1));
}
