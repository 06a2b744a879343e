/* A small host: it opens a pair, posts a Send and a read, sends what the card writes, takes the answers, and closes. */
#include <stdio.h>

#include "kamusseori.h"

enum { PAIR = 3, FIRST_PSN = 16777214 };

/* The card's whole memory, and a buffer for each way. */
static struct kamusseori_pair pairs[KAMUSSEORI_PAIRS];
static struct kamusseori_ends ends;
static struct kamusseori_slot slots[KAMUSSEORI_SLOTS];
static uint8_t records[KAMUSSEORI_RECORD_BYTES * KAMUSSEORI_BUDGET];
static uint32_t completions[KAMUSSEORI_COMPLETIONS];

#define TABLES pairs, KAMUSSEORI_PAIRS, &ends, slots, KAMUSSEORI_SLOTS
#define RECORDS records, sizeof records
#define NUMBERS completions, KAMUSSEORI_COMPLETIONS

static uint32_t big_endian(const uint8_t *bytes) {
    return (uint32_t)bytes[0] << 24 | (uint32_t)bytes[1] << 16 | (uint32_t)bytes[2] << 8 | bytes[3];
}

/* What a driver would hand to the wire: each header, and where its payload is. */
static void send(uint32_t budget) {
    struct kamusseori_reply reply = kamusseori_emit(TABLES, RECORDS, PAIR, budget);
    printf("emit %u: refusal %u, %u packets\n", budget, reply.refusal, reply.number);
    for (uint32_t i = 0; i < reply.number; i++) {
        const uint8_t *record = records + KAMUSSEORI_RECORD_BYTES * i, *behind = record + KAMUSSEORI_HEADER_BYTES;
        printf("  ");
        for (uint32_t k = 0; k < big_endian(behind); k++)
            printf("%02x", record[k]);
        printf(" ticket %u, %u bytes at %u\n", big_endian(behind + 4), big_endian(behind + 12), big_endian(behind + 8));
    }
}

/* What an event answered, whom to tell, and where the pair stands. */
static void tell(const char *event, struct kamusseori_reply reply) {
    static const char *const answers[] = {"dropped", "done", "resending", "held", "resumed", "idle", "ended"};
    const struct kamusseori_standing *standing = &pairs[PAIR].standing;
    if (reply.refusal != 0)
        printf("%s: refused by %u\n", event, reply.refusal);
    else
        printf("%s: %s\n", event, answers[reply.answer]);
    for (uint32_t i = 0; i < reply.number; i++)
        printf("  ticket %u %s\n", completions[2 * i], completions[2 * i + 1] == KAMUSSEORI_RELEASED ? "is through" : "is flushed");
    printf("  the pair: state %u, U %u, X %u, H %u, N %u, %u slots held\n", standing->state, standing->line.u, standing->line.x, standing->line.h,
           standing->line.n, pairs[PAIR].queue.held);
}

static void post(uint32_t kind, uint32_t ticket, uint32_t length, uint64_t offset) {
    struct kamusseori_post post = {kind, 0, 0, ticket, offset, length, 0x7f0000001000, 0xbeef, 0};
    struct kamusseori_reply reply = kamusseori_post(TABLES, PAIR, post);
    printf("post %u: refusal %u, first PSN %u\n", ticket, reply.refusal, reply.number);
}

int main(void) {
    struct kamusseori_settings settings = {.far = 77, .pkey = 0xffff, .pmtu = 1, .share = 4, .ceiling = 8, .retry = 7, .rnr = 7, .timeout = 14};
    kamusseori_fresh(TABLES);
    tell("open", kamusseori_open(TABLES, PAIR, settings, FIRST_PSN));
    post(KAMUSSEORI_SEND, 901, 600, 4096);
    post(KAMUSSEORI_READ, 902, 300, 8192);
    send(8);
    tell("ACK of 0", kamusseori_acknowledge(TABLES, NUMBERS, PAIR, 0, KAMUSSEORI_ACK));
    struct kamusseori_reply reply = kamusseori_response(TABLES, NUMBERS, PAIR, 1, 13, 256);
    tell("response 1", reply);
    printf("  its payload goes to %u\n", reply.place);
    tell("NAK of 2", kamusseori_acknowledge(TABLES, NUMBERS, PAIR, 2, KAMUSSEORI_NAK_SEQUENCE));
    send(8);
    tell("close", kamusseori_close(TABLES, NUMBERS, PAIR));
    return 0;
}
