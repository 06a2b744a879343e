/* The header layer: what each opcode carries, and a record of 48 bytes. */
#include <string.h>

#include "rules.h"

enum { BTH = 12, RETH = 16, IMMEDIATE = 4 };

const struct carries carried[READ_REQUEST + 1] = {
    /* Send First, Middle, Last, Last with immediate, Only, Only with immediate */
    {BTH, false, false, false},
    {BTH, false, false, false},
    {BTH, false, false, true},
    {BTH + IMMEDIATE, false, true, true},
    {BTH, false, false, true},
    {BTH + IMMEDIATE, false, true, true},
    /* Write, alike */
    {BTH + RETH, true, false, false},
    {BTH, false, false, false},
    {BTH, false, false, true},
    {BTH + IMMEDIATE, false, true, true},
    {BTH + RETH, true, false, true},
    {BTH + RETH + IMMEDIATE, true, true, true},
    /* Read Request */
    {BTH + RETH, true, false, true},
};

static void put32(uint8_t *to, uint32_t number) {
    uint32_t big = __builtin_bswap32(number);
    memcpy(to, &big, sizeof big);
}

static void put64(uint8_t *to, uint64_t number) {
    uint64_t big = __builtin_bswap64(number);
    memcpy(to, &big, sizeof big);
}

/* Of a read at U the part that is answered is left out; U is one of its PSNs or it is unanswered. */
static struct kamusseori_packet as_sent(const struct kamusseori_standing *standing, const struct kamusseori_packet *packet) {
    struct kamusseori_packet sent = *packet;
    if (packet->opcode != READ_REQUEST)
        return sent;
    uint32_t shift = shift_of(&standing->settings);
    uint32_t answered_places = distance(packet->psn, standing->line.u);
    if (answered_places < packets_for(shift, packet->length)) {
        uint32_t done = answered_places << shift;
        sent.psn = standing->line.u;
        sent.offset += done;
        sent.address += done;
        sent.total -= done;
    }
    sent.length = 0;
    return sent;
}

void write_record(uint8_t *record, const struct kamusseori_standing *standing, const struct kamusseori_packet *packet) {
    const struct kamusseori_packet sent = as_sent(standing, packet);
    const struct carries carries = carried[sent.opcode];
    uint32_t pad = -sent.length & 3;
    memset(record, 0, KAMUSSEORI_HEADER_BYTES);
    /* solicited event 1, migration 0, version 0; AckReq 1 */
    put32(record, sent.opcode << 24 | 0x800000 | pad << 20 | standing->settings.pkey);
    put32(record + 4, standing->settings.far);
    put32(record + 8, 0x80000000 | sent.psn);
    uint8_t *next = record + BTH;
    if (carries.reth) {
        put64(next, sent.address);
        put32(next + 8, sent.key);
        put32(next + 12, sent.total);
        next += RETH;
    }
    if (carries.immediate)
        put32(next, sent.value);
    uint8_t *behind = record + KAMUSSEORI_HEADER_BYTES;
    put32(behind, carries.header_length);
    put32(behind + 4, sent.ticket);
    put32(behind + 8, sent.offset);
    put32(behind + 12, sent.length);
}
