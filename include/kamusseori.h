/*
 * Kamusseori: a requester for reliable-connected pairs, for a host's driver.
 *
 * The host lends 64 pair records, the free queue's ends and 256 slot records. They are the card's whole memory: nothing is kept after a call,
 * and no two calls may run on the same tables at once. A fresh start comes first; it may be given any bytes.
 *
 * Every other call audits the tables, and then is accepted or refused. A refused call leaves all tables and buffers as they were. An accepted one
 * writes to its pair's record, to the links of slots that leave or join the pair, to the slots that a post stores in, to the free queue's ends and
 * to the front of its buffer; the rest stays. Records, buffers and ends must not overlap. Counts are of records, bytes or numbers, as said.
 */
#ifndef KAMUSSEORI_H
#define KAMUSSEORI_H

#include <stddef.h>
#include <stdint.h>

#ifdef __cplusplus
extern "C" {
#endif

enum {
    KAMUSSEORI_PAIRS = 64,
    KAMUSSEORI_SLOTS = 256,
    KAMUSSEORI_NO_SLOT = 256,     /* in a last link and at an empty queue's ends */
    KAMUSSEORI_RECORD_BYTES = 48, /* what emission writes for a packet */
    KAMUSSEORI_HEADER_BYTES = 32, /* of these, the header: zeros after it */
    KAMUSSEORI_COMPLETIONS = 512, /* numbers that an event's buffer must have: a ticket and a status for each slot */
    KAMUSSEORI_BUDGET = 64,       /* the most packets of one emission */
    KAMUSSEORI_PSNS = 16777216    /* PSNs have 24 bits */
};

/* A reply's refusal. The first of 15, 1, 2, .. 9 that holds is given. */
enum kamusseori_refusal {
    KAMUSSEORI_ACCEPTED = 0,
    KAMUSSEORI_NO_SUCH_PAIR = 1, /* pair number over 63 */
    KAMUSSEORI_WRONG_STATE = 2,  /* opening a pair not closed; any other call on a closed pair; any but close on an ended pair */
    KAMUSSEORI_OUT_OF_RANGE = 3, /* an argument out of its range */
    KAMUSSEORI_SHORT_BUFFER = 4, /* a lent buffer too short */
    KAMUSSEORI_OVER_CEILING = 5, /* a post of more slots than the pair's ceiling */
    KAMUSSEORI_FENCED = 6,       /* a fenced post while the pair holds a read */
    KAMUSSEORI_PSNS_USED_UP = 7, /* post: distance U to N plus the new PSNs exceeds 8,388,607 */
    KAMUSSEORI_NO_ROOM = 8,      /* post: held + new slots exceeds the ceiling; post or open: the audit's last sum would exceed 256 */
    KAMUSSEORI_DOES_NOT_FIT = 9, /* a read response inside the open range that does not fit */
    KAMUSSEORI_AUDIT_FAILED = 15 /* the audit does not pass; a fresh start: the tables do not have 64 and 256 records */
};

/* A reply's answer to a fresh start, an open, an event, a timer step or a close. */
enum kamusseori_answer {
    KAMUSSEORI_ANSWER_DROPPED = 0,
    KAMUSSEORI_ANSWER_DONE = 1,
    KAMUSSEORI_ANSWER_RESENDING = 2,
    KAMUSSEORI_ANSWER_HELD = 3,
    KAMUSSEORI_ANSWER_RESUMED = 4,
    KAMUSSEORI_ANSWER_IDLE = 5,
    KAMUSSEORI_ANSWER_ENDED = 6
};

/* A pair's state. */
enum kamusseori_state { KAMUSSEORI_STATE_CLOSED = 0, KAMUSSEORI_STATE_READY = 1, KAMUSSEORI_STATE_ENDED = 2 };

/* What a post asks for. */
enum kamusseori_kind { KAMUSSEORI_SEND = 0, KAMUSSEORI_WRITE = 1, KAMUSSEORI_READ = 2 };

/* The status behind a completion's ticket. */
enum kamusseori_status { KAMUSSEORI_RELEASED = 0, KAMUSSEORI_FLUSHED = 1 };

/* Syndromes: an ACK's or an RNR's low five bits are added, 0 to 31. Any other syndrome is out of its range. */
enum kamusseori_syndrome {
    KAMUSSEORI_ACK = 0,  /* its low bits, credits, are ignored */
    KAMUSSEORI_RNR = 32, /* its low bits are the wait's code */
    KAMUSSEORI_NAK_SEQUENCE = 96,
    KAMUSSEORI_NAK_INVALID_REQUEST = 97,
    KAMUSSEORI_NAK_REMOTE_ACCESS = 98,
    KAMUSSEORI_NAK_REMOTE_OPERATIONAL = 99 /* ends the pair; the other three are recoverable */
};

/* One packet: what a slot holds besides its link. What its header does not need is 0. */
struct kamusseori_packet {
    uint32_t psn; /* the first of its PSNs: a read takes one for each response */
    uint32_t ticket;
    uint32_t opcode;
    uint32_t offset, length; /* where its payload is, and its bytes; a read's are the whole message's */
    uint64_t address;        /* RETH: far address, key, the whole message's length */
    uint32_t key, total;
    uint32_t value; /* immediate */
};

struct kamusseori_slot {
    uint32_t link; /* the next slot of its queue */
    struct kamusseori_packet packet;
};

/* What a pair is opened with. */
struct kamusseori_settings {
    uint32_t far;            /* below 2^24 */
    uint32_t pkey;           /* 16 bits */
    uint32_t pmtu;           /* code 1 to 5: 256, 512, 1024, 2048, 4096 bytes */
    uint32_t share, ceiling; /* share 1 to ceiling, ceiling at most 256 */
    uint32_t retry, rnr;     /* 0 to 7 */
    uint32_t timeout;        /* code 0 to 31: 4,096 x 2^code ns, or no timer at 0 */
};

/* Oldest unacknowledged PSN, next to emit, first never emitted, next to be given. */
struct kamusseori_line {
    uint32_t u, x, h, n;
};

/* The retry counts left, and the two times in ns. */
struct kamusseori_clock {
    uint32_t retries, rnrs;
    uint64_t elapsed, hold;
};

struct kamusseori_standing {
    uint32_t state;
    struct kamusseori_settings settings;
    struct kamusseori_line line;
    struct kamusseori_clock clock;
};

/* The slots that a pair holds, in PSN order, by their links. */
struct kamusseori_queue {
    uint32_t first, last, held;
};

struct kamusseori_pair {
    struct kamusseori_standing standing;
    struct kamusseori_queue queue;
};

/* The free queue. */
struct kamusseori_ends {
    uint32_t first, last;
};

struct kamusseori_post {
    uint32_t kind;
    uint32_t immediate, fenced; /* 0 or 1; an immediate is not for reads */
    uint32_t ticket;
    uint64_t offset;  /* below 2^32, offset + length at most 2^32 */
    uint32_t length;  /* below 2^31 */
    uint64_t address; /* write or read of length over 0: address + length at most 2^64 */
    uint32_t key;
    uint32_t value; /* the immediate's 32 bits */
};

/* Of a refused call all but the refusal is 0. */
struct kamusseori_reply {
    uint32_t refusal;
    uint32_t answer; /* 0 for a post and an emission */
    uint32_t number; /* messages completed, or a post's first PSN, or an emission's count */
    uint32_t place;  /* of a read response that is "done": where its payload goes */
};

/* Closes all pairs and frees slots 0 to 255 in that order. Tests only the two lengths. Answers "done". */
struct kamusseori_reply kamusseori_fresh(struct kamusseori_pair *pairs, size_t pair_count, struct kamusseori_ends *ends,
                                         struct kamusseori_slot *slots, size_t slot_count);

/* Opens a closed pair; its PSNs start at `first`. Answers "done". */
struct kamusseori_reply kamusseori_open(struct kamusseori_pair *pairs, size_t pair_count, struct kamusseori_ends *ends, struct kamusseori_slot *slots,
                                        size_t slot_count, uint32_t pair, struct kamusseori_settings settings, uint32_t first);

/* Stores a message's packets in slots of the free queue. The number is its first PSN. */
struct kamusseori_reply kamusseori_post(struct kamusseori_pair *pairs, size_t pair_count, struct kamusseori_ends *ends, struct kamusseori_slot *slots,
                                        size_t slot_count, uint32_t pair, struct kamusseori_post post);

/*
 * Writes a record for each packet from X on, at most `budget` (1 to 64), into `records`, which needs 48 x budget bytes. A record is 32 header
 * bytes, then four big-endian 32-bit numbers: header length, ticket, payload offset, payload length. The number is their count.
 */
struct kamusseori_reply kamusseori_emit(struct kamusseori_pair *pairs, size_t pair_count, struct kamusseori_ends *ends, struct kamusseori_slot *slots,
                                        size_t slot_count, uint8_t *records, size_t record_bytes, uint32_t pair, uint32_t budget);

/*
 * The four calls below need 512 numbers in `completions`. Each message that ends with the call has its ticket and then its status there, in PSN
 * order; the number is how many messages that are.
 */

/* An acknowledgement, negative ones too. */
struct kamusseori_reply kamusseori_acknowledge(struct kamusseori_pair *pairs, size_t pair_count, struct kamusseori_ends *ends,
                                               struct kamusseori_slot *slots, size_t slot_count, uint32_t *completions, size_t completion_count,
                                               uint32_t pair, uint32_t psn, uint32_t syndrome);

/* A read response: opcode 13 to 16, and its payload's bytes. */
struct kamusseori_reply kamusseori_response(struct kamusseori_pair *pairs, size_t pair_count, struct kamusseori_ends *ends,
                                            struct kamusseori_slot *slots, size_t slot_count, uint32_t *completions, size_t completion_count,
                                            uint32_t pair, uint32_t psn, uint32_t opcode, uint32_t length);

/* A timer step: `elapsed` ns have passed since the last, below 2^32. */
struct kamusseori_reply kamusseori_timer(struct kamusseori_pair *pairs, size_t pair_count, struct kamusseori_ends *ends,
                                         struct kamusseori_slot *slots, size_t slot_count, uint32_t *completions, size_t completion_count,
                                         uint32_t pair, uint64_t elapsed);

/* Flushes what the pair holds and closes it. Answers "done". */
struct kamusseori_reply kamusseori_close(struct kamusseori_pair *pairs, size_t pair_count, struct kamusseori_ends *ends,
                                         struct kamusseori_slot *slots, size_t slot_count, uint32_t *completions, size_t completion_count,
                                         uint32_t pair);

/* The audit alone, which writes nothing: 0 if it passes, else 15. */
uint32_t kamusseori_audit(struct kamusseori_pair *pairs, size_t pair_count, struct kamusseori_ends *ends, struct kamusseori_slot *slots,
                          size_t slot_count);

/* The records' layout, as the archive has it; a typedef, since every C and C++ has it. */
#define KAMUSSEORI_SIZE(record, bytes) typedef char kamusseori_size_of_##record[sizeof(struct kamusseori_##record) == (bytes) ? 1 : -1]
#define KAMUSSEORI_PLACE(record, field, bytes) \
    typedef char kamusseori_place_of_##record##_##field[offsetof(struct kamusseori_##record, field) == (bytes) ? 1 : -1]
KAMUSSEORI_SIZE(packet, 48);
KAMUSSEORI_PLACE(packet, length, 16);
KAMUSSEORI_PLACE(packet, address, 24);
KAMUSSEORI_PLACE(packet, key, 32);
KAMUSSEORI_PLACE(packet, value, 40);
KAMUSSEORI_SIZE(slot, 56);
KAMUSSEORI_PLACE(slot, packet, 8);
KAMUSSEORI_SIZE(settings, 32);
KAMUSSEORI_PLACE(settings, timeout, 28);
KAMUSSEORI_SIZE(line, 16);
KAMUSSEORI_PLACE(line, n, 12);
KAMUSSEORI_SIZE(clock, 24);
KAMUSSEORI_PLACE(clock, rnrs, 4);
KAMUSSEORI_PLACE(clock, elapsed, 8);
KAMUSSEORI_PLACE(clock, hold, 16);
KAMUSSEORI_SIZE(standing, 80);
KAMUSSEORI_PLACE(standing, settings, 4);
KAMUSSEORI_PLACE(standing, line, 36);
KAMUSSEORI_PLACE(standing, clock, 56);
KAMUSSEORI_SIZE(queue, 12);
KAMUSSEORI_PLACE(queue, held, 8);
KAMUSSEORI_SIZE(pair, 96);
KAMUSSEORI_PLACE(pair, queue, 80);
KAMUSSEORI_SIZE(ends, 8);
KAMUSSEORI_PLACE(ends, last, 4);
KAMUSSEORI_SIZE(post, 48);
KAMUSSEORI_PLACE(post, offset, 16);
KAMUSSEORI_PLACE(post, length, 24);
KAMUSSEORI_PLACE(post, address, 32);
KAMUSSEORI_PLACE(post, key, 40);
KAMUSSEORI_PLACE(post, value, 44);
KAMUSSEORI_SIZE(reply, 16);
KAMUSSEORI_PLACE(reply, place, 12);
#undef KAMUSSEORI_SIZE
#undef KAMUSSEORI_PLACE

#ifdef __cplusplus
}
#endif

#endif
