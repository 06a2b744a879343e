/*
 * Answers a trace on standard input by the archive's calls, so that C, too, is held against the second program. Frames (`write`, `read`) are not for
 * the C interface; without them it writes what `./replay` does.
 */
#include <stdio.h>
#include <string.h>

#include "card.h"

enum { LONGEST_LINE = 20000, WORDS = 12, MOST_BYTES = 8192, MOST_NUMBERS = 2048 };

static struct card card;
static uint8_t records[MOST_BYTES];
static uint32_t completions[MOST_NUMBERS];
static struct lent lent;

/* ---- reading */

/* A line's bytes, ended by 0; the length is one more than is allowed for a line too long, and -1 at the end of the input. */
static long read_line(char *line) {
    long length = 0;
    int c = getchar();
    if (c == EOF)
        return -1;
    for (; c != '\n' && c != EOF; c = getchar())
        if (length <= LONGEST_LINE)
            line[length++] = (char)(c == 0 ? 1 : c); /* no word has either, and 0 ends the text */
    line[length] = 0;
    return length;
}

/* Cuts a line into words; how many there are, WORDS at most. */
static int cut(char *line, char **words) {
    int count = 0;
    while (*line != 0 && count < WORDS) {
        while (*line == ' ' || *line == '\t')
            line++;
        if (*line == 0)
            break;
        words[count++] = line;
        while (*line != 0 && *line != ' ' && *line != '\t')
            line++;
        if (*line != 0)
            *line++ = 0;
    }
    return count;
}

static bool read_number(const char *word, uint64_t *number) {
    *number = 0;
    for (; *word != 0; word++) {
        uint64_t digit = (uint64_t)(*word - '0');
        if (digit > 9 || *number > UINT64_MAX / 10 || *number * 10 > UINT64_MAX - digit)
            return false;
        *number = *number * 10 + digit;
    }
    return true;
}

/* A number too wide becomes the largest, which is out of every range below 2^32. */
static uint32_t narrow(uint64_t number) {
    return number > UINT32_MAX ? UINT32_MAX : (uint32_t)number;
}

static bool wide(uint64_t number) {
    return number > UINT32_MAX;
}

/* ---- writing */

static void write_completions(const char *answer, struct kamusseori_reply reply) {
    printf("%s", answer);
    for (uint32_t i = 0; i < reply.number; i++)
        printf(" %u:%u", completions[2 * i], completions[2 * i + 1]);
    printf("\n");
}

static void write_records(uint32_t count) {
    printf("emitted %u\n", count);
    for (uint32_t i = 0; i < count; i++) {
        printf("record ");
        for (uint32_t k = 0; k < KAMUSSEORI_RECORD_BYTES; k++)
            printf("%02x", records[KAMUSSEORI_RECORD_BYTES * i + k]);
        printf("\n");
    }
}

static void write_reply(enum call call, struct kamusseori_reply reply) {
    static const char *const answers[] = {"dropped", "done", "resending", "held", "resumed", "idle", "ended"};
    if (reply.refusal != 0)
        printf("refused %u\n", reply.refusal);
    else if (call == POST)
        printf("first %u\n", reply.number);
    else if (call == EMIT)
        write_records(reply.number);
    else if (call == RESPONSE && reply.answer == KAMUSSEORI_ANSWER_DONE) {
        printf("done@%u", reply.place);
        write_completions("", reply);
    } else
        write_completions(answers[reply.answer], reply);
}

static void show(uint64_t pair) {
    if (pair >= KAMUSSEORI_PAIRS) {
        printf("refused 1\n");
        return;
    }
    static const char *const states[] = {"closed", "ready", "ended"};
    const struct kamusseori_standing *s = &card.pairs[pair].standing;
    printf("pair %lu %s", (unsigned long)pair, states[s->state]);
    if (s->state != KAMUSSEORI_STATE_CLOSED) {
        printf(" %u %u %u %u %u", s->line.u, s->line.x, s->line.h, s->line.n, card.pairs[pair].queue.held);
        printf(" %u %u %lu %lu", s->clock.retries, s->clock.rnrs, (unsigned long)s->clock.elapsed, (unsigned long)s->clock.hold);
        for (uint32_t at = card.pairs[pair].queue.first; at != KAMUSSEORI_NO_SLOT; at = card.slots[at].link) {
            const struct kamusseori_packet *p = &card.slots[at].packet;
            printf(" %u/%u/%u/%u/%u", at, p->psn, p->ticket, p->offset, p->length);
        }
    }
    printf("\n");
}

static void show_free(void) {
    printf("free");
    for (uint32_t at = card.ends.first; at != KAMUSSEORI_NO_SLOT; at = card.slots[at].link)
        printf(" %u", at);
    printf("\n");
}

/* ---- calls */

/* From a line's numbers in their order. What a field of 32 bits cannot hold is told by an argument that is out of its range. */
static struct request request_of(enum call call, const uint64_t *n) {
    struct request r = {.call = call, .pair = narrow(n[0])};
    if (call == OPEN) {
        r.settings = (struct kamusseori_settings){narrow(n[1]), narrow(n[3]), narrow(n[4]), narrow(n[5]),
                                                  narrow(n[6]), narrow(n[7]), narrow(n[8]), narrow(n[9])};
        r.first = narrow(n[2]);
    } else if (call == POST) {
        bool too_wide = wide(n[1]) || wide(n[9]) || (n[3] == 1 && wide(n[4]));
        r.post = (struct kamusseori_post){
            too_wide ? UINT32_MAX : narrow(n[2]), narrow(n[3]), narrow(n[5]), narrow(n[1]), n[7], narrow(n[6]), n[8], narrow(n[9]), narrow(n[4])};
    } else if (call == RESPONSE) {
        r.psn = narrow(n[1]);
        r.opcode = wide(n[3]) ? UINT32_MAX : narrow(n[2]);
        r.length = narrow(n[3]);
    } else {
        r.budget = r.psn = narrow(n[1]);
        r.syndrome = narrow(n[2]);
        r.elapsed = n[1];
    }
    return r;
}

/* The lent buffers have these lengths from here on, all zero. */
static bool make_room(uint64_t bytes, uint64_t numbers) {
    if (bytes > MOST_BYTES || numbers > MOST_NUMBERS)
        return false;
    memset(records, 0, sizeof records);
    memset(completions, 0, sizeof completions);
    lent.record_bytes = bytes;
    lent.completion_count = numbers;
    return true;
}

/* False if the line is not read. */
static bool answer(char **words, int count) {
    static const struct {
        const char *name;
        int numbers, call;
    } lines[] = {{"fresh", 0, FRESH}, {"open", 10, OPEN},  {"post", 10, POST}, {"emit", 2, EMIT},  {"ack", 3, ACKNOWLEDGE}, {"response", 4, RESPONSE},
                 {"timer", 2, TIMER}, {"close", 1, CLOSE}, {"room", 2, CALLS}, {"show", 1, CALLS}, {"free", 0, CALLS}};
    uint64_t numbers[WORDS] = {0};
    for (size_t i = 0; i < sizeof lines / sizeof *lines; i++) {
        if (strcmp(words[0], lines[i].name) != 0)
            continue;
        if (count != lines[i].numbers + 1)
            return false;
        for (int k = 1; k < count; k++)
            if (!read_number(words[k], &numbers[k - 1]))
                return false;
        if (lines[i].call != CALLS) {
            struct request request = request_of((enum call)lines[i].call, numbers);
            write_reply(request.call, carry_out(&archive, lent, &request));
        } else if (lines[i].name[0] == 'r') {
            if (!make_room(numbers[0], numbers[1]))
                return false;
            printf("room\n");
        } else if (lines[i].name[0] == 's')
            show(numbers[0]);
        else
            show_free();
        return true;
    }
    return false;
}

int main(void) {
    static char line[LONGEST_LINE + 2];
    char *words[WORDS];
    lent = lend(&card);
    lent.records = records;
    lent.completions = completions;
    struct request fresh = {.call = FRESH};
    carry_out(&archive, lent, &fresh);
    for (long number = 1, length; (length = read_line(line)) >= 0; number++) {
        if (length <= LONGEST_LINE) {
            int count = cut(line, words);
            if (count == 0 || words[0][0] == '#' || answer(words, count))
                continue;
        }
        printf("unread %ld\n", number);
    }
    return 0;
}
