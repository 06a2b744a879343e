#include <stdarg.h>
#include <stdio.h>
#include <string.h>

#include "test.h"

static unsigned long passed, failed;

void check(bool holds, const char *format, ...) {
    if (holds) {
        passed++;
        return;
    }
    if (failed++ < 20) {
        va_list words;
        va_start(words, format);
        printf("failed: ");
        vprintf(format, words);
        printf("\n");
        va_end(words);
    }
}

void start(struct card *card) {
    struct request fresh = {.call = FRESH};
    memset(card, 0xa5, sizeof *card);
    carry_out(&archive, lend(card), &fresh);
}

struct kamusseori_reply accepted(struct card *card, struct request request) {
    struct kamusseori_reply reply = carry_out(&archive, lend(card), &request);
    check(reply.refusal == 0, "%s on pair %u refused by %u", call_names[request.call], request.pair, reply.refusal);
    return reply;
}

void refuses(struct card *card, struct lent lent, const struct request *request, uint32_t number, const char *about) {
    static struct card before;
    before = *card;
    struct kamusseori_reply reply = carry_out(&archive, lent, request);
    struct kamusseori_reply wanted = {number, 0, 0, 0};
    check(same_reply(reply, wanted), "%s: %s answers %u %u %u %u, not refusal %u", about, call_names[request->call], reply.refusal, reply.answer,
          reply.number, reply.place, number);
    check(same_card(card, &before), "%s: %s is refused and changes something", about, call_names[request->call]);
    *card = before;
}

void apply(struct card *card, struct change change) {
    memcpy((char *)card + change.place, &change.number, change.bytes);
}

int main(void) {
    static const struct {
        const char *name;
        void (*run)(void);
    } tests[] = {{"layout", test_layout}, {"broken tables", test_broken}, {"refusals", test_refusals}, {"random", test_random}};
    for (size_t i = 0; i < sizeof tests / sizeof *tests; i++) {
        unsigned long before = passed + failed, failed_before = failed;
        tests[i].run();
        printf("%s: %lu checks, %lu failed\n", tests[i].name, passed + failed - before, failed - failed_before);
    }
    if (gaps_differ > 0)
        printf("note: %lu times the bytes between fields differed, which hold nothing\n", gaps_differ);
    printf("%lu passed, %lu failed\n", passed, failed);
    return failed != 0;
}
