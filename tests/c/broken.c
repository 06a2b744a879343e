/* Each sentence of the audit broken alone, in tables that pass: every call refuses with 15 and changes nothing. */
#include "scene.h"

/* Calls that the scene accepts, one of each kind; a fresh start audits nothing. */
static const struct request requests[] = {
    {.call = OPEN, .pair = CLOSED_ONE, .settings = {5, 6, 1, 1, 4, 7, 7, 14}, .first = 3},
    {.call = POST, .pair = REAR, .post = {.kind = KAMUSSEORI_SEND, .ticket = 5, .length = 20}},
    {.call = EMIT, .pair = REAR, .budget = 4},
    {.call = ACKNOWLEDGE, .pair = REAR, .psn = 2, .syndrome = KAMUSSEORI_ACK},
    {.call = RESPONSE, .pair = READS, .psn = 102, .opcode = 14, .length = 256},
    {.call = TIMER, .pair = REAR, .elapsed = 1000},
    {.call = CLOSE, .pair = REAR},
    {.call = AUDIT},
};
enum { REQUESTS = sizeof requests / sizeof *requests };

static void break_by(struct card *card, const struct variant *variant) {
    for (int i = 0; i < MOST_CHANGES; i++)
        apply(card, variant->changes[i]);
}

static void all_refuse(const struct card *from, struct lent lent, struct card *card, const char *about) {
    for (size_t i = 0; i < REQUESTS; i++) {
        *card = *from;
        refuses(card, lent, &requests[i], KAMUSSEORI_AUDIT_FAILED, about);
    }
}

/* The scene itself accepts each call, so that what is broken is what is refused. */
static void scene_accepts(const struct card *scene) {
    static struct card card;
    for (size_t i = 0; i < REQUESTS; i++) {
        card = *scene;
        accepted(&card, requests[i]);
    }
}

static void each_refuses(const struct card *scene, const struct variants *variants) {
    static struct card broken, card;
    for (size_t i = 0; i < variants->count; i++) {
        broken = *scene;
        accepted(&broken, (struct request){.call = AUDIT});
        break_by(&broken, &variants->row[i]);
        all_refuse(&broken, lend(&card), &card, variants->row[i].name);
    }
}

static void each_passes(const struct card *scene, const struct variants *variants) {
    static struct card card;
    for (size_t i = 0; i < variants->count; i++) {
        card = *scene;
        break_by(&card, &variants->row[i]);
        uint32_t refusal = archive.audit(card.pairs, KAMUSSEORI_PAIRS, &card.ends, card.slots, KAMUSSEORI_SLOTS);
        check(refusal == 0, "%s: sound, and the audit says %u", variants->row[i].name, refusal);
    }
}

static void wrong_lengths(const struct card *scene) {
    static const size_t lengths[][2] = {{63, 256}, {65, 256}, {0, 256}, {64, 255}, {64, 257}, {64, 0}, {0, 0}};
    static struct card card;
    struct request fresh = {.call = FRESH};
    for (size_t i = 0; i < sizeof lengths / sizeof *lengths; i++) {
        struct lent lent = lend(&card);
        lent.pair_count = lengths[i][0];
        lent.slot_count = lengths[i][1];
        all_refuse(scene, lent, &card, "wrong length");
        card = *scene;
        refuses(&card, lent, &fresh, KAMUSSEORI_AUDIT_FAILED, "wrong length");
    }
}

/* An empty free queue, whose ends are none. */
static void full_ends(void) {
    static const struct variant list[] = {
        {"an empty free queue's first end is not none", {ENDS(first, 0)}},
        {"an empty free queue's last end is not none", {ENDS(last, 255)}},
        {"an empty free queue's ends are no slot's number", {ENDS(first, 257), ENDS(last, 257)}},
        {"a full pair's held count is too low", {QUEUE(0, held, 255)}},
        {"a full pair's last link goes back", {LINK(255, 0)}},
        {"256 records, and the ceiling below", {SETTING(0, ceiling, 255)}},
    };
    static const struct variants variants = VARIANTS(list);
    static struct card full;
    make_full(&full);
    each_refuses(&full, &variants);
}

void test_broken(void) {
    static const struct variants *const all[] = {&broken_queues, &broken_records, &broken_order, &broken_messages};
    static struct card scene;
    make_scene(&scene);
    scene_accepts(&scene);
    for (size_t i = 0; i < sizeof all / sizeof *all; i++)
        each_refuses(&scene, all[i]);
    each_passes(&scene, &sound);
    wrong_lengths(&scene);
    full_ends();
}
