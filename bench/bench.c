/*
 * What a call costs: the peer on trust, the peer that audits, the archive, each over the same tables. A call changes its tables, so each is timed on a
 * row of equal cards, restored outside the timed part; rounds take turns, so that the machine's moods meet all three.
 */
#include <stdio.h>
#include <stdlib.h>
#include <string.h>
#include <time.h>

#include "scenes.h"

enum { CARDS = 8, WARM = 100, ROUNDS = 2001 };
enum subject { PLAIN, AUDITED, ARCHIVE, ARCHIVE_AUDIT, SUBJECTS };

static struct card master, cards[CARDS];
static double samples[SUBJECTS][ROUNDS];

/* Costs nothing but being called: what the measuring itself adds to a figure. */
static uint32_t nothing(TABLES) {
    (void)pairs, (void)pair_count, (void)ends, (void)slots, (void)slot_count;
    return 0;
}

static const struct calls empty = {.audit = nothing};
static const struct request audit = {.call = AUDIT};
static const struct calls *const by[SUBJECTS] = {&plain, &audited, &archive, &archive};

static double now(void) {
    struct timespec time;
    clock_gettime(CLOCK_MONOTONIC, &time);
    return 1e9 * (double)time.tv_sec + (double)time.tv_nsec;
}

/* ns a call, over a row of restored cards. */
static double once(const struct calls *calls, const struct request *request) {
    struct lent lent[CARDS];
    uint32_t refusals = 0;
    for (int i = 0; i < CARDS; i++) {
        cards[i] = master;
        lent[i] = lend(&cards[i]);
    }
    double start = now();
    for (int i = 0; i < CARDS; i++)
        refusals |= carry_out(calls, lent[i], request).refusal;
    double end = now();
    if (refusals != 0) {
        printf("a measured call was refused\n");
        exit(1);
    }
    return (end - start) / CARDS;
}

static int order(const void *a, const void *b) {
    double x = *(const double *)a, y = *(const double *)b;
    return (x > y) - (x < y);
}

static double median(double *row) {
    qsort(row, ROUNDS, sizeof *row, order);
    return row[ROUNDS / 2];
}

/* The subjects' medians. The audit alone is taken in the same rounds, so that its share is of like with like. */
static void measure(const struct request *request, double figures[SUBJECTS]) {
    for (int round = -WARM; round < ROUNDS; round++)
        for (int s = 0; s < SUBJECTS; s++) {
            double ns = once(by[s], s == ARCHIVE_AUDIT ? &audit : request);
            if (round >= 0)
                samples[s][round] = ns;
        }
    for (int s = 0; s < SUBJECTS; s++)
        figures[s] = median(samples[s]);
}

static double measuring(void) {
    for (int round = 0; round < ROUNDS; round++)
        samples[0][round] = once(&empty, &audit);
    return median(samples[0]);
}

/* Gives the highest ratio. */
static double bench_load(const struct load *load) {
    double worst = 0, ns[SUBJECTS];
    printf("\n%s\n\n", load->name);
    printf("| call | peer, no audit | peer, audited | archive | archive / audited peer | audit's share of the archive's call |\n");
    printf("|---|---|---|---|---|---|\n");
    for (size_t i = 0; i < measured_count; i++) {
        set_scene(&master, load, &measured[i]);
        measure(&measured[i].request, ns);
        double ratio = ns[ARCHIVE] / ns[AUDITED];
        printf("| %s | %.0f | %.0f | %.0f | %.2f | %.0f %% |\n", measured[i].name, ns[PLAIN], ns[AUDITED], ns[ARCHIVE], ratio,
               100 * ns[ARCHIVE_AUDIT] / ns[ARCHIVE]);
        worst = ratio > worst ? ratio : worst;
    }
    return worst;
}

int main(void) {
    double worst = 0;
    printf("Nanoseconds a call, median of %d rounds of %d calls; an empty call, measured alike, takes %.1f, which is in every figure.\n", ROUNDS,
           CARDS, measuring());
    for (size_t i = 0; i < load_count; i++) {
        double load_worst = bench_load(&loads[i]);
        worst = load_worst > worst ? load_worst : worst;
    }
    printf("\nThe highest ratio is %.2f; the bar is 2.\n", worst);
    return 0;
}
