/* Random numbers and requests. */
#ifndef REQUESTS_H
#define REQUESTS_H

#include "card.h"

void seed_random(uint64_t seed);
uint64_t random_bits(void);
uint32_t below(uint32_t bound);
bool one_in(uint32_t times);

/* A call on the card, mostly one that its tables will accept; they may hold anything. */
struct request random_request(const struct card *card);

#endif
