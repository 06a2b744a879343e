/* What is measured: calls, and the tables that they find. */
#ifndef SCENES_H
#define SCENES_H

#include "card.h"

/* So many pairs are open; when the call has what it needs they hold `held` slots in all. */
struct load {
    const char *name;
    uint32_t pairs, held;
};

/* A call on pair 0, which holds or will hold `own` of the slots; the rest are the other pairs', in equal parts. */
struct measured {
    const char *name;
    struct request request;
    uint32_t own;
    void (*prepare)(struct card *card, uint32_t own);
};

extern const struct load loads[];
extern const size_t load_count;
extern const struct measured measured[];
extern const size_t measured_count;

void set_scene(struct card *card, const struct load *load, const struct measured *measured);

#endif
