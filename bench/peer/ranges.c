/* Ranges for refusal 3, which the audit asks as well; and the audit's last sum. */
#include "rules.h"

bool bad_settings(const struct kamusseori_settings *s) {
    return s->far > LAST_PSN || s->pkey > 0xffff || s->pmtu < 1 || s->pmtu > 5 || s->share < 1 || s->share > s->ceiling ||
           s->ceiling > KAMUSSEORI_SLOTS || s->retry > 7 || s->rnr > 7 || s->timeout > 31;
}

/* Length, offset and, for a write or read, the far address. */
bool bad_reach(uint64_t offset, uint32_t length, bool far, uint64_t address) {
    const uint64_t end = (uint64_t)1 << 32;
    if (length >> 31 != 0 || offset >= end || offset + length > end)
        return true;
    return far && length > 0 && address > UINT64_MAX - (length - 1);
}

uint32_t claimed(const struct kamusseori_pair *pairs) {
    uint32_t sum = 0;
    for (uint32_t i = 0; i < KAMUSSEORI_PAIRS; i++)
        sum += claim_of(&pairs[i]);
    return sum;
}
