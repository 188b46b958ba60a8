/* A digest of bytes, eight at a time in four lanes: quick, since every list of every call goes through it. Not for
 * security: two different lists have the same by a chance of one in 2^64. */
#include <string.h>

#include "agree.h"

static const uint64_t FACTORS[4] = {
    0x9e3779b185ebca87u, 0xc2b2ae3d27d4eb4fu, 0x165667b19e3779f9u, 0x27d4eb2f165667c5u
};

digest empty_digest(void)
{
    return (digest){ { FACTORS[3], FACTORS[2], FACTORS[1], FACTORS[0] } };
}

static uint64_t stirred(uint64_t lane, uint64_t word, uint64_t factor)
{
    lane = (lane ^ word) * factor;
    return lane ^ lane >> 29;
}

static void mix_words(digest *d, const uint64_t word[4])
{
    for (unsigned i = 0; i < 4; i++)
        d->lanes[i] = stirred(d->lanes[i], word[i], FACTORS[i]);
}

void mix(digest *d, const void *from, size_t n)
{
    const uint8_t *at = from;
    uint64_t word[4];
    digest now = *d;
    size_t rest = n;
    for (; rest >= sizeof word; rest -= sizeof word, at += sizeof word) {
        memcpy(word, at, sizeof word);
        mix_words(&now, word);
    }
    memset(word, 0, sizeof word);
    if (rest > 0)
        memcpy(word, at, rest);
    mix_words(&now, word);
    now.lanes[0] = stirred(now.lanes[0], n, FACTORS[1]);
    *d = now;
}

uint64_t folded(const digest *d)
{
    uint64_t sum = 0;
    for (unsigned i = 0; i < 4; i++)
        sum = stirred(sum, d->lanes[i], FACTORS[i]) + (sum << 7);
    return sum ^ sum >> 32;
}
