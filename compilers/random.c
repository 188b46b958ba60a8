/* Random numbers (splitmix64), and the draws that inputs are made of. */
#include <string.h>

#include "agree.h"

static uint64_t state;

void seeded(uint64_t seed, uint64_t block)
{
    state = seed * 0x9e3779b97f4a7c15u ^ block * 0xd1b54a32d192ed03u;
}

uint64_t any(void)
{
    uint64_t v = state += 0x9e3779b97f4a7c15u;
    v = (v ^ v >> 30) * 0xbf58476d1ce4e5b9u;
    v = (v ^ v >> 27) * 0x94d049bb133111ebu;
    return v ^ v >> 31;
}

size_t below(size_t bound)
{
    return (size_t)((any() >> 32) % bound);
}

bool one_in(size_t n)
{
    return below(n) == 0;
}

size_t place_in(size_t held)
{
    size_t way = below(32);
    if (way == 0)
        return (size_t)(any() >> below(64));
    if (way < 3 || held == 0)
        return held + below(2);
    return below(held);
}

size_t cut(size_t whole)
{
    return one_in(24) ? below(whole + 1) : whole;
}

static float float_of(uint32_t bits)
{
    float f;
    memcpy(&f, &bits, sizeof f);
    return f;
}

/* How the floats of one call are drawn: all in one way, or each in its own, so that lengths and positions meet. */
static size_t float_way;

void next_floats(void)
{
    float_way = below(8);
}

float any_float(void)
{
    /* zeros, ones, steps and their neighbours, limits of coordinates, infinities, NaNs, subnormals */
    static const uint32_t SPECIAL[] = {
        0, 0x80000000, 0x3f800000, 0xbf800000, 0x3e800000, 0xbe800000, 0x3d000000, 0xbd000000, 0x3e7fffff, 0x3cffffff,
        0x46000000, 0xc6000000, 0x45fffc00, 0x44800000, 0xc4800000, 0x7f800000, 0xff800000, 0x7fc00000, 0xffc00000,
        0x7f800001, 0x7fbfffff, 0xffffffff, 1, 0x80000001, 0x007fffff, 0x00800000, 0x7f7fffff, 0xff7fffff,
        0x437f0000, 0x437effff, 0x43800000,
    };
    switch (float_way < 5 ? float_way : below(5)) {
    case 0:
        return float_of((uint32_t)any());
    case 1:
        return float_of(SPECIAL[below(sizeof SPECIAL / sizeof *SPECIAL)] + (one_in(2) ? 0 : (uint32_t)below(3) - 1));
    case 2:
        return (float)((int32_t)below(1 << 16) - (1 << 15)) / 4;
    case 3:
        return (float)((int32_t)below(4096) - 2048) / 32;
    default:
        return (float)((int32_t)below(256) - 128) / 8;
    }
}

uint32_t float_bits(void)
{
    float f = any_float();
    uint32_t bits;
    memcpy(&bits, &f, sizeof bits);
    return bits;
}

int16_t any_steps(void)
{
    return one_in(4) ? (int16_t)any() : (int16_t)((int)below(1200) - 600);
}

void any_bytes(void *to, size_t n)
{
    uint8_t *at = to;
    for (; n >= 8; n -= 8, at += 8) {
        uint64_t v = any();
        memcpy(at, &v, 8);
    }
    uint64_t v = any();
    memcpy(at, &v, n);
}
