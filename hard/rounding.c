/* What calls answer where the processor does not round to nearest, or flushes subnormal numbers to zero: the same
 * calls on the same numbers in each mode, compared with their answers to nearest (docs/LINKING.md, "Rounding"). Fails
 * where a call differs that is said to be the same in every mode, or where flushing changes an answer. */
#include <fenv.h>
#include <stdbool.h>
#include <stdio.h>
#include <stdlib.h>
#include <string.h>

#include "bofrashem.h"

#if defined(__x86_64__)
#include <xmmintrin.h>
#endif

enum { SWEPT = 100000, STEPS = 65536, NUMBERS = SWEPT + 6 * STEPS, SECTION = 2048, NODE_AT = 1152 };

static uint32_t numbers[NUMBERS]; /* patterns of floats */
static uint64_t nearest[NUMBERS]; /* what a call answers to nearest, by the place of its number */

static float number(size_t k)
{
    float x;
    memcpy(&x, &numbers[k % NUMBERS], sizeof x);
    return x;
}

static uint32_t bits(float x)
{
    uint32_t b;
    memcpy(&b, &x, sizeof b);
    return b;
}

/* A sweep over all patterns, and each step of x and of z with its neighbours on both sides. */
static void make_numbers(void)
{
    for (size_t k = 0; k < SWEPT; k++)
        numbers[k] = (uint32_t)(k * (0x100000000u / SWEPT));
    for (size_t k = 0; k < STEPS; k++)
        for (size_t side = 0; side < 3; side++) {
            numbers[SWEPT + 6 * k + side] = bits(((float)k - 32768) / 4) + (uint32_t)side - 1;
            numbers[SWEPT + 6 * k + 3 + side] = bits(((float)k - 32768) / 32) + (uint32_t)side - 1;
        }
}

/* ---- the calls: what each answers of number k, as one number */

static uint64_t mixed(uint64_t sum, const void *bytes, size_t length)
{
    for (const uint8_t *p = bytes; length--; p++)
        sum = (sum ^ *p) * 0x100000001b3u;
    return sum;
}

static uint64_t steps(size_t k)
{
    int16_t s[7] = { ynd_steps_xy(number(k)), ynd_steps_z(number(k)), ynd_steps_xy_of_bits(numbers[k]),
                     ynd_steps_z_of_bits(numbers[k]) };
    ynd_quantise(number(k), number(k), number(k), s + 4);
    return mixed(1, s, sizeof s);
}

static uint64_t metres(size_t k)
{
    float m[5] = { ynd_metres_xy((int16_t)k), ynd_metres_z((int16_t)k) };
    ynd_dequantise((int16_t)k, (int16_t)(k * 7), (int16_t)(k * 31), m + 2);
    return mixed(1, m, sizeof m);
}

static uint64_t stored(size_t k)
{
    float s[3];
    ynd_node_entry node;
    ynd_stored_position(number(k), number(k), number(k), s);
    ynd_node_new(489, 0, number(k), number(k), number(k), &node);
    uint64_t sum = mixed(mixed(1, s, sizeof s), &node, sizeof node);
    ynd_node_set_position(&node, number(k + 1), number(k + 1), number(k + 1));
    return mixed(sum, &node, sizeof node);
}

static uint64_t grid(size_t k)
{
    uint32_t cell[2];
    ynd_cell_for_position(number(k), number(k), cell);
    return mixed(1, cell, sizeof cell);
}

static uint64_t bounds(size_t k)
{
    float b[4] = { 0 };
    size_t place;
    uint32_t refused = ynd_cell_bounds((uint32_t)k % 32, (uint32_t)(k / 32) % 32, b, &place);
    return mixed(refused, b, sizeof b);
}

/* Along 3 : 4, each length, its two coordinates up to four patterns off: what is next to a whole root. */
static uint64_t lengths(size_t k)
{
    float whole = (float)(k % 255 + 1), x, y;
    uint32_t xs = bits(whole * 3 / 5) + (uint32_t)(k / 255 % 9) - 4;
    uint32_t ys = bits(whole * 4 / 5) + (uint32_t)(k / 2295 % 9) - 4;
    memcpy(&x, &xs, sizeof x);
    memcpy(&y, &ys, sizeof y);
    return mixed(ynd_length_between(0, 0, 0, x, y, 0), &(uint8_t){ ynd_length_between(0, 0, 0, number(k), y, x) }, 1);
}

static uint64_t lanes(size_t k)
{
    return bits(ynd_lane_offset((uint8_t)(k % 8), k / 8 % 2));
}

/* A node with a coordinate as it is, written, read back, and looked for. */
static uint64_t cells(size_t k)
{
    ynd_cell ynd, back;
    ynd_node_entry node, read = { 0 };
    uint8_t section[SECTION];
    uint32_t listed[1] = { 7 };
    size_t length = 0, place, count = 0, at = 0;
    uint64_t square = 0;
    bool found = false;
    ynd_new(&ynd);
    ynd_node_new(489, 0, 0, 0, 0, &node);
    node.x = number(k), node.y = number(k + 3), node.z = number(k + 6);
    ynd.node_count = 1;
    uint32_t refused = ynd_write(&ynd, &node, 1, NULL, 0, NULL, 0, NULL, 0, NULL, 0, section, SECTION, &length,
                                 &place);
    refused |= ynd_read(&back, section, length, NULL, 0, &read, 1, NULL, 0, NULL, 0, NULL, 0, NULL, 0, &place) << 8;
    refused |= ynd_within(&ynd, &node, 1, (int16_t)k, 0, 500, listed, 1, &count, &place) << 16;
    refused |= ynd_nearest(&ynd, &node, 1, (int16_t)k, 0, &found, &at, &square, &place) << 24;
    uint64_t sum = mixed(refused, section + NODE_AT, length - NODE_AT);
    sum = mixed(sum, &read, sizeof read);
    return mixed(mixed(sum, listed, sizeof listed), &square, sizeof square) + count;
}

/* ---- the modes */

static bool flush(bool on)
{
#if defined(__x86_64__)
    const unsigned both = 0x8040; /* results to zero, and operands */
    _mm_setcsr(on ? _mm_getcsr() | both : _mm_getcsr() & ~both);
    return true;
#elif defined(__aarch64__)
    const uint64_t flag = UINT64_C(1) << 24;
    uint64_t word;
    __asm__ volatile("mrs %0, fpcr" : "=r"(word));
    word = on ? word | flag : word & ~flag;
    __asm__ volatile("msr fpcr, %0" : : "r"(word));
    return true;
#else
    return !on;
#endif
}

static bool to(int rounding, bool flushing)
{
    return flush(flushing) && fesetround(rounding) == 0;
}

/* How many of the answers are others in this mode than to nearest; the place of the first such goes to `first`. */
static size_t others(uint64_t (*call)(size_t), int rounding, bool flushing, size_t *first)
{
    size_t count = 0;
    if (!to(rounding, flushing)) {
        fprintf(stderr, "this processor has no such mode\n");
        exit(EXIT_FAILURE);
    }
    for (size_t k = 0; k < NUMBERS; k++)
        if (call(k) != nearest[k] && count++ == 0)
            *first = k;
    to(FE_TONEAREST, false);
    return count;
}

static const struct {
    const char *name;
    int rounding;
    bool flushing;
} modes[] = {
    { "down", FE_DOWNWARD, false },
    { "up", FE_UPWARD, false },
    { "to zero", FE_TOWARDZERO, false },
    { "to nearest, subnormal numbers flushed", FE_TONEAREST, true },
};

static const struct {
    const char *name;
    uint64_t (*call)(size_t);
    bool rounded; /* whether its answers may be others where rounding is not to nearest */
} calls[] = {
    { "steps of a coordinate", steps, false },
    { "metres of steps", metres, false },
    { "stored positions", stored, false },
    { "cells of the grid", grid, true },
    { "bounds of a cell", bounds, true },
    { "lengths", lengths, true },
    { "lane offsets", lanes, true },
    { "writing, reading, near nodes", cells, false },
};

/* The two inputs that the pages name, in this mode. */
static void named(int rounding, uint32_t cell[2], unsigned *length)
{
    volatile float x = -1.f / 8192, y = -1.f / 2048, a = 1.20000017f, b = 1.5999999f;
    float nx = x, ny = y, na = a, nb = b;
    to(rounding, false);
    ynd_cell_for_position(nx, ny, cell);
    *length = ynd_length_between(0, 0, 0, na, nb, 0);
    to(FE_TONEAREST, false);
}

static bool named_are_as_said(void)
{
    uint32_t right[2], down[2];
    unsigned length, short_one;
    named(FE_TONEAREST, right, &length);
    named(FE_DOWNWARD, down, &short_one);
    printf("x = -1/8192 is in column %u, and %u where rounding is down; a length of %u is %u there\n",
           (unsigned)right[0], (unsigned)down[0], length, short_one);
    return right[0] == 16 && right[1] == 15 && length == 2 && down[0] == 15 && short_one == 1;
}

/* One call in one mode, in a line. */
static bool compared(size_t c, size_t m)
{
    size_t first = 0, count = others(calls[c].call, modes[m].rounding, modes[m].flushing, &first);
    bool right = count == 0 || (calls[c].rounded && !modes[m].flushing);
    printf("%s%s, %s: ", right ? "" : "WRONG ", calls[c].name, modes[m].name);
    if (count)
        printf("%zu of %d answers are others, the first at input %zu\n", count, NUMBERS, first);
    else
        printf("the same %d answers\n", NUMBERS);
    return right;
}

int main(void)
{
    bool good = named_are_as_said();
    make_numbers();
    for (size_t c = 0; c < sizeof calls / sizeof *calls; c++) {
        for (size_t k = 0; k < NUMBERS; k++)
            nearest[k] = calls[c].call(k);
        for (size_t m = 0; m < sizeof modes / sizeof *modes; m++)
            good = compared(c, m) && good;
    }
    return good ? EXIT_SUCCESS : EXIT_FAILURE;
}
