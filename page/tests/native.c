/* The calls that bench.py times in the page, timed natively: native SECTION. Best of nine, in milliseconds. */
#define _POSIX_C_SOURCE 199309L
#include <stdio.h>
#include <stdlib.h>
#include <time.h>
#include "bofrashem.h"

static uint8_t system_[YND_SECTION_MOST], section[YND_SECTION_MOST], choices[YND_NODES_MOST], heights[1 << 16], none[59999];
static ynd_node_entry nodes[YND_NODES_MOST];
static ynd_link_entry links[1 << 17];
static ynd_junction_entry junctions[1];
static ynd_ref_entry refs[1];
static uint32_t scratch[YND_PATH_SCRATCH * YND_NODES_MOST], places[YND_NODES_MOST];
static ynd_cell ynd;
static size_t length, place, count;

#define NODES nodes, YND_NODES_MOST
#define LINKS links, 1 << 17
#define LISTS NODES, LINKS, junctions, 1, heights, 1 << 16, refs, 1

static uint32_t call(int which)
{
    bool is;
    size_t at;
    uint64_t square;
    uint32_t metres;
    ynd_walk_end end;
    switch (which) {
    case 0: return ynd_read(&ynd, system_, length, NULL, 0, LISTS, &place);
    case 1: return ynd_sound(&ynd, NODES, LINKS, refs, 1, scratch, YND_SCRATCH, &is, &place);
    case 2: return ynd_nearest(&ynd, NODES, 40, 40, &is, &at, &square, &place);
    case 3: return ynd_within(&ynd, NODES, 40, 40, 500, places, YND_NODES_MOST, &count, &place);
    case 4: return ynd_shortest_path(&ynd, NODES, LINKS, 0, ynd.node_count - 1, scratch, YND_PATH_SCRATCH * YND_NODES_MOST,
        choices, YND_NODES_MOST, places, YND_NODES_MOST, &metres, &count, &place);
    case 5: return ynd_walk_indexed(&ynd, NODES, LINKS, 0, none, sizeof none, places, YND_NODES_MOST, scratch, YND_SCRATCH,
        &end, &count, &place);
    case 6: return ynd_write(&ynd, LISTS, section, YND_SECTION_MOST, &count, &place);
    default: return ynd_renumber(&ynd, LISTS, scratch, YND_SCRATCH, places, YND_NODES_MOST, &place);
    }
}

static double now(void)
{
    struct timespec t;
    clock_gettime(CLOCK_MONOTONIC, &t);
    return t.tv_sec * 1e3 + t.tv_nsec / 1e6;
}

int main(int argc, char **argv)
{
    static const char *const NAMES[] = { "read", "sound", "nearest", "within 125 m", "short way, 0 to the last",
        "walk of 59,999 choices", "write", "renumber" };
    FILE *file = argc > 1 ? fopen(argv[1], "rb") : NULL;
    if (!file)
        return 1;
    length = fread(system_, 1, sizeof system_, file);
    fclose(file);
    for (int which = 0; which < 8; which++) {
        double least = 1e9;
        for (int i = 0; i < 9; i++) {
            double from = now();
            uint32_t number = call(which);
            if (number)
                return fprintf(stderr, "%s: refused %u\n", NAMES[which], (unsigned)number), 1;
            least = now() - from < least ? now() - from : least;
        }
        printf("%s: %.2f\n", NAMES[which], least);
    }
    return 0;
}
