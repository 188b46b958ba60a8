/* How much stack each call takes, its arguments and return address with it: it runs on a painted stack of its own, and the deepest byte
 * that was touched is looked for.
 *
 *     stack SECTION */
#include <stdio.h>
#include <stdlib.h>
#include <string.h>

#include "bofrashem.h"

enum { STACK = 1 << 18, PAINT = 0xC7 };

static uint8_t *painted;
static uint8_t *section;
static size_t section_len, place, count, at;
static ynd_counts counts;
static ynd_cell ynd;
static ynd_node_entry *nodes, node;
static ynd_link_entry *links, link_to;
static ynd_junction_entry *junctions;
static uint8_t *heights;
static ynd_ref_entry *refs, ref;
static uint32_t *scratch, *places, visited[65], area;
static bool yes;
static volatile uint8_t length;
/* what a call returns is kept, and not looked at: what is measured is its stack */
static volatile uint32_t number;

#define NODES nodes, counts.nodes + 1
#define LINKS links, counts.links + 1
#define LISTS NODES, LINKS, junctions, counts.junctions + 1, heights, counts.heights + 1, refs, counts.refs + 1

static void *list(size_t n, size_t size)
{
    void *p = calloc(n, size);
    if (!p)
        exit(EXIT_FAILURE);
    return p;
}

static void do_count(void) { number = ynd_count(section, section_len, NULL, 0, &counts, &place); }
static void do_read(void) { number = ynd_read(&ynd, section, section_len, NULL, 0, LISTS, &place); }
static void do_sound(void) { number = ynd_sound(&ynd, NODES, LINKS, refs, counts.refs + 1, scratch, YND_SCRATCH, &yes, &place); }
static void do_renumber(void) { number = ynd_renumber(&ynd, LISTS, scratch, YND_SCRATCH, places, counts.nodes + 1, &place); }
static void do_write(void) { number = ynd_write(&ynd, LISTS, section, section_len, &count, &place); }
static void do_write_then_read(void) { number = ynd_write_then_read(&ynd, LISTS, section, section_len, &count, &place); }
static void do_walk(void) { static uint8_t choices[64]; ynd_walk_end end; number = ynd_walk(&ynd, NODES, LINKS, 0, choices, 64, visited, 65, &end, &count, &place); }
static void do_within(void) { number = ynd_within(&ynd, NODES, 0, 0, 400, places, counts.nodes + 1, &count, &place); }
static void do_nearest(void) { static uint64_t square; number = ynd_nearest(&ynd, NODES, 0, 0, &yes, &at, &square, &place); }
static void do_read_round(void) { static uint8_t to[64]; static uint16_t start; number = ynd_read_round(section, 73, to, 64, &start, &count, &place); }
static void do_write_round(void) { static uint8_t choices[64]; number = ynd_write_round(7, choices, 64, section, section_len, &count, &place); }
static void do_follow_round(void) { static uint8_t choices[64]; ynd_walk_end end; number = ynd_follow_round(&ynd, NODES, LINKS, 0, choices, 64, visited, 65, &end, &count, &place); }
static void do_follow_version(void)
{
    static uint8_t choices[64];
    ynd_walk_end end;
    number = ynd_follow_round_versioned(&ynd, NODES, LINKS, 1, 0, 0, choices, 64, visited, 65, &end, &count, &place);
}
static void do_node(void) { number = ynd_node(&ynd, NODES, 3, &yes, &at, &place); }
static void do_add_node(void) { number = ynd_add_node(&ynd, NODES, 489, 1, 2, 3, &place); }
static void do_add_link(void) { number = ynd_add_link(&ynd, NODES, LINKS, 0, &link_to, &place); }
static void do_add_ref(void) { number = ynd_add_ref(&ynd, refs, counts.refs + 1, &ref, &place); }
static void do_put_node(void) { number = ynd_put_node(&ynd, NODES, 0, &node, &place); }
static void do_shown_node(void) { static ynd_seen_node seen; number = ynd_shown_node(&ynd, NODES, LINKS, junctions, counts.junctions + 1, refs, counts.refs + 1, 0, &seen, &place); }
static void do_file_name(void) { static uint8_t name[13]; number = ynd_cell_file_name(25, 4, name, &count, &place); }
static void do_area(void) { static const uint8_t NAME[] = "nodes489.ynd"; yes = ynd_area_id_from_file_name(NAME, 12, &area); }
/* lengths at and beside each whole metre, so that the table of thresholds is looked at */
static void do_length(void)
{
    for (uint32_t k = 0; k < 256; k++)
        for (uint32_t beside = 0; beside < 3; beside++)
            length = ynd_length_between(0, 0, 0, ynd_float_of(ynd_bits_of((float)k) + beside - 1), 0, 0);
}
static void do_stored(void) { static float stored[3]; ynd_stored_position(1, 2, 3, stored); }

/* The cell as a set of one member, in lists of its own. */
static ynd_member member;
static ynd_node_entry *set_nodes;
static ynd_link_entry *set_links;
static ynd_junction_entry *set_junctions;
static uint8_t *set_heights;
static ynd_ref_entry *set_refs;
static size_t members;

#define SET_NODES set_nodes, counts.nodes + 1
#define SET_LINKS set_links, counts.links + 1
#define SET_JUNCTIONS set_junctions, counts.junctions + 1
#define SET_HEIGHTS set_heights, counts.heights + 1
#define SET_REFS set_refs, counts.refs + 1
#define SET_LISTS SET_NODES, SET_LINKS, SET_JUNCTIONS, SET_HEIGHTS, SET_REFS

static void accepted(uint32_t number)
{
    if (number)
        exit(EXIT_FAILURE);
}

static void do_set_join(void)
{
    accepted(ynd_set_join(&members, &member, 1, SET_LISTS, &ynd, LISTS, &counts, &place));
}

static void do_set_sound(void)
{
    accepted(ynd_set_sound(&member, 1, SET_NODES, SET_LINKS, SET_REFS, scratch, YND_SCRATCH, &yes, &place));
}

static void do_set_walk(void)
{
    static uint8_t choices[64];
    static ynd_location over[65];
    ynd_walk_end end;
    accepted(ynd_set_crossing_walk(
        &member, 1, SET_NODES, SET_LINKS, 0, 0, choices, 64, over, 65, &end, &count, &place));
}

static void do_set_renumber(void)
{
    accepted(ynd_set_renumber(&member, 1, SET_LISTS, scratch, YND_SCRATCH, places, counts.nodes, 0, &place));
}

/* The calls on the member that are lent most. */
static void do_member_write(void)
{
    accepted(ynd_member_write(&member, 1, SET_LISTS, 0, section, YND_SECTION_MOST, &count, &place));
}

static void do_member_write_then_read(void)
{
    accepted(ynd_member_write_then_read(&member, 1, SET_LISTS, 0, section, YND_SECTION_MOST, &count, &place));
}

static void do_member_shown_node(void)
{
    static ynd_seen_node seen;
    accepted(ynd_member_shown_node(&member, 1, SET_NODES, SET_LINKS, SET_JUNCTIONS, SET_REFS, 0, 0, &seen, &place));
}

static void do_member_put_links(void)
{
    accepted(ynd_member_put_links(&member, 1, SET_NODES, SET_LINKS, 0, 0, &link_to, 1, &place));
}

static void do_member_put_words(void)
{
    static uint32_t unknowns[7];
    accepted(ynd_member_put_words(&member, 1, 0, 1, 2, 3, unknowns, &place));
}

/* Its part has no room: refused behind all that is asked before. */
static void do_member_add_junction(void)
{
    static const ynd_junction_entry empty;
    number = ynd_member_add_junction(&member, 1, SET_JUNCTIONS, SET_HEIGHTS, 0, &empty, NULL, 0, &place);
}

static void do_member_add_node(void)
{
    number = ynd_member_add_node(&member, 1, SET_NODES, 0, 489, 1, 2, 3, &place);
}

static void do_member_node(void)
{
    accepted(ynd_member_node(&member, 1, SET_NODES, 0, 3, &yes, &at, &place));
}

static void do_set_hand_back(void)
{
    uint16_t own = set_nodes[0].area_id;
    accepted(ynd_set_hand_back(&member, 1, SET_LISTS, own, &ynd, LISTS, &place));
}

static void do_set_leave(void)
{
    uint16_t own = set_nodes[0].area_id;
    accepted(ynd_set_leave(&member, 1, SET_LISTS, own, &members, &place));
}

static size_t touched(void (*call)(void))
{
    memset(painted, PAINT, STACK);
#ifdef __aarch64__
    __asm__ volatile("mov x19, sp\n\tmov sp, %1\n\tblr %0\n\tmov sp, x19"
        : : "r"(call), "r"(painted + STACK)
        : "x0", "x1", "x2", "x3", "x4", "x5", "x6", "x7", "x8", "x9", "x10", "x11", "x12", "x13", "x14", "x15", "x16", "x17",
          "x19", "x30", "memory", "cc", "v0", "v1", "v2", "v3", "v4", "v5", "v6", "v7", "v16", "v17", "v18", "v19", "v20",
          "v21", "v22", "v23", "v24", "v25", "v26", "v27", "v28", "v29", "v30", "v31");
#else
    __asm__ volatile("movq %%rsp, %%rbx\n\tmovq %1, %%rsp\n\tcallq *%0\n\tmovq %%rbx, %%rsp"
        : : "r"(call), "r"(painted + STACK)
        : "rbx", "rax", "rcx", "rdx", "rsi", "rdi", "r8", "r9", "r10", "r11", "memory", "cc", "xmm0", "xmm1", "xmm2", "xmm3", "xmm4", "xmm5", "xmm6",
          "xmm7", "xmm8", "xmm9", "xmm10", "xmm11", "xmm12", "xmm13", "xmm14", "xmm15");
#endif
    size_t i = 0;
    while (i < STACK && painted[i] == PAINT)
        i++;
    return STACK - i;
}

int main(int argc, char **argv)
{
    static const struct { const char *name; void (*call)(void); } CALLS[] = {
        { "ynd_count", do_count }, { "ynd_read", do_read }, { "ynd_sound", do_sound }, { "ynd_walk", do_walk }, { "ynd_renumber", do_renumber },
        { "ynd_write", do_write }, { "ynd_write_then_read", do_write_then_read }, { "ynd_node", do_node }, { "ynd_shown_node", do_shown_node },
        { "ynd_within", do_within }, { "ynd_nearest", do_nearest }, { "ynd_follow_round", do_follow_round },
        { "ynd_follow_round_versioned", do_follow_version },
        { "ynd_set_join", do_set_join }, { "ynd_set_sound", do_set_sound }, { "ynd_set_crossing_walk", do_set_walk },
        { "ynd_set_renumber", do_set_renumber },
        { "ynd_member_write", do_member_write }, { "ynd_member_write_then_read", do_member_write_then_read },
        { "ynd_member_shown_node", do_member_shown_node }, { "ynd_member_put_links", do_member_put_links },
        { "ynd_member_put_words", do_member_put_words }, { "ynd_member_add_junction", do_member_add_junction },
        { "ynd_member_add_node", do_member_add_node }, { "ynd_member_node", do_member_node },
        { "ynd_set_hand_back", do_set_hand_back },
        { "ynd_set_leave", do_set_leave },
        { "ynd_write_round", do_write_round }, { "ynd_read_round", do_read_round },
        { "ynd_add_node", do_add_node }, { "ynd_add_link", do_add_link }, { "ynd_add_ref", do_add_ref }, { "ynd_put_node", do_put_node },
        { "ynd_stored_position", do_stored }, { "ynd_length_between", do_length }, { "ynd_cell_file_name", do_file_name },
        { "ynd_area_id_from_file_name", do_area },
    };
    FILE *f = argc == 2 ? fopen(argv[1], "rb") : NULL;
    if (!f || !(painted = aligned_alloc(4096, STACK)))
        return EXIT_FAILURE;
    section = list(YND_SECTION_MOST, 1);
    section_len = fread(section, 1, YND_SECTION_MOST, f);
    fclose(f);
    if (ynd_count(section, section_len, NULL, 0, &counts, &place))
        return EXIT_FAILURE;
    nodes = list(counts.nodes + 1, sizeof *nodes);
    links = list(counts.links + 1, sizeof *links);
    junctions = list(counts.junctions + 1, sizeof *junctions);
    heights = list(counts.heights + 1, 1);
    refs = list(counts.refs + 1, sizeof *refs);
    set_nodes = list(counts.nodes + 1, sizeof *nodes);
    set_links = list(counts.links + 1, sizeof *links);
    set_junctions = list(counts.junctions + 1, sizeof *junctions);
    set_heights = list(counts.heights + 1, 1);
    set_refs = list(counts.refs + 1, sizeof *refs);
    scratch = list(YND_SCRATCH, sizeof *scratch);
    places = list(counts.nodes + 1, sizeof *places);
    for (size_t i = 0; i < sizeof CALLS / sizeof *CALLS; i++)
        printf("%-28s %6zu bytes of stack\n", CALLS[i].name, touched(CALLS[i].call));
    return EXIT_SUCCESS;
}
