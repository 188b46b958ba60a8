/* The memory that calls are lent: a cell, a cell to hand back, a set, sections, a round file, names, scratches. */
#include <string.h>

#include "agree.h"
#include "samples.h"

world the;

static const char *const NAMES[] = {
    "nodes489.ynd", "NODES0.YND", "a/b\\nodes1023.ynd", "nodes.ynd", "nodes+7.ynd", "nodes-1.ynd",
    "nodes04294967295.ynd", "nodes4294967296.ynd", "nodes12.yndx", "odes3.ynd", "nodes1024.ynd/", "",
};

uint16_t any_area(void)
{
    return (uint16_t)(one_in(32) ? any() : 480 + below(12) + (one_in(8) ? 1024 : 0));
}

/* ---- A cell made by hand ---- */

static void make_node(ynd_node_entry *node, uint16_t area, uint16_t number, uint32_t *links)
{
    any_bytes(node, sizeof *node);
    node->area_id = one_in(64) ? any_area() : area;
    node->node_id = number;
    node->x = any_float();
    node->y = any_float();
    node->z = any_float();
    node->flags1 = (uint8_t)(one_in(3) ? 0x50 : any());
    node->zero = 0;
    node->zeros = 0;
    node->link_start = *links;
    node->link_count = (uint8_t)(one_in(40) ? below(40) : below(5));
    if (*links + node->link_count > LINKS / 2)
        node->link_count = 0;
    *links += node->link_count;
}

static void make_links(yard *c, uint16_t area)
{
    for (size_t i = 0; i < c->ynd.link_count; i++) {
        any_bytes(&c->links[i], sizeof *c->links);
        c->links[i].area_id = one_in(8) ? any_area() : area;
        c->links[i].node_id = (uint16_t)(one_in(24) ? any() : below(c->ynd.node_count + 1u));
    }
}

static void make_junctions(yard *c, size_t most)
{
    uint32_t values = 0;
    for (size_t i = 0; i < most; i++) {
        ynd_junction_entry *to = &c->junctions[i];
        any_bytes(to, sizeof *to);
        to->x = any_float();
        to->y = any_float();
        to->width = (uint8_t)below(7);
        to->height = (uint8_t)below(7);
        to->zero = 0;
        to->heightmap_start = values;
        values += (uint32_t)to->width * to->height;
    }
    c->ynd.junction_count = (uint32_t)most;
    c->ynd.heightmap_count = values;
    any_bytes(c->heights, values);
}

static void make_refs(yard *c, uint16_t area)
{
    for (size_t i = 0; i < c->ynd.ref_count; i++) {
        any_bytes(&c->refs[i], sizeof *c->refs);
        c->refs[i].area_id = one_in(6) ? any_area() : area;
        c->refs[i].node_id = (uint16_t)below(c->ynd.node_count + 1u);
        c->refs[i].junction_id = (uint16_t)below(c->ynd.junction_count + 1u);
    }
}

static size_t room(uint32_t held, size_t free, size_t most)
{
    size_t wanted = cut(held + free);
    return wanted < most ? wanted : most;
}

/* How many entries of each list are lent: what is held, some free ones, at times fewer. */
static void lend_lists(yard *c)
{
    size_t free = below(4) * below(6);
    c->lent.nodes = room(c->ynd.node_count, free, NODES);
    c->lent.links = room(c->ynd.link_count, 5 * free, LINKS);
    c->lent.junctions = room(c->ynd.junction_count, free / 2, JUNCTIONS);
    c->lent.heights = room(c->ynd.heightmap_count, 8 * free, HEIGHTS);
    c->lent.refs = room(c->ynd.ref_count, free / 2, REFS);
}

static void make_cell(yard *c)
{
    uint16_t area = any_area();
    size_t n = one_in(64) ? below(NODES - 32) : below(24);
    bool by_place = one_in(2);
    uint32_t links = 0;
    memset(&c->ynd, 0, sizeof c->ynd);
    any_bytes(&c->ynd.vft, 10 * sizeof(uint32_t));
    for (size_t i = 0; i < n; i++)
        make_node(&c->nodes[i], area, (uint16_t)(by_place ? i : one_in(12) ? any() : n - 1 - i), &links);
    c->ynd.node_count = (uint32_t)n;
    c->ynd.link_count = links;
    make_links(c, area);
    make_junctions(c, below(4));
    c->ynd.ref_count = (uint32_t)below(5);
    make_refs(c, area);
    lend_lists(c);
}

/* ---- Sections, rounds and names ---- */

/* A sample or what was written last, mostly with some bytes changed. */
static void make_section(void)
{
    size_t way = below(SAMPLES + 3), n = the.written, was = the.skew;
    the.skew = below(8);
    uint8_t *system = the.system + the.skew;
    if (way < SAMPLES || n == 0 || n > SECTION) {
        way %= SAMPLES;
        n = SAMPLE_LENGTHS[way];
        memcpy(system, SAMPLE_BYTES[way], n);
    } else {
        memcpy(system, the.section + was, n);
    }
    for (size_t times = one_in(3) ? 0 : below(6); times > 0; times--) {
        size_t at = below(one_in(2) && n > YND_ROOT_BYTES ? YND_ROOT_BYTES : n);
        system[at] ^= (uint8_t)(one_in(2) ? any() : 1u << below(8));
    }
    the.system_len = one_in(16) ? below(n + 1) : n;
    the.graphics_len = one_in(3) ? below(400) : 0;
    any_bytes(the.graphics + the.skew, the.graphics_len);
}

static void make_round(void)
{
    size_t n = one_in(8) ? 0 : below(CHOICES);
    the.choices_len = n;
    for (size_t i = 0; i < n; i++)
        the.choices[i] = (uint8_t)(one_in(16) ? any() : below(3));
    const bool second = one_in(2);
    const uint8_t head[] = { 'R', 'N', 'D', (uint8_t)(1 + second), 0 };
    uint16_t number = some_number(), area = some_area(), count = (uint16_t)(one_in(12) ? any() : n);
    the.file_skew = below(8);
    uint8_t *at = the.file + the.file_skew;
    memcpy(at, head, sizeof head);
    at += sizeof head;
    if (second)
        memcpy(at, &area, 2), at += 2;
    memcpy(at, &number, 2);
    memcpy(at + 2, &count, 2);
    memcpy(at + 4, the.choices, n);
    the.file_len = cut((size_t)(at + 4 - the.file) - the.file_skew + n);
    if (one_in(6))
        the.file[the.file_skew + below(12)] ^= (uint8_t)(1u << below(8));
}

static void make_name(void)
{
    const char *from = NAMES[below(sizeof NAMES / sizeof *NAMES)];
    for (the.name_len = 0; from[the.name_len] && the.name_len < NAME; the.name_len++)
        the.name[the.name_len] = (uint8_t)from[the.name_len];
    if (the.name_len > 0 && one_in(2))
        the.name[below(the.name_len)] = (uint8_t)(one_in(3) ? any() : '0' + below(10));
}

static void make_given(void)
{
    any_bytes(the.given, sizeof the.given);
    for (size_t i = 0; i < GIVEN; i++) {
        the.given[i].area_id = some_area();
        the.given[i].node_id = some_number();
    }
    any_bytes(the.values, 512);
}

/* ---- A set ---- */

static void empty_set(void)
{
    group *s = &the.set;
    s->count = 0;
    s->lent = (ynd_counts){ 2 * NODES, 2 * LINKS, 2 * JUNCTIONS, 2 * HEIGHTS, 2 * REFS };
    if (!one_in(64))
        s->lent = (ynd_counts){ 40 + below(80), 80 + below(200), 8 + below(8), 100 + below(200), 6 + below(20) };
}

/* Any word of the cell, of a list or of a member, to any value. */
static void change_by_hand(void)
{
    yard *c = &the.now;
    uint32_t value = (uint32_t)(one_in(2) ? any() : below(80));
    switch (below(6)) {
    case 0:
        ((uint32_t *)&c->ynd)[below(15)] = value;
        break;
    case 1:
        c->nodes[below(c->lent.nodes + 1) % NODES].link_start = value;
        break;
    case 2:
        c->nodes[below(c->lent.nodes + 1) % NODES].link_count = (uint8_t)value;
        break;
    case 3:
        c->junctions[below(c->lent.junctions + 1) % JUNCTIONS].heightmap_start = value;
        break;
    case 4:
        c->junctions[below(c->lent.junctions + 1) % JUNCTIONS].width = (uint8_t)value;
        break;
    default:
        ((uint32_t *)&the.set.members[below(MEMBERS)])[below(20)] = value;
    }
}

void change_world(void)
{
    switch (below(512)) {
    case 0: case 1: case 2: case 3: case 4: case 5: case 6: case 7:
        make_cell(&the.now);
        break;
    case 8: case 9: case 10: case 11:
        make_section();
        break;
    case 12: case 13: case 14: case 15:
        make_round();
        make_name();
        break;
    case 16:
        make_given();
        break;
    case 17: case 18:
        empty_set();
        break;
    case 19: case 20:
        the.now = the.other;
        break;
    case 21: case 22: case 23: case 24:
        change_by_hand();
        break;
    case 25: case 26:
        lend_lists(&the.now);
        break;
    default:
        break;
    }
}

void new_world(void)
{
    memset(&the, 0xA5, sizeof the);
    the.written = the.skew = the.file_skew = 0;
    make_cell(&the.other);
    make_cell(&the.now);
    make_section();
    make_round();
    make_name();
    make_given();
    empty_set();
}
