/* The arguments of calls, drawn so that most are accepted and each refusal is met: places beside those that are there,
 * areas and numbers of nodes, entries of the lists and made ones. */
#include <string.h>

#include "agree.h"

uint16_t some_area(void)
{
    const yard *c = &the.now;
    if (c->ynd.node_count > 0 && c->lent.nodes > 0 && !one_in(6))
        return c->nodes[below(c->lent.nodes)].area_id;
    return any_area();
}

uint16_t some_number(void)
{
    const yard *c = &the.now;
    if (c->lent.nodes > 0 && !one_in(6))
        return c->nodes[below(c->lent.nodes)].node_id;
    return (uint16_t)(one_in(2) ? any() : below(32));
}

static size_t drawn_member;

size_t some_member(void)
{
    return drawn_member = place_in(the.set.count);
}

const ynd_cell *member_drawn(void)
{
    return &the.set.members[drawn_member < MEMBERS ? drawn_member : 0].ynd;
}

uint16_t member_area(void)
{
    size_t first = 0, most = sizeof the.set.nodes / sizeof *the.set.nodes;
    for (size_t i = below(members_lent() + 1); i > 0; i--)
        first += the.set.members[i - 1].nodes;
    return first < most && !one_in(6) ? the.set.nodes[first].area_id : some_area();
}

size_t members_lent(void)
{
    size_t most = the.set.count < MEMBERS ? the.set.count : MEMBERS;
    return one_in(24) ? below(MEMBERS + 1) : most;
}

size_t place_of(uint32_t held)
{
    return place_in(held < NODES ? held : NODES);
}

uint32_t some_word(void)
{
    switch (below(4)) {
    case 0:
        return (uint32_t)any();
    case 1:
        return (uint32_t)(1u << below(32)) - (uint32_t)below(3) + 1;
    default:
        return (uint32_t)below(90);
    }
}

uint64_t some_address(void)
{
    return one_in(8) ? any() : (one_in(4) ? 0x60000000u : 0x50000000u) + below(one_in(3) ? 1u << 25 : 4000);
}

uint16_t some_version(void)
{
    return (uint16_t)(one_in(16) ? any() : 1 + below(2));
}

const ynd_node_entry *some_node(void)
{
    static ynd_node_entry made;
    if (the.now.lent.nodes > 0 && !one_in(3))
        return &the.now.nodes[below(the.now.lent.nodes)];
    any_bytes(&made, sizeof made);
    made.x = any_float();
    made.y = any_float();
    made.z = any_float();
    return &made;
}

const ynd_link_entry *some_link(void)
{
    return &the.given[below(GIVEN)];
}

const ynd_junction_entry *some_junction(void)
{
    static ynd_junction_entry made;
    if (the.now.lent.junctions > 0 && one_in(2))
        return &the.now.junctions[below(the.now.lent.junctions)];
    any_bytes(&made, sizeof made);
    made.width = (uint8_t)below(7);
    made.height = (uint8_t)below(7);
    made.zero = 0;
    return &made;
}

const ynd_ref_entry *some_ref(void)
{
    static ynd_ref_entry made;
    made = (ynd_ref_entry){ some_area(), some_number(), (uint16_t)below(4), (uint16_t)any() };
    return &made;
}

const ynd_counts *some_sizes(void)
{
    static ynd_counts made;
    const ynd_cell *held = &the.now.ynd;
    size_t free = below(5);
    made = (ynd_counts){ held->node_count + free, held->link_count + 4 * free, held->junction_count + free / 2,
        held->heightmap_count + 9 * free, held->ref_count + free / 2 };
    if (one_in(24))
        ((size_t *)&made)[below(5)] = some_word();
    return &made;
}

const void *some_bytes(size_t n)
{
    static uint8_t made[128];
    any_bytes(made, n);
    return made;
}

size_t values_for(size_t width, size_t height)
{
    size_t n = one_in(8) ? below(60) : width * height;
    return n < HEIGHTS ? n : HEIGHTS;
}
