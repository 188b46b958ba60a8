/* The calls that store own words, cut lists and replace all links of a node or a heightmap. */
#include "check.h"

/* The links of each node but the one at p as they were. */
static void links_of_others(const lent *m, const lent *before, size_t p)
{
    for (size_t q = 0; q < m->ynd->node_count; q++) {
        size_t n = links_held(before, q);
        const ynd_link_entry *now = m->links + m->nodes[q].link_start;
        const ynd_link_entry *old = before->links + before->nodes[q].link_start;
        CHECK(q == p || (links_held(m, q) == n && (n == 0 || memcmp(now, old, n * sizeof *now) == 0)));
    }
}

bool links_replaced(lent *m, script *s, const lent *before, size_t *place, bool kept)
{
    size_t at = byte(s), n = byte(s) % 16 ? byte(s) % 6 : 256, size = n * sizeof(ynd_link_entry);
    ynd_link_entry *given = block(size);
    for (size_t i = 0; i < n; i++)
        ynd_link_to(word16(s), word16(s), &given[i]);
    uint32_t number = ynd_put_links(m->ynd, NODES(m), LINKS(m), at, given, n, place);
    if (!answer(PUT_LINKS, number, *place)) {
        CHECK(n < 256 && links_held(m, at) == n && m->ynd->link_count >= before->ynd->link_count);
        CHECK(n == 0 || memcmp(m->links + m->nodes[at].link_start, given, size) == 0);
        CHECK(m->nodes[at].node_id == before->nodes[at].node_id && m->nodes[at].flags5 == before->nodes[at].flags5);
        if (kept)
            links_of_others(m, before, at);
    }
    unblock(given, size);
    return number == 0;
}

bool map_replaced(lent *m, script *s, const lent *before, size_t *place)
{
    size_t at = byte(s);
    uint8_t width = byte(s) % 5, height = byte(s) % 5;
    size_t n = width * height + (byte(s) % 8 == 7);
    uint8_t *values = block(n);
    for (size_t i = 0; i < n; i++)
        values[i] = byte(s);
    uint32_t number = ynd_put_heightmap(m->ynd, JUNCTIONS(m), HEIGHTS(m), at, width, height, values, n, place);
    if (!answer(PUT_HEIGHTMAP, number, *place)) {
        const ynd_junction_entry *j = &m->junctions[at];
        CHECK(j->width == width && j->height == height && values_held(m, at) == n);
        CHECK(memcmp(&j->x, &before->junctions[at].x, 16) == 0);
        CHECK(n == 0 || memcmp(m->heights + j->heightmap_start, values, n) == 0);
    }
    unblock(values, n);
    return number == 0;
}

/* One of the lists cut, or the own words stored. */
bool list_cut(lent *m, script *s, const lent *before, size_t *place)
{
    uint8_t what = byte(s) % 4;
    size_t k = byte(s);
    uint32_t number = 0, word = word32(s), *words = block(7 * sizeof *words);
    ynd_cell expected = *before->ynd;
    *place = 0;
    switch (what) {
    case 0: number = ynd_truncate_nodes(m->ynd, k, place); expected.node_count = (uint32_t)k; break;
    case 1: number = ynd_truncate_junctions(m->ynd, k, place); expected.junction_count = (uint32_t)k; break;
    case 2: number = ynd_truncate_refs(m->ynd, k, place); expected.ref_count = (uint32_t)k; break;
    default:
        memcpy(expected.unknowns, words, 7 * sizeof *words);
        expected.vft = word;
        expected.vehicle_node_count = word ^ 1;
        expected.ped_node_count = word ^ 2;
        ynd_set_vft(m->ynd, word);
        ynd_set_vehicle_node_count(m->ynd, word ^ 1);
        ynd_set_ped_node_count(m->ynd, word ^ 2);
        ynd_set_unknowns(m->ynd, words);
    }
    if (!answer(TRUNCATE, number, *place))
        CHECK(memcmp(m->ynd, &expected, sizeof expected) == 0);
    unblock(words, 7 * sizeof *words);
    return number == 0;
}
