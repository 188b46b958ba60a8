/* The calls that add, take out and store entries. */
#include "check.h"

/* The links of each node as they were; the node at p has one more, the last. */
static void links_kept(const lent *m, const lent *before, size_t p, const ynd_link_entry *added)
{
    for (size_t q = 0; q < m->ynd->node_count; q++) {
        size_t n = links_held(before, q);
        CHECK(links_held(m, q) == n + (q == p));
        CHECK(n == 0 || memcmp(m->links + m->nodes[q].link_start, before->links + before->nodes[q].link_start, n * sizeof *m->links) == 0);
        if (q == p)
            CHECK(memcmp(m->links + m->nodes[q].link_start + n, added, sizeof *added) == 0);
    }
}

static bool add_node(lent *m, script *s, const lent *before, size_t *place)
{
    uint16_t area = word16(s);
    float x = real(s), y = real(s), z = real(s), stored[3];
    uint32_t number = ynd_add_node(m->ynd, NODES(m), area, x, y, z, place);
    if (answer(ADD_NODE, number, *place))
        return false;
    const ynd_node_entry *v = &m->nodes[before->ynd->node_count];
    ynd_stored_position(x, y, z, stored);
    CHECK(m->ynd->node_count == before->ynd->node_count + 1);
    CHECK(v->area_id == area && v->node_id == (uint16_t)before->ynd->node_count && v->link_count == 0 && v->x == stored[0] && v->y == stored[1] && v->z == stored[2]);
    CHECK(memcmp(m->nodes, before->nodes, before->ynd->node_count * sizeof *v) == 0);
    return true;
}

static bool add_link(lent *m, script *s, const lent *before, size_t *place, bool kept)
{
    size_t at = byte(s);
    ynd_link_entry given, *link;
    ynd_link_to(word16(s), word16(s), &given);
    given.length = byte(s);
    link = block_of(&given, sizeof given);
    uint32_t number = ynd_add_link(m->ynd, NODES(m), LINKS(m), at, link, place);
    if (!answer(ADD_LINK, number, *place)) {
        CHECK(m->ynd->link_count == before->ynd->link_count + 1);
        if (kept)
            links_kept(m, before, at, link);
    }
    unblock(link, sizeof *link);
    return number == 0;
}

static bool add_ref(lent *m, script *s, const lent *before, size_t *place)
{
    ynd_ref_entry given = { word16(s), word16(s), 0, 0 }, *added;
    given.junction_id = byte(s);
    added = block_of(&given, sizeof given);
    uint32_t number = ynd_add_ref(m->ynd, REFS(m), added, place);
    if (!answer(ADD_REF, number, *place))
        CHECK(m->ynd->ref_count == before->ynd->ref_count + 1 && memcmp(&m->refs[before->ynd->ref_count], added, sizeof *added) == 0);
    unblock(added, sizeof *added);
    return number == 0;
}

static bool add_junction(lent *m, script *s, const lent *before, size_t *place)
{
    ynd_junction_entry given = { real(s), real(s), real(s), real(s), 0, 0, 0, 0 }, *junction;
    given.width = byte(s) % 5;
    given.height = byte(s) % 5;
    size_t n = given.width * given.height + (byte(s) % 8 == 7);
    uint8_t *values = block(n);
    for (size_t i = 0; i < n; i++)
        values[i] = byte(s);
    junction = block_of(&given, sizeof given);
    uint32_t number = ynd_add_junction(m->ynd, JUNCTIONS(m), HEIGHTS(m), junction, values, n, place);
    if (!answer(ADD_JUNCTION, number, *place)) {
        size_t at = before->ynd->junction_count;
        CHECK(m->ynd->junction_count == at + 1 && m->ynd->heightmap_count == before->ynd->heightmap_count + n);
        CHECK(m->junctions[at].heightmap_start == before->ynd->heightmap_count && memcmp(m->heights + before->ynd->heightmap_count, values, n) == 0);
    }
    unblock(junction, sizeof *junction);
    unblock(values, n);
    return number == 0;
}

static bool node_stored(lent *m, script *s, const lent *before, size_t *place)
{
    size_t at = byte(s);
    ynd_node_entry *v = block(sizeof *v);
    uint32_t number = ynd_get_node(m->ynd, NODES(m), at, v, place);
    if (!answer(GET_NODE, number, *place)) {
        v->flags1 = byte(s);
        v->node_id = word16(s);
        v->x = ynd_float_of(word32(s));
        v->unused1 = ~v->unused1;
        v->unused4 ^= 0x8001;
        ynd_node_set_density(v, byte(s));
        number = ynd_put_node(m->ynd, NODES(m), at, v, place);
        CHECK(answer(PUT_NODE, number, *place) == 0);
        CHECK(m->nodes[at].link_start == before->nodes[at].link_start && m->nodes[at].link_count == before->nodes[at].link_count);
        CHECK(m->nodes[at].node_id == v->node_id && m->nodes[at].flags4 == v->flags4);
        CHECK(memcmp(&m->nodes[at].unused0, &v->unused0, 16) == 0 && m->nodes[at].unused4 == v->unused4);
    } else {
        CHECK(v->area_id == 0xA5A5);
        CHECK(ynd_put_node(m->ynd, NODES(m), at, v, place) == number);
    }
    unblock(v, sizeof *v);
    return number == 0;
}

static bool position_stored(lent *m, script *s, size_t *place)
{
    size_t at = byte(s);
    float x = real(s), y = real(s), z = real(s);
    uint32_t number = ynd_set_position(m->ynd, NODES(m), at, x, y, z, place);
    if (!answer(SET_POSITION, number, *place))
        CHECK(m->nodes[at].x == ynd_metres_xy(ynd_steps_xy(x)) && m->nodes[at].z == ynd_metres_z(ynd_steps_z(z)));
    return number == 0;
}

static bool link_stored(lent *m, script *s, size_t *place)
{
    size_t at = byte(s), k = byte(s);
    ynd_link_entry *l = block(sizeof *l), *again = block(sizeof *again);
    uint32_t number = ynd_get_link(m->ynd, NODES(m), LINKS(m), at, k, l, place);
    if (!answer(GET_LINK, number, *place)) {
        l->node_id = word16(s);
        ynd_link_set_lane_count_forward(l, byte(s));
        number = ynd_put_link(m->ynd, NODES(m), LINKS(m), at, k, l, place);
        CHECK(answer(PUT_LINK, number, *place) == 0);
        CHECK(ynd_get_link(m->ynd, NODES(m), LINKS(m), at, k, again, place) == 0 && memcmp(l, again, sizeof *l) == 0);
    } else {
        CHECK(ynd_put_link(m->ynd, NODES(m), LINKS(m), at, k, again, place) == number);
    }
    unblock(again, sizeof *again);
    unblock(l, sizeof *l);
    return number == 0;
}

static bool ref_stored(lent *m, script *s, size_t *place)
{
    size_t at = byte(s);
    ynd_ref_entry *f = block(sizeof *f);
    uint32_t number = ynd_get_ref(m->ynd, REFS(m), at, f, place);
    if (!answer(GET_REF, number, *place)) {
        f->node_id = word16(s);
        number = ynd_put_ref(m->ynd, REFS(m), at, f, place);
        CHECK(answer(PUT_REF, number, *place) == 0);
        CHECK(memcmp(&m->refs[at], f, sizeof *f) == 0);
    }
    unblock(f, sizeof *f);
    return number == 0;
}

static bool junction_stored(lent *m, script *s, const lent *before, size_t *place)
{
    size_t at = byte(s), k = byte(s);
    ynd_junction_entry *j = block(sizeof *j);
    uint8_t *value = block(1), given = byte(s);
    bool put = false;
    uint32_t number = ynd_get_junction(m->ynd, JUNCTIONS(m), at, j, place);
    if (!answer(GET_JUNCTION, number, *place)) {
        uint8_t width = j->width;
        j->x = real(s);
        if (byte(s) % 2) {
            j->width = j->height;
            j->height = width;
        }
        number = ynd_put_junction(m->ynd, JUNCTIONS(m), at, j, place);
        put = !answer(PUT_JUNCTION, number, *place);
        if (put)
            CHECK(m->junctions[at].heightmap_start == before->junctions[at].heightmap_start && m->junctions[at].width == j->width);
    }
    number = ynd_put_height(m->ynd, JUNCTIONS(m), HEIGHTS(m), at, k, given, place);
    if (!answer(PUT_HEIGHT, number, *place)) {
        put = true;
        number = ynd_get_height(m->ynd, JUNCTIONS(m), HEIGHTS(m), at, k, value, place);
        CHECK(answer(GET_HEIGHT, number, *place) == 0 && *value == given);
    }
    unblock(value, 1);
    unblock(j, sizeof *j);
    return put;
}

void check_edit(lent *m, script *s, bool kept)
{
    size_t *place = block(sizeof *place);
    lent before = lend_copy(m);
    unsigned what = byte(s) % 15;
    bool changed;
    switch (what) {
    case 0: case 1: changed = add_node(m, s, &before, place); break;
    case 2: case 3: case 4: changed = add_link(m, s, &before, place, kept); break;
    case 5: changed = add_ref(m, s, &before, place); break;
    case 6: changed = add_junction(m, s, &before, place); break;
    case 7: changed = node_stored(m, s, &before, place); break;
    case 8: changed = position_stored(m, s, place); break;
    case 9: changed = link_stored(m, s, place); break;
    case 10: changed = ref_stored(m, s, place); break;
    case 12: changed = links_replaced(m, s, &before, place, kept); break;
    case 13: changed = map_replaced(m, s, &before, place); break;
    case 14: changed = list_cut(m, s, &before, place); break;
    default: changed = junction_stored(m, s, &before, place); break;
    }
    CHECK(changed || same_lent(m, &before));
    unlend(&before);
    unblock(place, sizeof *place);
}
