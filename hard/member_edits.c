/* The edits of a member of a set, each held to the cell's own edit of the same cell. */
#include "member.h"

static void node_edits(placed *p, script *s, size_t at)
{
    uint16_t area = word16(s);
    float x = real(s), y = real(s), z = real(s);
    ynd_node_entry *v = block(sizeof *v);
    uint32_t number = ynd_member_add_node(MEMBERS(p), NODES(&p->all), p->member, area, x, y, z, p->place);
    if (own_decides(p, MEMBER_EDIT, number))
        own_agrees(p, number, ynd_add_node(p->own.ynd, NODES(&p->own), area, x, y, z, p->own_place));
    others_stay(p);
    ynd_node_new(area, word16(s), x, y, z, v);
    v->flags1 = byte(s);
    v->link_count = byte(s);
    number = ynd_member_put_node(MEMBERS(p), NODES(&p->all), p->member, at, v, p->place);
    if (own_decides(p, MEMBER_EDIT, number))
        own_agrees(p, number, ynd_put_node(p->own.ynd, NODES(&p->own), at, v, p->own_place));
    others_stay(p);
    number = ynd_member_set_position(MEMBERS(p), NODES(&p->all), p->member, at, y, z, x, p->place);
    if (own_decides(p, MEMBER_EDIT, number))
        own_agrees(p, number, ynd_set_position(p->own.ynd, NODES(&p->own), at, y, z, x, p->own_place));
    others_stay(p);
    unblock(v, sizeof *v);
}

static void link_edits(placed *p, script *s, size_t at, size_t k)
{
    size_t n = byte(s) % 16 ? byte(s) % 4 : 256;
    ynd_link_entry *given = block(n * sizeof *given), *link = block(sizeof *link);
    ynd_link_to(word16(s), word16(s), link);
    for (size_t i = 0; i < n; i++)
        given[i] = *link;
    uint32_t number = ynd_member_add_link(
        MEMBERS(p), NODES(&p->all), LINKS(&p->all), p->member, at, link, p->place);
    if (own_decides(p, MEMBER_EDIT, number))
        own_agrees(p, number, ynd_add_link(p->own.ynd, NODES(&p->own), LINKS(&p->own), at, link, p->own_place));
    others_stay(p);
    number = ynd_member_put_links(
        MEMBERS(p), NODES(&p->all), LINKS(&p->all), p->member, at, given, n, p->place);
    if (own_decides(p, MEMBER_EDIT, number))
        own_agrees(p, number, ynd_put_links(
            p->own.ynd, NODES(&p->own), LINKS(&p->own), at, given, n, p->own_place));
    others_stay(p);
    number = ynd_member_put_link(MEMBERS(p), NODES(&p->all), LINKS(&p->all), p->member, at, k, link, p->place);
    if (own_decides(p, MEMBER_EDIT, number))
        own_agrees(p, number, ynd_put_link(
            p->own.ynd, NODES(&p->own), LINKS(&p->own), at, k, link, p->own_place));
    others_stay(p);
    unblock(link, sizeof *link);
    unblock(given, n * sizeof *given);
}

static void ref_edits(placed *p, script *s, size_t at)
{
    ynd_ref_entry given = { word16(s), word16(s), byte(s), 0 }, *r = block_of(&given, sizeof given);
    uint32_t number = ynd_member_add_ref(MEMBERS(p), REFS(&p->all), p->member, r, p->place);
    if (own_decides(p, MEMBER_EDIT, number))
        own_agrees(p, number, ynd_add_ref(p->own.ynd, REFS(&p->own), r, p->own_place));
    others_stay(p);
    number = ynd_member_put_ref(MEMBERS(p), REFS(&p->all), p->member, at, r, p->place);
    if (own_decides(p, MEMBER_EDIT, number))
        own_agrees(p, number, ynd_put_ref(p->own.ynd, REFS(&p->own), at, r, p->own_place));
    others_stay(p);
    unblock(r, sizeof *r);
}

static void junction_edits(placed *p, script *s, size_t at, size_t k)
{
    ynd_junction_entry given = { real(s), real(s), real(s), real(s), byte(s) % 4, byte(s) % 4, 0, 0 };
    size_t n = given.width * given.height + (byte(s) % 8 == 7);
    ynd_junction_entry *junction = block_of(&given, sizeof given);
    uint8_t *values = block(n), value = byte(s);
    uint32_t number = ynd_member_add_junction(
        MEMBERS(p), JUNCTIONS(&p->all), HEIGHTS(&p->all), p->member, junction, values, n, p->place);
    if (own_decides(p, MEMBER_EDIT, number))
        own_agrees(p, number, ynd_add_junction(
            p->own.ynd, JUNCTIONS(&p->own), HEIGHTS(&p->own), junction, values, n, p->own_place));
    others_stay(p);
    number = ynd_member_put_junction(MEMBERS(p), JUNCTIONS(&p->all), p->member, at, junction, p->place);
    if (own_decides(p, MEMBER_EDIT, number))
        own_agrees(p, number, ynd_put_junction(p->own.ynd, JUNCTIONS(&p->own), at, junction, p->own_place));
    others_stay(p);
    number = ynd_member_put_heightmap(MEMBERS(p), JUNCTIONS(&p->all), HEIGHTS(&p->all), p->member, at, given.width,
        given.height, values, n, p->place);
    if (own_decides(p, MEMBER_EDIT, number))
        own_agrees(p, number, ynd_put_heightmap(p->own.ynd, JUNCTIONS(&p->own), HEIGHTS(&p->own), at, given.width,
            given.height, values, n, p->own_place));
    others_stay(p);
    number = ynd_member_put_height(
        MEMBERS(p), JUNCTIONS(&p->all), HEIGHTS(&p->all), p->member, at, k, value, p->place);
    if (own_decides(p, MEMBER_EDIT, number))
        own_agrees(p, number, ynd_put_height(
            p->own.ynd, JUNCTIONS(&p->own), HEIGHTS(&p->own), at, k, value, p->own_place));
    others_stay(p);
    unblock(values, n);
    unblock(junction, sizeof *junction);
}

/* Own words stored, and one of the lists cut: the cell's entries stay. */
static void count_edits(placed *p, script *s)
{
    uint32_t *words = block(7 * sizeof *words), word = word32(s);
    size_t k = byte(s) % 2 ? byte(s) : p->own.ynd->node_count;
    uint32_t number = ynd_member_put_words(MEMBERS(p), p->member, word, word ^ 1, word ^ 2, words, p->place);
    if (own_decides(p, MEMBER_EDIT, number)) {
        CHECK(number == 0);
        ynd_set_vft(p->own.ynd, word);
        ynd_set_vehicle_node_count(p->own.ynd, word ^ 1);
        ynd_set_ped_node_count(p->own.ynd, word ^ 2);
        ynd_set_unknowns(p->own.ynd, words);
    }
    others_stay(p);
    number = ynd_member_truncate_junctions(MEMBERS(p), p->member, k, p->place);
    if (own_decides(p, MEMBER_EDIT, number))
        own_agrees(p, number, ynd_truncate_junctions(p->own.ynd, k, p->own_place));
    others_stay(p);
    number = ynd_member_truncate_refs(MEMBERS(p), p->member, k, p->place);
    if (own_decides(p, MEMBER_EDIT, number))
        own_agrees(p, number, ynd_truncate_refs(p->own.ynd, k, p->own_place));
    others_stay(p);
    number = ynd_member_truncate_nodes(MEMBERS(p), p->member, k, p->place);
    if (own_decides(p, MEMBER_EDIT, number))
        own_agrees(p, number, ynd_truncate_nodes(p->own.ynd, k, p->own_place));
    others_stay(p);
    unblock(words, 7 * sizeof *words);
}

void check_member_edits(placed *p, script *s)
{
    size_t at = byte(s), k = byte(s) % 4;
    node_edits(p, s, at);
    link_edits(p, s, at, k);
    ref_edits(p, s, at);
    junction_edits(p, s, at % 4, k);
    count_edits(p, s);
}
