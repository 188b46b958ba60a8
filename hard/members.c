/* T-09: the calls on one member of a set, each held to the cell's own call on the same cell: writing, what a walk
 * shows, lookups and entries. Edits are in member_edits.c. */
#include "member.h"

/* Nodes, links, junctions, values and refs of the members before and behind the cell, and what is behind all parts. */
enum { BEFORE = 2, BEHIND = 1, SPARE = 2 };

static ynd_member entry(const ynd_cell *ynd, size_t n, size_t l, size_t j, size_t h, size_t r)
{
    return (ynd_member){ *ynd, (uint32_t)n, (uint32_t)l, (uint32_t)j, (uint32_t)h, (uint32_t)r };
}

static void over(void *list, const void *part, size_t at, size_t n, size_t size)
{
    if (n)
        memcpy((uint8_t *)list + at * size, part, n * size);
}

/* The cell's lists over its parts of the set's. */
static void lay_over(const lent *all, const lent *own)
{
    over(all->nodes, own->nodes, BEFORE, own->n, sizeof *own->nodes);
    over(all->links, own->links, BEFORE, own->l, sizeof *own->links);
    over(all->junctions, own->junctions, BEFORE, own->j, sizeof *own->junctions);
    over(all->heights, own->heights, BEFORE, own->h, 1);
    over(all->refs, own->refs, BEFORE, own->r, sizeof *own->refs);
}

/* The others hold nodes alone, as many as the part has. */
static placed place_cell(const lent *m)
{
    const size_t more = BEFORE + BEHIND + SPARE;
    placed p = { .members = block(AROUND * sizeof *p.members), .member = 1 };
    ynd_cell other;
    p.all = lend(m->n + more, m->l + more, m->j + more, m->h + more, m->r + more);
    ynd_new(p.all.ynd);
    p.own = lend_copy(m);
    lay_over(&p.all, &p.own);
    ynd_new(&other);
    other.node_count = BEFORE;
    p.members[0] = entry(&other, BEFORE, BEFORE, BEFORE, BEFORE, BEFORE);
    p.members[1] = entry(m->ynd, m->n, m->l, m->j, m->h, m->r);
    other.node_count = BEHIND;
    p.members[2] = entry(&other, BEHIND, BEHIND, BEHIND, BEHIND, BEHIND);
    p.entries = block_of(p.members, AROUND * sizeof *p.members);
    p.want = lend_copy(&p.all);
    p.place = block(sizeof *p.place);
    p.own_place = block(sizeof *p.own_place);
    return p;
}

static void unplace(placed *p)
{
    unblock(p->own_place, sizeof *p->own_place);
    unblock(p->place, sizeof *p->place);
    unlend(&p->want);
    unblock(p->entries, AROUND * sizeof *p->entries);
    unlend(&p->own);
    unlend(&p->all);
    unblock(p->members, AROUND * sizeof *p->members);
}

void others_stay(placed *p)
{
    p->entries[1].ynd = *p->own.ynd;
    lay_over(&p->want, &p->own);
    CHECK(memcmp(p->members, p->entries, AROUND * sizeof *p->members) == 0 && same_lent(&p->all, &p->want));
}

/* The lowest list whose part is shorter than the cell's count, 5 if none is. */
static size_t lacking(const lent *m)
{
    const ynd_cell *c = m->ynd;
    return m->n < c->node_count ? 0 : m->l < c->link_count ? 1 : m->j < c->junction_count ? 2
        : m->h < c->heightmap_count ? 3 : m->r < c->ref_count ? 4 : 5;
}

bool own_decides(const placed *p, enum what w, uint32_t number)
{
    uint32_t want = 0;
    size_t at = 0;
    if (p->member >= AROUND) {
        want = YND_NO_SUCH_PLACE;
    } else if (over_limit(&p->own) || p->own.ynd->node_count > YND_NODES_MOST - BEFORE - BEHIND) {
        want = YND_AT_LIMIT;
    } else if (lacking(&p->own) < 5) {
        want = YND_LENT_TOO_SHORT;
        at = lacking(&p->own);
    }
    answer(w, number, *p->place);
    CHECK(!want || (number == want && *p->place == at));
    return !want;
}

void own_agrees(placed *p, uint32_t number, uint32_t own)
{
    CHECK(number == own && *p->place == *p->own_place);
}

static void written(placed *p, script *s)
{
    const lent *m = &p->own;
    size_t most = YND_ROOT_BYTES + YND_PAGE_BLOCK_BYTES + 40 * m->n + 8 * m->l + 12 * m->j + m->h + 8 * m->r + 60;
    size_t room = byte(s) % 8 ? most : byte(s) * 16u;
    uint8_t *got = block(room), *want = block(room);
    size_t *length = block(sizeof *length), *own_length = block(sizeof *own_length);
    uint32_t number = ynd_member_write(MEMBERS(p), LISTS(&p->all), p->member, got, room, length, p->place);
    if (own_decides(p, MEMBER_WRITE, number))
        own_agrees(p, number, ynd_write(p->own.ynd, LISTS(&p->own), want, room, own_length, p->own_place));
    CHECK(*length == *own_length && memcmp(got, want, room) == 0);
    others_stay(p);
    number = ynd_member_write_then_read(MEMBERS(p), LISTS(&p->all), p->member, got, room, length, p->place);
    if (own_decides(p, MEMBER_WRITE_READ, number))
        own_agrees(p, number, ynd_write_then_read(p->own.ynd, LISTS(&p->own), want, room, own_length, p->own_place));
    CHECK(*length == *own_length && memcmp(got, want, room) == 0);
    others_stay(p);
    unblock(own_length, sizeof *own_length);
    unblock(length, sizeof *length);
    unblock(want, room);
    unblock(got, room);
}

static void looked_up(placed *p, script *s)
{
    uint16_t id = byte(s), area = p->own.n > 0 ? p->own.nodes[0].area_id : word16(s);
    bool *found = block(sizeof *found), *own_found = block(sizeof *found);
    size_t *at = block(sizeof *at), *own_at = block(sizeof *at);
    uint32_t *got = block(sizeof *got), *own = block(sizeof *own), number;
    *found = *own_found = false;
    number = ynd_member_node(MEMBERS(p), NODES(&p->all), p->member, id, found, at, p->place);
    if (own_decides(p, MEMBER_LOOKUP, number))
        own_agrees(p, number, ynd_node(p->own.ynd, NODES(&p->own), id, own_found, own_at, p->own_place));
    CHECK(*found == *own_found && *at == *own_at);
    number = ynd_member_junction_of(
        MEMBERS(p), NODES(&p->all), REFS(&p->all), p->member, area, id, found, at, p->place);
    if (own_decides(p, MEMBER_LOOKUP, number))
        own_agrees(p, number, ynd_junction_of(
            p->own.ynd, NODES(&p->own), REFS(&p->own), area, id, own_found, own_at, p->own_place));
    CHECK(*found == *own_found && *at == *own_at);
    number = ynd_member_area(MEMBERS(p), NODES(&p->all), p->member, found, got, p->place);
    if (own_decides(p, MEMBER_LOOKUP, number))
        own_agrees(p, number, ynd_area_of_cell(p->own.ynd, NODES(&p->own), own_found, own, p->own_place));
    CHECK(*found == *own_found && *got == *own);
    unblock(own, sizeof *own);
    unblock(got, sizeof *got);
    unblock(own_at, sizeof *at);
    unblock(at, sizeof *at);
    unblock(own_found, sizeof *found);
    unblock(found, sizeof *found);
}

/* The member's own words, a node, a link of it and a ref. */
static void nodes_taken(placed *p, size_t at, size_t k)
{
    ynd_cell *ynd = block(sizeof *ynd);
    ynd_node_entry *node = block(sizeof *node), *own_node = block(sizeof *node);
    ynd_link_entry *link = block(sizeof *link), *own_link = block(sizeof *link);
    ynd_ref_entry *taken = block(sizeof *taken), *own_taken = block(sizeof *taken);
    uint32_t number = ynd_member_get_cell(MEMBERS(p), p->member, ynd, p->place);
    if (own_decides(p, MEMBER_GET, number))
        SAME(ynd, p->own.ynd);
    else
        CHECK(ynd->vft == 0xA5A5A5A5u && ynd->ref_count == 0xA5A5A5A5u);
    number = ynd_member_get_node(MEMBERS(p), NODES(&p->all), p->member, at, node, p->place);
    if (own_decides(p, MEMBER_GET, number))
        own_agrees(p, number, ynd_get_node(p->own.ynd, NODES(&p->own), at, own_node, p->own_place));
    SAME(node, own_node);
    number = ynd_member_get_link(MEMBERS(p), NODES(&p->all), LINKS(&p->all), p->member, at, k, link, p->place);
    if (own_decides(p, MEMBER_GET, number))
        own_agrees(p, number, ynd_get_link(
            p->own.ynd, NODES(&p->own), LINKS(&p->own), at, k, own_link, p->own_place));
    SAME(link, own_link);
    number = ynd_member_get_ref(MEMBERS(p), REFS(&p->all), p->member, at, taken, p->place);
    if (own_decides(p, MEMBER_GET, number))
        own_agrees(p, number, ynd_get_ref(p->own.ynd, REFS(&p->own), at, own_taken, p->own_place));
    SAME(taken, own_taken);
    unblock(own_taken, sizeof *taken);
    unblock(taken, sizeof *taken);
    unblock(own_link, sizeof *link);
    unblock(link, sizeof *link);
    unblock(own_node, sizeof *node);
    unblock(node, sizeof *node);
    unblock(ynd, sizeof *ynd);
}

/* A junction and a value of it. */
static void junctions_taken(placed *p, size_t at, size_t k)
{
    ynd_junction_entry *junction = block(sizeof *junction), *own_junction = block(sizeof *junction);
    uint8_t *value = block(1), *own_value = block(1);
    uint32_t number = ynd_member_get_junction(MEMBERS(p), JUNCTIONS(&p->all), p->member, at, junction, p->place);
    if (own_decides(p, MEMBER_GET, number))
        own_agrees(p, number, ynd_get_junction(p->own.ynd, JUNCTIONS(&p->own), at, own_junction, p->own_place));
    SAME(junction, own_junction);
    number = ynd_member_get_height(
        MEMBERS(p), JUNCTIONS(&p->all), HEIGHTS(&p->all), p->member, at, k, value, p->place);
    if (own_decides(p, MEMBER_GET, number))
        own_agrees(p, number, ynd_get_height(
            p->own.ynd, JUNCTIONS(&p->own), HEIGHTS(&p->own), at, k, own_value, p->own_place));
    SAME(value, own_value);
    unblock(own_value, 1);
    unblock(value, 1);
    unblock(own_junction, sizeof *junction);
    unblock(junction, sizeof *junction);
}

static void nodes_shown(placed *p, size_t at, uint8_t choice)
{
    ynd_seen_node *node = block(sizeof *node), *own_node = block(sizeof *node);
    ynd_seen_link *link = block(sizeof *link), *own_link = block(sizeof *link);
    uint32_t number = ynd_member_shown_node(MEMBERS(p), NODES(&p->all), LINKS(&p->all), JUNCTIONS(&p->all),
        REFS(&p->all), p->member, at, node, p->place);
    if (own_decides(p, MEMBER_SHOWN, number))
        own_agrees(p, number, ynd_shown_node(p->own.ynd, NODES(&p->own), LINKS(&p->own), JUNCTIONS(&p->own),
            REFS(&p->own), at, own_node, p->own_place));
    SAME(node, own_node);
    number = ynd_member_shown_link(
        MEMBERS(p), NODES(&p->all), LINKS(&p->all), p->member, at, choice, link, p->place);
    if (own_decides(p, MEMBER_SHOWN, number))
        own_agrees(p, number, ynd_shown_link(
            p->own.ynd, NODES(&p->own), LINKS(&p->own), at, choice, own_link, p->own_place));
    SAME(link, own_link);
    unblock(own_link, sizeof *link);
    unblock(link, sizeof *link);
    unblock(own_node, sizeof *node);
    unblock(node, sizeof *node);
}

static void junctions_shown(placed *p, size_t at, size_t room)
{
    ynd_seen_junction *junction = block(sizeof *junction), *own_junction = block(sizeof *junction);
    uint8_t *values = block(room), *own_values = block(room);
    size_t *count = block(sizeof *count), *own_count = block(sizeof *count);
    uint32_t number = ynd_member_shown_junction(MEMBERS(p), JUNCTIONS(&p->all), p->member, at, junction, p->place);
    if (own_decides(p, MEMBER_SHOWN, number))
        own_agrees(p, number, ynd_shown_junction(p->own.ynd, JUNCTIONS(&p->own), at, own_junction, p->own_place));
    SAME(junction, own_junction);
    number = ynd_member_shown_values(
        MEMBERS(p), JUNCTIONS(&p->all), HEIGHTS(&p->all), p->member, at, values, room, count, p->place);
    if (own_decides(p, MEMBER_SHOWN, number))
        own_agrees(p, number, ynd_shown_values(
            p->own.ynd, JUNCTIONS(&p->own), HEIGHTS(&p->own), at, own_values, room, own_count, p->own_place));
    CHECK(*count == *own_count && memcmp(values, own_values, room) == 0);
    unblock(own_count, sizeof *count);
    unblock(count, sizeof *count);
    unblock(own_values, room);
    unblock(values, room);
    unblock(own_junction, sizeof *junction);
    unblock(junction, sizeof *junction);
}

void check_member(const lent *m, script *s)
{
    placed p = place_cell(m);
    if (byte(s) % 8 == 7)
        p.member = AROUND;
    size_t at = byte(s), k = byte(s);
    looked_up(&p, s);
    nodes_taken(&p, at, k % 4);
    junctions_taken(&p, at % 4, k);
    nodes_shown(&p, at, (uint8_t)(k % 4));
    junctions_shown(&p, at % 4, k);
    others_stay(&p);
    check_member_edits(&p, s);
    written(&p, s);
    unplace(&p);
}
