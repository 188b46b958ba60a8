/* T-09: cells that join and leave a set, and its calls. A set of one member is its cell: each call on it is held to
 * the cell's own. Two cells whose links cross are walked, renumbered and taken apart. Calls on one member are in
 * members.c. */
#include "check.h"

/* A set of at most two members in six lists. The lists' own ynd isn't used. */
typedef struct {
    ynd_member *members;
    lent all;
    size_t *count, *place;
} set;

enum { MEMBERS = 2 };

static set lend_set(size_t n, size_t l, size_t j, size_t h, size_t r)
{
    set s = { block(MEMBERS * sizeof *s.members), lend(n, l, j, h, r), NULL, NULL };
    s.count = block(sizeof *s.count);
    s.place = block(sizeof *s.place);
    *s.count = 0;
    return s;
}

static void unlend_set(set *s)
{
    unblock(s->place, sizeof *s->place);
    unblock(s->count, sizeof *s->count);
    unlend(&s->all);
    unblock(s->members, MEMBERS * sizeof *s->members);
}

static uint32_t join(set *s, size_t members, const lent *m)
{
    const ynd_cell *c = m->ynd;
    ynd_counts *sizes = block(sizeof *sizes);
    *sizes = (ynd_counts){ c->node_count, c->link_count, c->junction_count, c->heightmap_count, c->ref_count };
    uint32_t number = ynd_set_join(s->count, s->members, members, LISTS(&s->all), c, LISTS(m), sizes, s->place);
    unblock(sizes, sizeof *sizes);
    return answer(SET_JOIN, number, *s->place);
}

/* A call that has to be refused: number and place, and nothing is changed. */
static void refused_join(set *s, size_t members, const lent *m, uint32_t want, size_t at)
{
    lent before = lend_copy(&s->all);
    ynd_member *entries = block_of(s->members, MEMBERS * sizeof *entries);
    size_t count = *s->count;
    CHECK(join(s, members, m) == want && *s->place == at && *s->count == count && same_lent(&s->all, &before));
    CHECK(memcmp(entries, s->members, MEMBERS * sizeof *entries) == 0);
    unblock(entries, MEMBERS * sizeof *entries);
    unlend(&before);
}

static size_t least(size_t a, size_t b)
{
    return a < b ? a : b;
}

/* The lowest list that is shorter than its count, 5 if none is. */
static size_t lacking(const lent *m)
{
    const ynd_cell *c = m->ynd;
    return m->n < c->node_count ? 0 : m->l < c->link_count ? 1 : m->j < c->junction_count ? 2
        : m->h < c->heightmap_count ? 3 : m->r < c->ref_count ? 4 : 5;
}

/* The first entries of the set's lists are the cell's, and what is behind them holds KEPT. */
static void holds(const set *s, const lent *m)
{
    const ynd_cell *c = m->ynd;
    lent want = lend(s->all.n, s->all.l, s->all.j, s->all.h, s->all.r);
    CHECK(memcmp(&s->members[0].ynd, c, sizeof *c) == 0);
    CHECK(s->members[0].nodes == c->node_count && s->members[0].links == c->link_count);
    CHECK(s->members[0].junctions == c->junction_count && s->members[0].heights == c->heightmap_count);
    CHECK(s->members[0].refs == c->ref_count);
    if (c->node_count)
        memcpy(want.nodes, m->nodes, c->node_count * sizeof *want.nodes);
    if (c->link_count)
        memcpy(want.links, m->links, c->link_count * sizeof *want.links);
    if (c->junction_count)
        memcpy(want.junctions, m->junctions, c->junction_count * sizeof *want.junctions);
    if (c->heightmap_count)
        memcpy(want.heights, m->heights, c->heightmap_count);
    if (c->ref_count)
        memcpy(want.refs, m->refs, c->ref_count * sizeof *want.refs);
    *want.ynd = *s->all.ynd;
    CHECK(same_lent(&s->all, &want));
    unlend(&want);
}

static void one_walk(set *s, const lent *m, size_t start, const uint8_t *choices, size_t n, size_t room)
{
    uint32_t *visited = block(room * sizeof *visited);
    ynd_location *crossed = block(room * sizeof *crossed);
    ynd_walk_end *end = block(sizeof *end), *ends = block(sizeof *ends);
    size_t *count = block(sizeof *count), *counts = block(sizeof *counts), *place = block(sizeof *place);
    uint32_t want = ynd_walk(m->ynd, NODES(m), LINKS(m), start, choices, n, visited, room, end, count, place);
    uint32_t got = ynd_set_crossing_walk(
        s->members, 1, NODES(&s->all), LINKS(&s->all), 0, start, choices, n, crossed, room, ends, counts, s->place);
    CHECK(answer(SET_WALK, got, *s->place) == want && *s->place == *place && *counts == *count);
    CHECK(memcmp(end, ends, sizeof *end) == 0);
    for (size_t i = 0; i < room; i++)
        CHECK(visited[i] == crossed[i].place && crossed[i].member == (got || i >= *count ? 0xA5A5A5A5u : 0));
    got = ynd_set_crossing_walk(
        s->members, 1, NODES(&s->all), LINKS(&s->all), 1, start, choices, n, crossed, room, ends, counts, s->place);
    CHECK(answer(SET_WALK, got, *s->place) == YND_NO_SUCH_PLACE);
    unblock(place, sizeof *place);
    unblock(counts, sizeof *counts);
    unblock(count, sizeof *count);
    unblock(ends, sizeof *ends);
    unblock(end, sizeof *end);
    unblock(crossed, room * sizeof *crossed);
    unblock(visited, room * sizeof *visited);
}

/* A round of either version in a set of one member is that round in its cell. */
static void one_round(set *s, const lent *m, uint16_t area, uint16_t start, const uint8_t *choices, size_t n)
{
    uint32_t *visited = block((n + 1) * sizeof *visited);
    ynd_location *crossed = block((n + 1) * sizeof *crossed);
    ynd_walk_end *end = block(sizeof *end), *ends = block(sizeof *ends);
    size_t *count = block(sizeof *count), *counts = block(sizeof *counts), *place = block(sizeof *place);
    bool found = false;
    size_t member = 7;
    ynd_set_member_of_area(s->members, 1, NODES(&s->all), area ^ 1, &found, &member);
    CHECK(answer(SET_AREA, 0, 0) == 0 && !found && member == 7);
    ynd_set_member_of_area(s->members, 1, NODES(&s->all), area, &found, &member);
    CHECK(found && member == 0);
    for (uint16_t version = 0; version < 4; version++)
        for (uint16_t other = 0; other < 2; other++) {
            uint32_t want = ynd_follow_round_versioned(m->ynd, NODES(m), LINKS(m), version, area ^ other, start, choices,
                n, visited, n + 1, end, count, place);
            uint32_t got = ynd_set_follow_round(s->members, 1, NODES(&s->all), LINKS(&s->all), version, area ^ other, 0,
                start, choices, n, crossed, n + 1, ends, counts, s->place);
            CHECK(answer(SET_FOLLOW, got, *s->place) == want && *s->place == *place && *counts == *count);
            CHECK(memcmp(end, ends, sizeof *end) == 0);
            for (size_t i = 0; i < (got ? 0 : *count); i++)
                CHECK(visited[i] == crossed[i].place && crossed[i].member == 0);
        }
    unblock(place, sizeof *place);
    unblock(counts, sizeof *counts);
    unblock(count, sizeof *count);
    unblock(ends, sizeof *ends);
    unblock(end, sizeof *end);
    unblock(crossed, (n + 1) * sizeof *crossed);
    unblock(visited, (n + 1) * sizeof *visited);
}

static void one_sound(set *s, const lent *m)
{
    bool *sound = block(sizeof *sound);
    uint32_t *scratch = block(YND_SCRATCH * sizeof *scratch);
    *sound = false;
    uint32_t number = ynd_set_sound(
        s->members, 1, NODES(&s->all), LINKS(&s->all), REFS(&s->all), scratch, YND_SCRATCH, sound, s->place);
    CHECK(answer(SET_SOUND, number, *s->place) == 0 && *sound == model_sound(m));
    number = ynd_set_sound(
        s->members, 1, NODES(&s->all), LINKS(&s->all), REFS(&s->all), scratch + 1, YND_SCRATCH - 1, sound, s->place);
    CHECK(answer(SET_SOUND, number, *s->place) == YND_LENT_TOO_SHORT && *s->place == YND_SCRATCH_LIST);
    unblock(scratch, YND_SCRATCH * sizeof *scratch);
    unblock(sound, sizeof *sound);
}

static uint32_t renumber(set *s, size_t members, size_t member, uint32_t *scratch, uint32_t *places, size_t n)
{
    uint32_t number = ynd_set_renumber(s->members, members, NODES(&s->all), LINKS(&s->all), JUNCTIONS(&s->all),
        HEIGHTS(&s->all), REFS(&s->all), scratch, YND_SCRATCH, places, n, member, s->place);
    return answer(SET_RENUMBER, number, *s->place);
}

static void one_renumbered(set *s, const lent *m)
{
    size_t n = m->ynd->node_count, *place = block(sizeof *place);
    lent own = lend_copy(m);
    uint32_t *scratch = block(YND_SCRATCH * sizeof *scratch);
    uint32_t *want = block(n * sizeof *want), *got = block(n * sizeof *got);
    CHECK(renumber(s, 1, 1, scratch, got, n) == YND_NO_SUCH_PLACE && *s->place == 0);
    CHECK(ynd_renumber(own.ynd, LISTS(&own), scratch, YND_SCRATCH, want, n, place) == 0);
    if (n > 0)
        CHECK(renumber(s, 1, 0, scratch, got, n - 1) == YND_LENT_TOO_SHORT && *s->place == YND_NEW_PLACES);
    holds(s, m);
    CHECK(renumber(s, 1, 0, scratch, got, n) == 0);
    CHECK(n == 0 || memcmp(want, got, n * sizeof *want) == 0);
    holds(s, &own);
    unblock(got, n * sizeof *got);
    unblock(want, n * sizeof *want);
    unblock(scratch, YND_SCRATCH * sizeof *scratch);
    unlend(&own);
    unblock(place, sizeof *place);
}

static uint32_t leave(set *s, uint16_t area)
{
    uint32_t number = ynd_set_leave(s->members, *s->count, LISTS(&s->all), area, s->count, s->place);
    return answer(SET_LEAVE, number, *s->place);
}

static uint32_t hand_back(const set *s, uint16_t area, const lent *to)
{
    uint32_t number = ynd_set_hand_back(s->members, *s->count, LISTS(&s->all), area, to->ynd, LISTS(to), s->place);
    return answer(SET_HAND_BACK, number, *s->place);
}

/* The set's only member handed back is the cell; into lists that are too short, nothing. */
static void one_handed_back(set *s, const lent *m, uint16_t area)
{
    const ynd_cell *c = m->ynd;
    const size_t held[5] = { c->node_count, c->link_count, c->junction_count, c->heightmap_count, c->ref_count };
    lent want = lend_more(m, held[0], held[1], held[2], held[3], held[4]);
    lent to = lend(held[0], held[1], held[2], held[3], held[4]), kept = lend_copy(&to);
    CHECK(hand_back(s, area ^ 1, &to) == YND_NO_SUCH_PLACE && same_lent(&to, &kept));
    CHECK(hand_back(s, area, &to) == 0 && same_lent(&to, &want));
    for (size_t i = 0; i < 5; i++) {
        if (held[i] == 0)
            continue;
        lent less = lend(held[0] - (i == 0), held[1] - (i == 1), held[2] - (i == 2), held[3] - (i == 3),
            held[4] - (i == 4));
        lent as_lent = lend_copy(&less);
        CHECK(hand_back(s, area, &less) == YND_LENT_TOO_SHORT && *s->place == i && same_lent(&less, &as_lent));
        unlend(&as_lent);
        unlend(&less);
    }
    unlend(&kept);
    unlend(&to);
    unlend(&want);
}

/* Any cell as a set of one member. */
void check_set(const lent *m, size_t start, const uint8_t *choices, size_t n)
{
    const ynd_cell *c = m->ynd;
    set s = lend_set(least(c->node_count, m->n) + 2, least(c->link_count, m->l) + 2,
        least(c->junction_count, m->j) + 2, least(c->heightmap_count, m->h) + 2, least(c->ref_count, m->r) + 2);
    uint32_t want = over_limit(m) ? YND_AT_LIMIT : lacking(m) < 5 ? YND_LENT_TOO_SHORT : 0;
    if (want) {
        refused_join(&s, MEMBERS, m, want, want == YND_AT_LIMIT ? 0 : lacking(m));
    } else {
        refused_join(&s, 0, m, YND_LENT_TOO_SHORT, YND_MEMBERS);
        CHECK(join(&s, MEMBERS, m) == 0 && *s.count == 1);
        holds(&s, m);
        refused_join(&s, MEMBERS, m, YND_AREA_IN_SET, 0);
        one_walk(&s, m, start, choices, n, n + 1);
        one_walk(&s, m, start, choices, n, n / 2);
        one_sound(&s, m);
        uint16_t area = c->node_count ? s.all.nodes[0].area_id : 0;
        one_round(&s, m, area, c->node_count ? s.all.nodes[0].node_id : 5, choices, n);
        one_round(&s, m, area, (uint16_t)start, choices, n);
        one_handed_back(&s, m, area);
        holds(&s, m);
        one_renumbered(&s, m);
        area = c->node_count ? s.all.nodes[0].area_id : 0;
        CHECK(leave(&s, area ^ 1) == YND_NO_SUCH_PLACE && *s.count == 1);
        CHECK(leave(&s, area) == 0 && *s.count == 0);
    }
    unlend_set(&s);
}

/* ---- two cells whose links cross */

enum { WEST = 489, EAST = 490 };

/* Two nodes with a link each. The first is a ped node where said so, so that renumbering takes it behind the other. */
static lent two_nodes(uint16_t area, bool ped, ynd_link_entry first, ynd_link_entry second)
{
    lent m = lend(2, 2, 0, 0, 0);
    ynd_new(m.ynd);
    m.ynd->node_count = m.ynd->link_count = 2;
    for (uint16_t i = 0; i < 2; i++) {
        ynd_node_new(area, i, i, 0, 0, &m.nodes[i]);
        m.nodes[i].link_count = 1;
        m.nodes[i].link_start = i;
    }
    if (ped)
        ynd_node_set_special(&m.nodes[0], 10);
    m.links[0] = first;
    m.links[1] = second;
    return m;
}

static ynd_link_entry to(uint16_t area, uint16_t number)
{
    ynd_link_entry l;
    ynd_link_to(area, number, &l);
    return l;
}

/* Four first links from the first member's first node: ends so, over these members and places. */
static void goes(const set *s, ynd_walk_end want, const ynd_location *over, size_t n)
{
    uint8_t choices[4] = { 0 };
    ynd_location visited[5];
    ynd_walk_end end;
    size_t count, place;
    CHECK(ynd_set_crossing_walk(s->members, *s->count, NODES(&s->all), LINKS(&s->all), 0, 0, choices, 4, visited, 5,
        &end, &count, &place) == 0);
    CHECK(memcmp(&end, &want, sizeof end) == 0 && count == n && memcmp(visited, over, n * sizeof *over) == 0);
}

static bool is_sound(const set *s)
{
    uint32_t *scratch = block(YND_SCRATCH * sizeof *scratch);
    bool sound = false;
    size_t place;
    CHECK(ynd_set_sound(s->members, *s->count, NODES(&s->all), LINKS(&s->all), REFS(&s->all), scratch, YND_SCRATCH,
        &sound, &place) == 0);
    unblock(scratch, YND_SCRATCH * sizeof *scratch);
    return sound;
}

/* A set of 65,536 nodes together takes none, whichever member's part has room; by hand, since 14 is asked before 7. */
static void full_set(const set *s)
{
    ynd_member entries[2] = { s->members[0], s->members[1] };
    size_t place;
    entries[0].ynd.node_count = YND_NODES_MOST - 2;
    CHECK(ynd_member_add_node(entries, 2, NODES(&s->all), 1, EAST, 0, 0, 0, &place) == YND_AT_LIMIT && place == 0);
    entries[0].ynd.node_count--;
    CHECK(ynd_member_add_node(entries, 2, NODES(&s->all), 1, EAST, 0, 0, 0, &place) == YND_LENT_TOO_SHORT);
    CHECK(place == YND_NODES && entries[1].ynd.node_count == 2);
    CHECK(ynd_member_add_node(entries, 2, NODES(&s->all), 2, EAST, 0, 0, 0, &place) == YND_NO_SUCH_PLACE);
}

/* The way goes west, west, east and west again. */
void two_members(void)
{
    lent west = two_nodes(WEST, false, to(WEST, 1), to(EAST, 1));
    lent east = two_nodes(EAST, true, to(EAST, 1), to(WEST, 0));
    set s = lend_set(5, 5, 0, 0, 0);
    uint32_t *scratch = block(YND_SCRATCH * sizeof *scratch), places[2];
    const ynd_walk_end done = { YND_DONE, 0, 0 };
    CHECK(join(&s, MEMBERS, &west) == 0 && *s.count == 1);
    goes(&s, (ynd_walk_end){ YND_LEFT, EAST, 1 }, (ynd_location[]){ { 0, 0 }, { 0, 1 } }, 2);
    CHECK(join(&s, MEMBERS, &east) == 0 && *s.count == 2 && is_sound(&s));
    goes(&s, done, (ynd_location[]){ { 0, 0 }, { 0, 1 }, { 1, 1 }, { 0, 0 }, { 0, 1 } }, 5);
    CHECK(renumber(&s, 2, 1, scratch, places, 2) == 0 && places[0] == 1 && places[1] == 0 && is_sound(&s));
    goes(&s, done, (ynd_location[]){ { 0, 0 }, { 0, 1 }, { 1, 0 }, { 0, 0 }, { 0, 1 } }, 5);
    CHECK(s.all.links[1].area_id == EAST && s.all.links[1].node_id == 0);
    full_set(&s);
    s.all.links[1].node_id = 77;
    CHECK(!is_sound(&s));
    goes(&s, (ynd_walk_end){ YND_NO_NODE, 0, 0 }, (ynd_location[]){ { 0, 0 }, { 0, 1 } }, 2);
    CHECK(leave(&s, WEST) == 0 && *s.count == 1 && s.all.nodes[0].area_id == EAST && s.members[0].nodes == 2);
    goes(&s, (ynd_walk_end){ YND_LEFT, WEST, 0 }, (ynd_location[]){ { 0, 0 } }, 1);
    CHECK(leave(&s, WEST) == YND_NO_SUCH_PLACE && *s.count == 1);
    unblock(scratch, YND_SCRATCH * sizeof *scratch);
    unlend_set(&s);
    unlend(&east);
    unlend(&west);
}
