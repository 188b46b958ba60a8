/* The calls on a whole cell, each against a model or against what a refusal promises. */
#include "check.h"

uint8_t byte(script *s)
{
    return s->at < s->end ? *s->at++ : 0;
}

uint16_t word16(script *s)
{
    unsigned low = byte(s);
    return (uint16_t)(low | (unsigned)byte(s) << 8);
}

uint32_t word32(script *s)
{
    uint32_t low = word16(s);
    return low | (uint32_t)word16(s) << 16;
}

float real(script *s)
{
    uint32_t bits = word32(s);
    float x;
    memcpy(&x, &bits, sizeof x);
    return x;
}

uint32_t answer(enum what w, uint32_t number, size_t place)
{
    CHECK(number <= YND_OTHER_AREA);
    CHECK(place != KEPT_SIZE);
    CHECK(number != 0 || place == 0);
    seen(w, number, place);
    return number;
}

/* The lowest list that is shorter than its count, 5 if none is. */
static size_t short_list(const lent *m)
{
    const ynd_cell *c = m->ynd;
    return m->n < c->node_count ? 0 : m->l < c->link_count ? 1 : m->j < c->junction_count ? 2 : m->h < c->heightmap_count ? 3 : m->r < c->ref_count ? 4 : 5;
}

void check_sound(const lent *m)
{
    bool *sound = block(sizeof *sound);
    size_t *place = block(sizeof *place);
    uint32_t *scratch = block(YND_SCRATCH * sizeof *scratch);
    *sound = false;
    uint32_t number = ynd_sound(m->ynd, NODES(m), LINKS(m), REFS(m), scratch, YND_SCRATCH, sound, place);
    if (!answer(SOUND, number, *place))
        CHECK(*sound == model_sound(m));
    number = ynd_sound(m->ynd, NODES(m), LINKS(m), REFS(m), scratch + 1, YND_SCRATCH - 1, sound, place);
    CHECK(answer(SOUND, number, *place) == (over_limit(m) ? YND_AT_LIMIT : YND_LENT_TOO_SHORT));
    unblock(scratch, YND_SCRATCH * sizeof *scratch);
    unblock(place, sizeof *place);
    unblock(sound, sizeof *sound);
}

/* A scratch as some other call may have left it, which leads to nodes that lack the number. */
static void use_scratch(const lent *m, uint32_t *scratch)
{
    for (size_t i = 0; i < YND_SCRATCH; i++)
        scratch[i] = (uint32_t)(i % (m->n + 1));
}

/* What an indexed walk leaves in that scratch: each number's first place where it was accepted, else nothing new. */
static void check_index(const lent *m, const uint32_t *scratch, bool accepted)
{
    uint32_t *index = block(YND_SCRATCH * sizeof *index);
    use_scratch(m, index);
    for (size_t p = accepted ? m->ynd->node_count : 0; p-- > 0;)
        index[m->nodes[p].node_id] = (uint32_t)p;
    CHECK(memcmp(scratch, index, YND_SCRATCH * sizeof *index) == 0);
    unblock(index, YND_SCRATCH * sizeof *index);
}

/* The walk by an index leaves all that ynd_walk left; a scratch of too few entries is refused before the visited
 * list. */
static void same_indexed(const lent *m, size_t start, const uint8_t *choices, size_t n, const uint32_t *list,
    size_t room, const ynd_walk_end *how, size_t count, uint32_t number, size_t at)
{
    uint32_t *scratch = block(YND_SCRATCH * sizeof *scratch), *visited = block(room * sizeof *visited);
    ynd_walk_end *end = block(sizeof *end);
    size_t *got = block(sizeof *got), *place = block(sizeof *place);
    bool before = number != 0 && at != YND_VISITED;
    use_scratch(m, scratch);
    uint32_t few = ynd_walk_indexed(
        m->ynd, NODES(m), LINKS(m), start, choices, n, visited, room, scratch, YND_SCRATCH - 1, end, got, place);
    CHECK(few == (before ? number : YND_LENT_TOO_SHORT) && *place == (before ? at : YND_SCRATCH_LIST));
    CHECK(*got == KEPT_SIZE);
    check_index(m, scratch, false);
    uint32_t same = ynd_walk_indexed(
        m->ynd, NODES(m), LINKS(m), start, choices, n, visited, room, scratch, YND_SCRATCH, end, got, place);
    CHECK(answer(WALK_INDEXED, same, *place) == number && *place == at);
    check_index(m, scratch, number == 0);
    CHECK(*got == count && memcmp(end, how, sizeof *how) == 0 && memcmp(visited, list, room * sizeof *list) == 0);
    unblock(place, sizeof *place);
    unblock(got, sizeof *got);
    unblock(end, sizeof *end);
    unblock(visited, room * sizeof *visited);
    unblock(scratch, YND_SCRATCH * sizeof *scratch);
}

/* With a visited list of this length; returns the number. */
static uint32_t walk_with(const lent *m, size_t start, const uint8_t *choices, size_t n, size_t room, const uint32_t *visited, size_t count, ynd_walk_end how)
{
    uint8_t *lent_choices = block_of(choices, n);
    uint32_t *list = block(room * sizeof *list), *old = block(room * sizeof *old);
    ynd_walk_end *end = block(sizeof *end);
    size_t *got = block(sizeof *got), *place = block(sizeof *place);
    uint32_t number = ynd_walk(m->ynd, NODES(m), LINKS(m), start, lent_choices, n, list, room, end, got, place);
    if (answer(WALK, number, *place)) {
        CHECK(*got == KEPT_SIZE && memcmp(list, old, room * sizeof *list) == 0 && end->how == 0xA5A5A5A5u);
    } else {
        CHECK(*got == count && memcmp(end, &how, sizeof how) == 0 && memcmp(list, visited, count * sizeof *list) == 0);
        CHECK(memcmp(list + count, old + count, (room - count) * sizeof *list) == 0);
    }
    same_indexed(m, start, lent_choices, n, list, room, end, *got, number, *place);
    unblock(place, sizeof *place);
    unblock(got, sizeof *got);
    unblock(end, sizeof *end);
    unblock(old, room * sizeof *old);
    unblock(list, room * sizeof *list);
    unblock(lent_choices, n);
    return number;
}

void check_walk(const lent *m, size_t start, const uint8_t *choices, size_t n)
{
    uint32_t visited[MOST_CHOICES + 1] = { 0 };
    size_t count = 0;
    ynd_walk_end how = { 0, 0, 0 };
    if (start >= m->ynd->node_count) {
        CHECK(walk_with(m, start, choices, n, n + 1, visited, 0, how) == YND_NO_SUCH_PLACE);
        return;
    }
    if (over_limit(m)) {
        CHECK(walk_with(m, start, choices, n, n + 1, visited, 0, how) == YND_AT_LIMIT);
        return;
    }
    if (m->n < m->ynd->node_count || m->l < m->ynd->link_count) {
        CHECK(walk_with(m, start, choices, n, n + 1, visited, 0, how) == YND_LENT_TOO_SHORT);
        return;
    }
    how = model_walk(m, start, choices, n, visited, &count);
    CHECK(walk_with(m, start, choices, n, n + 1, visited, count, how) == 0);
    CHECK(walk_with(m, start, choices, n, count, visited, count, how) == 0);
    CHECK(walk_with(m, start, choices, n, count - 1, visited, count, how) == YND_LENT_TOO_SHORT);
}

static void check_values(const lent *m, size_t at, size_t lacking)
{
    size_t n = at < m->ynd->junction_count && at < m->j ? values_held(m, at) : 0, *count = block(sizeof *count), *place = block(sizeof *place);
    size_t room = n >= lacking ? n - lacking : 0;
    uint8_t *values = block(room);
    uint32_t number = ynd_shown_values(m->ynd, JUNCTIONS(m), HEIGHTS(m), at, values, room, count, place);
    if (answer(SHOWN_VALUES, number, *place)) {
        CHECK(*count == KEPT_SIZE);
        for (size_t i = 0; i < room; i++)
            CHECK(values[i] == KEPT);
    } else {
        CHECK(room == n && *count == n && (n == 0 || memcmp(values, m->heights + m->junctions[at].heightmap_start, n) == 0));
    }
    unblock(values, room);
    unblock(place, sizeof *place);
    unblock(count, sizeof *count);
}

void check_shown(const lent *m, script *s)
{
    size_t at = byte(s), *place = block(sizeof *place);
    uint8_t choice = byte(s);
    ynd_seen_node *node = block(sizeof *node);
    if (!answer(SHOWN_NODE, ynd_shown_node(m->ynd, NODES(m), LINKS(m), JUNCTIONS(m), REFS(m), at, node, place), 0)) {
        const ynd_node_entry *v = &m->nodes[at];
        CHECK(node->area_id == v->area_id && node->street_name == v->street_name && node->flags[5] == v->flags5 && node->link_count == links_held(m, at));
        CHECK(node->unused[0] == v->unused0 && node->unused[1] == v->unused1 && node->unused[2] == v->unused2);
        CHECK(node->unused[3] == v->unused3 && node->unused[4] == v->unused4);
        CHECK(node->has_junction == 0 ? node->junction == 0 : node->junction < m->ynd->junction_count);
    } else {
        CHECK(node->area_id == KEPT_SIZE && node->junction == KEPT_SIZE);
    }
    ynd_seen_junction *junction = block(sizeof *junction);
    if (!answer(SHOWN_JUNCTION, ynd_shown_junction(m->ynd, JUNCTIONS(m), at, junction, place), 0))
        CHECK(junction->width == m->junctions[at].width && junction->height == m->junctions[at].height);
    ynd_seen_link *link = block(sizeof *link);
    if (!answer(SHOWN_LINK, ynd_shown_link(m->ynd, NODES(m), LINKS(m), at, choice, link, place), 0)) {
        bool there = choice < links_held(m, at);
        CHECK(link->found == there && (!there || link->length == m->links[m->nodes[at].link_start + choice].length));
    }
    check_values(m, at, 0);
    check_values(m, at, 1);
    unblock(link, sizeof *link);
    unblock(junction, sizeof *junction);
    unblock(node, sizeof *node);
    unblock(place, sizeof *place);
}

void check_lookups(const lent *m, script *s)
{
    uint16_t number = word16(s), area = word16(s);
    bool *found = block(sizeof *found);
    size_t *at = block(sizeof *at), *place = block(sizeof *place);
    uint32_t *own = block(sizeof *own), r;
    *found = false;
    r = ynd_node(m->ynd, NODES(m), number, found, at, place);
    if (!answer(NODE, r, *place)) {
        size_t p = model_node(m, number);
        CHECK(*found == (p != SIZE_MAX) && *at == (p == SIZE_MAX ? KEPT_SIZE : p));
    }
    *found = false;
    r = ynd_area_of_cell(m->ynd, NODES(m), found, own, place);
    if (!answer(AREA, r, *place))
        CHECK(*found == (m->ynd->node_count > 0) && (!*found || *own == m->nodes[0].area_id));
    *at = KEPT_SIZE;
    r = ynd_junction_of(m->ynd, NODES(m), REFS(m), *found ? (uint16_t)*own : area, number, found, at, place);
    if (!answer(JUNCTION_OF, r, *place))
        CHECK(*found ? *at < m->ynd->junction_count : *at == KEPT_SIZE);
    unblock(own, sizeof *own);
    unblock(place, sizeof *place);
    unblock(at, sizeof *at);
    unblock(found, sizeof *found);
}

void check_renumber(lent *m, script *s)
{
    size_t lack = byte(s) % 16, room = m->ynd->node_count <= YND_NODES_MOST ? m->ynd->node_count : 1, *place = block(sizeof *place);
    size_t fewer = lack == 1 && room > 0, less = lack == 2;
    uint32_t *scratch = block(YND_SCRATCH * sizeof *scratch), *places = block((room - fewer) * sizeof *places);
    lent before = lend_copy(m);
    uint32_t number = ynd_renumber(m->ynd, LISTS(m), scratch + less, YND_SCRATCH - less, places, room - fewer, place);
    if (answer(RENUMBER, number, *place)) {
        CHECK(same_lent(m, &before));
        for (size_t i = 0; i < room - fewer; i++)
            CHECK(places[i] == 0xA5A5A5A5u);
        CHECK(number == (over_limit(&before) ? YND_AT_LIMIT : YND_LENT_TOO_SHORT));
        CHECK(number != YND_LENT_TOO_SHORT || *place == (short_list(m) < 5 ? short_list(m) : less ? YND_SCRATCH_LIST : YND_NEW_PLACES));
    } else {
        uint32_t *expected = malloc(room * sizeof *expected + 1);
        CHECK(expected && !fewer && !less && short_list(&before) == 5);
        model_renumber(&before, expected);
        CHECK(same_lent(m, &before) && memcmp(places, expected, room * sizeof *places) == 0);
        free(expected);
    }
    unlend(&before);
    unblock(places, (room - fewer) * sizeof *places);
    unblock(scratch, YND_SCRATCH * sizeof *scratch);
    unblock(place, sizeof *place);
}

/* How long the section is, where the lists hold the counts and writing is accepted; else some length. */
static size_t section_length(const lent *m, script *s)
{
    size_t links = 0, values = 0, *total, *place, length;
    if (short_list(m) < 5 || over_limit(m))
        return byte(s) * 16u;
    for (size_t p = 0; p < m->ynd->node_count; p++)
        links += links_held(m, p);
    for (size_t p = 0; p < m->ynd->junction_count; p++)
        values += values_held(m, p);
    ynd_addresses *at = block(sizeof *at);
    total = block(sizeof *total);
    place = block(sizeof *place);
    CHECK(ynd_lay_out(m->ynd->ref_count, (uint32_t)values, m->ynd->junction_count, (uint32_t)links, m->ynd->node_count,
        at, total, place) == 0);
    length = *total;
    unblock(place, sizeof *place);
    unblock(total, sizeof *total);
    unblock(at, sizeof *at);
    return length;
}

/* Whether a junction, changed by hand, holds fewer values than its size says: writing refuses it with 12. */
static bool values_cut(const lent *m)
{
    for (size_t p = 0; p < m->ynd->junction_count; p++)
        if (values_held(m, p) < (size_t)m->junctions[p].width * m->junctions[p].height)
            return true;
    return false;
}

static uint32_t write_with(const lent *m, size_t room, size_t expected)
{
    uint8_t *section = block(room);
    size_t *length = block(sizeof *length), *place = block(sizeof *place);
    uint32_t number = ynd_write(m->ynd, LISTS(m), section, room, length, place);
    if (answer(WRITE, number, *place)) {
        CHECK(*length == KEPT_SIZE);
        for (size_t i = 0; i < room; i++)
            CHECK(section[i] == KEPT);
    } else {
        CHECK(*length == expected && *length <= room && number_at(section, 4, 4) == 1 && !values_cut(m));
        CHECK(number_at(section, 24, 4) == m->ynd->node_count);
        for (size_t i = *length; i < room; i++)
            CHECK(section[i] == KEPT);
    }
    unblock(place, sizeof *place);
    unblock(length, sizeof *length);
    unblock(section, room);
    return number;
}

void check_write(const lent *m, script *s)
{
    size_t length = section_length(m, s);
    uint32_t number = write_with(m, length, length);
    if (number == 0) {
        CHECK(write_with(m, length + 7, length) == 0);
        CHECK(write_with(m, length - 1, length) == YND_LENT_TOO_SHORT);
    }
}

void check_write_read(lent *m, script *s, bool as_read)
{
    size_t room = section_length(m, s) + byte(s) % 3, *length = block(sizeof *length), *place = block(sizeof *place);
    uint8_t *section = block(room);
    lent before = lend_copy(m);
    uint32_t number = ynd_write_then_read(m->ynd, LISTS(m), section, room, length, place);
    if (answer(WRITE_READ, number, *place)) {
        CHECK(same_lent(m, &before) && *length == KEPT_SIZE);
        for (size_t i = 0; i < room; i++)
            CHECK(section[i] == KEPT);
    } else {
        CHECK(!values_cut(&before) && same_written(&before, m));
        CHECK(!as_read || same_lent(m, &before));
    }
    unlend(&before);
    unblock(section, room);
    unblock(place, sizeof *place);
    unblock(length, sizeof *length);
}
