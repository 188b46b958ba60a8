/* One input: a length of a script (2 bytes), a length of the graphics section (2 bytes), the script, graphics, and the system section.
 * The file is read, used, renumbered, written and edited as the script says; then words are changed by hand. */
#include "check.h"

typedef struct {
    const uint8_t *bytes;
    size_t length;
} part;

static part front(part *from, size_t n)
{
    part p = { from->bytes, n < from->length ? n : from->length };
    from->bytes += p.length;
    from->length -= p.length;
    return p;
}

/* What reading says of the sections with lists of these lengths, one of them shortened. */
static bool read_into(lent *m, const uint8_t *system, size_t ns, const uint8_t *graphics, size_t ng, const size_t room[5], uint32_t counted, size_t at)
{
    size_t *place = block(sizeof *place);
    *m = lend(room[0], room[1], room[2], room[3], room[4]);
    lent before = lend_copy(m);
    uint32_t number = ynd_read(m->ynd, system, ns, graphics, ng, LISTS(m), place);
    if (answer(READ, number, *place)) {
        CHECK(same_lent(m, &before));
        CHECK(counted ? number == counted && *place == at : number == YND_LENT_TOO_SHORT);
    } else {
        CHECK(counted == 0 && m->ynd->node_count <= room[0] && m->ynd->link_count <= room[1] && m->ynd->ref_count <= room[4]);
    }
    unlend(&before);
    unblock(place, sizeof *place);
    return number == 0;
}

/* The coordinates and numbers of each node, by the bytes of its record. */
static void check_nodes(const lent *m, const uint8_t *system, size_t ns, const uint8_t *graphics, size_t ng)
{
    ynd_part *where = block(sizeof *where);
    uint64_t address = number_at(system, 16, 8);
    uint32_t count = (uint32_t)number_at(system, 24, 4);
    CHECK(ynd_locate(address, count, YND_NODE_RECORD_BYTES, ns, ng, where));
    CHECK(m->ynd->node_count == where->length / YND_NODE_RECORD_BYTES);
    const uint8_t *from = where->section ? graphics : system;
    for (size_t p = 0; p < m->ynd->node_count; p++) {
        size_t at = where->offset + p * YND_NODE_RECORD_BYTES;
        const ynd_node_entry *v = &m->nodes[p];
        CHECK(v->area_id == number_at(from, at + 16, 2) && v->node_id == number_at(from, at + 18, 2));
        CHECK(v->street_name == number_at(from, at + 20, 4));
        CHECK(v->x * 4 == (int16_t)number_at(from, at + 28, 2) && v->y * 4 == (int16_t)number_at(from, at + 30, 2));
        CHECK(v->z * 32 == (int16_t)number_at(from, at + 34, 2));
        CHECK(v->flags5 == from[at + 37] % 8 && v->link_count == from[at + 37] / 8);
        CHECK(v->unused0 == number_at(from, at, 4) && v->unused1 == number_at(from, at + 4, 4));
        CHECK(v->unused2 == number_at(from, at + 8, 4) && v->unused3 == number_at(from, at + 12, 4));
        CHECK(v->unused4 == number_at(from, at + 24, 2));
    }
    unblock(where, sizeof *where);
}

/* No system bytes: the cell of ynd_new. */
static void check_undrawn(const lent *m)
{
    ynd_cell *fresh = block(sizeof *fresh);
    ynd_new(fresh);
    CHECK(memcmp(m->ynd, fresh, sizeof *fresh) == 0);
    unblock(fresh, sizeof *fresh);
}

static bool read_cell(lent *m, script *s, part graphics_part, part system_part)
{
    size_t ns = system_part.length, ng = graphics_part.length, *place = block(sizeof *place);
    uint8_t *system = block_of(system_part.bytes, ns), *graphics = block_of(graphics_part.bytes, ng);
    ynd_counts *counts = block(sizeof *counts);
    uint32_t number = ynd_count(system, ns, graphics, ng, counts, place);
    size_t room[5] = { 3, 3, 3, 3, 3 }, lacking = byte(s) % 32;
    if (answer(COUNT, number, *place))
        CHECK(counts->nodes == KEPT_SIZE && counts->refs == KEPT_SIZE);
    else
        memcpy(room, counts, sizeof room);
    bool done = false;
    if (number == 0 && lacking < 5 && room[lacking] > 0) {
        room[lacking]--;
        CHECK(!read_into(m, system, ns, graphics, ng, room, number, *place));
        unlend(m);
        room[lacking]++;
    }
    done = read_into(m, system, ns, graphics, ng, room, number, *place);
    CHECK(done == (number == 0));
    if (done && ns == 0)
        check_undrawn(m);
    else if (done)
        check_nodes(m, system, ns, graphics, ng);
    CHECK(ns == 0 || memcmp(system, system_part.bytes, ns) == 0);
    unblock(counts, sizeof *counts);
    unblock(graphics, ng);
    unblock(system, ns);
    unblock(place, sizeof *place);
    return done;
}

/* Demand 3: the walk from where the start now stands goes the same way, after a renumbering and a write-then-read. */
static void same_walk(const lent *first, const lent *now, const uint32_t *places, size_t start, const uint8_t *choices, size_t n)
{
    uint32_t a[MOST_CHOICES + 1], b[MOST_CHOICES + 1];
    size_t na, nb;
    ynd_walk_end ea = model_walk(first, start, choices, n, a, &na), eb = model_walk(now, places[start], choices, n, b, &nb);
    CHECK(memcmp(&ea, &eb, sizeof ea) == 0 && na == nb);
    for (size_t i = 0; i < na; i++)
        CHECK(places[a[i]] == b[i] && now->nodes[b[i]].node_id == b[i]);
}

static void check_demand_3(const lent *m, script *s, size_t start, const uint8_t *choices, size_t n)
{
    size_t count = m->ynd->node_count, *place = block(sizeof *place);
    if (!model_sound(m) || start >= count) {
        unblock(place, sizeof *place);
        return;
    }
    lent now = lend_copy(m);
    uint32_t *scratch = block(YND_SCRATCH * sizeof *scratch), *places = block(count * sizeof *places);
    CHECK(ynd_renumber(now.ynd, LISTS(&now), scratch, YND_SCRATCH, places, count, place) == 0);
    same_walk(m, &now, places, start, choices, n);
    check_write_read(&now, s, false);
    same_walk(m, &now, places, start, choices, n);
    check_walk(&now, places[start], choices, n);
    unblock(places, count * sizeof *places);
    unblock(scratch, YND_SCRATCH * sizeof *scratch);
    unlend(&now);
    unblock(place, sizeof *place);
}

static void use_all(lent *m, script *s, bool as_read)
{
    uint8_t choices[MOST_CHOICES];
    size_t n = byte(s) % (MOST_CHOICES + 1), start = byte(s);
    for (size_t i = 0; i < n; i++)
        choices[i] = byte(s) % 4;
    check_walk(m, start, choices, n);
    check_shown(m, s);
    check_lookups(m, s);
    check_reach(m, s);
    check_follow(m, s, choices, n);
    check_path(m, s);
    check_set(m, start, choices, n);
    check_member(m, s);
    check_sound(m);
    if (as_read)
        check_demand_3(m, s, start, choices, n);
    check_write(m, s);
    check_write_read(m, s, as_read);
    check_renumber(m, s);
    check_write_read(m, s, false);
}

/* Any word of the cell, of a node or of a junction, to any value. */
static void change_by_hand(lent *m, script *s)
{
    uint8_t what = byte(s);
    uint32_t value = byte(s) % 2 ? word32(s) : byte(s);
    if (what < 64)
        ((uint32_t *)m->ynd)[what % 15] = value;
    else if (what < 128 && m->n > 0)
        m->nodes[byte(s) % m->n].link_start = value;
    else if (what < 160 && m->n > 0)
        m->nodes[byte(s) % m->n].link_count = (uint8_t)value;
    else if (what < 192 && m->j > 0)
        m->junctions[byte(s) % m->j].heightmap_start = value;
    else if (m->j > 0)
        m->junctions[byte(s) % m->j].width = (uint8_t)value;
}

void check_input(const uint8_t *data, size_t size)
{
    part rest = { data, size };
    script lengths = { data, data + size };
    size_t script_length = word16(&lengths), graphics_length = word16(&lengths);
    front(&rest, 4);
    part steering = front(&rest, script_length), graphics = front(&rest, graphics_length);
    script s = { steering.bytes, steering.bytes + steering.length };
    lent m;
    if (read_cell(&m, &s, graphics, rest)) {
        use_all(&m, &s, true);
    } else {
        ynd_new(m.ynd);
    }
    lent more = lend_more(&m, m.n + byte(&s) % 8, m.l + byte(&s) % 16, m.j + byte(&s) % 4, m.h + byte(&s) % 32, m.r + byte(&s) % 4);
    unlend(&m);
    size_t edits = byte(&s) % MOST_EDITS;
    for (size_t i = 0; i < edits; i++)
        check_edit(&more, &s, true);
    use_all(&more, &s, false);
    size_t changes = byte(&s) % 8;
    for (size_t i = 0; i < changes; i++) {
        change_by_hand(&more, &s);
        check_edit(&more, &s, false);
    }
    if (changes)
        use_all(&more, &s, false);
    unlend(&more);
}
