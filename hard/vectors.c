/* Replays crates/vectors/stdin through the C calls: the Rust's answers, with every lent list in a block of its own. */
#include "drive.h"

typedef struct {
    const uint8_t *at;
    size_t left;
} record;

static uint32_t number(record *r, size_t bytes)
{
    uint32_t n = 0;
    CHECK(bytes <= r->left);
    for (size_t i = 0; i < bytes; i++)
        n |= (uint32_t)r->at[i] << (8 * i);
    r->at += bytes;
    r->left -= bytes;
    return n;
}

static const uint8_t *bytes_of(record *r, size_t n)
{
    const uint8_t *p = r->at;
    CHECK(n <= r->left);
    r->at += n;
    r->left -= n;
    return p;
}

static float real_of(record *r)
{
    return ynd_float_of(number(r, 4));
}

static void steps(record *r)
{
    uint32_t bits = number(r, 4);
    int16_t xy = (int16_t)number(r, 2), z = (int16_t)number(r, 2), *all = block(3 * sizeof *all);
    float x = ynd_float_of(bits);
    CHECK(ynd_steps_xy_of_bits(bits) == xy && ynd_steps_z_of_bits(bits) == z && ynd_steps_xy(x) == xy && ynd_steps_z(x) == z);
    ynd_quantise(x, x, x, all);
    CHECK(all[0] == xy && all[1] == xy && all[2] == z);
    unblock(all, 3 * sizeof *all);
}

static void metres(record *r)
{
    int16_t n = (int16_t)number(r, 2);
    uint32_t xy = number(r, 4), z = number(r, 4);
    float *all = block(3 * sizeof *all);
    CHECK(ynd_bits_of(ynd_metres_xy(n)) == xy && ynd_bits_of(ynd_metres_z(n)) == z);
    ynd_dequantise(n, n, n, all);
    CHECK(ynd_bits_of(all[0]) == xy && ynd_bits_of(all[1]) == xy && ynd_bits_of(all[2]) == z);
    unblock(all, 3 * sizeof *all);
}

static void grid(record *r)
{
    float x = real_of(r), y = real_of(r);
    uint32_t cx = number(r, 1), cy = number(r, 1), *cell = block(2 * sizeof *cell);
    ynd_cell_for_position(x, y, cell);
    CHECK(cell[0] == cx && cell[1] == cy);
    unblock(cell, 2 * sizeof *cell);
}

static void length(record *r)
{
    float a[3], b[3];
    for (int i = 0; i < 3; i++)
        a[i] = real_of(r);
    for (int i = 0; i < 3; i++)
        b[i] = real_of(r);
    CHECK(ynd_length_between(a[0], a[1], a[2], b[0], b[1], b[2]) == number(r, 1));
}

static void name(record *r)
{
    bool known = number(r, 1);
    uint32_t area = number(r, 4), *got = block(sizeof *got);
    size_t n = r->left;
    uint8_t *bytes = block_of(bytes_of(r, n), n);
    CHECK(ynd_area_id_from_file_name(bytes, n, got) == known && *got == (known ? area : 0xA5A5A5A5u));
    unblock(bytes, n);
    unblock(got, sizeof *got);
}

static void grid_cell(record *r)
{
    uint32_t cx = number(r, 4), cy = number(r, 4), refusal = number(r, 4), at = number(r, 4), area = number(r, 4), *got = block(sizeof *got);
    float *bounds = block(4 * sizeof *bounds);
    uint8_t *file = block(YND_FILE_NAME_BYTES);
    size_t *place = block(sizeof *place), *count = block(sizeof *count);
    CHECK(ynd_area_id(cx, cy, got, place) == refusal && *place == at && *got == (refusal ? 0xA5A5A5A5u : area));
    CHECK(ynd_cell_bounds(cx, cy, bounds, place) == refusal && *place == at);
    for (int i = 0; i < 4; i++) {
        uint32_t bits = number(r, 4);
        CHECK(refusal || ynd_bits_of(bounds[i]) == bits);
    }
    size_t n = number(r, 1);
    CHECK(ynd_cell_file_name(cx, cy, file, count, place) == refusal && *place == at);
    CHECK(refusal ? *count == KEPT_SIZE && file[0] == KEPT : *count == n && memcmp(file, bytes_of(r, YND_FILE_NAME_BYTES), YND_FILE_NAME_BYTES) == 0);
    unblock(count, sizeof *count);
    unblock(place, sizeof *place);
    unblock(file, YND_FILE_NAME_BYTES);
    unblock(bounds, 4 * sizeof *bounds);
    unblock(got, sizeof *got);
}

static void area(record *r)
{
    uint32_t a = number(r, 4), b = number(r, 4), *cell = block(2 * sizeof *cell);
    ynd_cell_of_area(a, cell);
    CHECK(cell[0] == number(r, 1) && cell[1] == number(r, 1));
    CHECK(ynd_is_island_area(a) == number(r, 1) && ynd_same_cell(a, b) == number(r, 1));
    unblock(cell, 2 * sizeof *cell);
}

static void lane_offset(record *r)
{
    uint8_t value = (uint8_t)number(r, 1);
    bool negative = number(r, 1);
    CHECK(ynd_bits_of(ynd_lane_offset(value, negative)) == number(r, 4));
}

static void told(record *r, uint32_t got, size_t place)
{
    uint32_t refusal = number(r, 1), at = number(r, 2);
    CHECK(got == refusal && place == at);
}

/* What was written, but for its page block. */
static void same_section(const uint8_t *section, size_t room, const uint8_t *expected, size_t n)
{
    if (n == 0)
        return;
    CHECK(room >= n + YND_PAGE_BLOCK_BYTES && memcmp(section, expected, YND_ROOT_BYTES) == 0);
    CHECK(memcmp(section + YND_ROOT_BYTES + YND_PAGE_BLOCK_BYTES, expected + YND_ROOT_BYTES, n - YND_ROOT_BYTES) == 0);
}

/* A file read, written, renumbered and written again, in lists of given lengths. */
static void file(record *r)
{
    size_t ns = number(r, 2), ng = number(r, 2), lists[5];
    for (int i = 0; i < 5; i++)
        lists[i] = number(r, 2);
    size_t room = number(r, 2), places_len = number(r, 2), scratch_len = YND_SCRATCH - 1 + number(r, 1), *place = block(sizeof *place), *n = block(sizeof *n);
    record answers = { bytes_of(r, 12), 12 };
    size_t na = number(r, 2), nb = number(r, 2);
    uint8_t *system = block_of(bytes_of(r, ns), ns), *graphics = block_of(bytes_of(r, ng), ng), *first = block(room), *again = block(room);
    uint32_t *scratch = block(scratch_len * sizeof *scratch), *places = block(places_len * sizeof *places);
    lent m = lend(lists[0], lists[1], lists[2], lists[3], lists[4]);
    uint32_t got = ynd_read(m.ynd, system, ns, graphics, ng, LISTS(&m), place);
    told(&answers, got, *place);
    if (got == 0) {
        got = ynd_write(m.ynd, LISTS(&m), first, room, n, place);
        told(&answers, got, *place);
        got = ynd_renumber(m.ynd, LISTS(&m), scratch, scratch_len, places, places_len, place);
        told(&answers, got, *place);
        got = ynd_write(m.ynd, LISTS(&m), again, room, n, place);
        told(&answers, got, *place);
        same_section(first, room, r->at, na);
        same_section(again, room, r->at + na, nb);
    }
    unlend(&m);
    unblock(places, places_len * sizeof *places);
    unblock(scratch, scratch_len * sizeof *scratch);
    unblock(again, room);
    unblock(first, room);
    unblock(graphics, ng);
    unblock(system, ns);
    unblock(n, sizeof *n);
    unblock(place, sizeof *place);
}

static void links(record *r)
{
    size_t at = number(r, 1), n = number(r, 2), room = number(r, 2), section_len = 8192, *length = block(sizeof *length), *place = block(sizeof *place);
    lent m = lend(1, room, 1, 1, 1);
    uint8_t *section = block(section_len);
    ynd_link_entry *link = block(sizeof *link);
    uint32_t got = 0;
    ynd_new(m.ynd);
    CHECK(ynd_add_node(m.ynd, NODES(&m), 1, 0, 0, 0, place) == 0);
    ynd_link_to(1, 0, link);
    for (size_t i = 0; i < n && got == 0; i++)
        got = ynd_add_link(m.ynd, NODES(&m), LINKS(&m), at, link, place);
    told(r, got, *place);
    got = ynd_write(m.ynd, LISTS(&m), section, section_len, length, place);
    told(r, got, *place);
    CHECK(got || *length == number(r, 2));
    unblock(link, sizeof *link);
    unblock(section, section_len);
    unlend(&m);
    unblock(place, sizeof *place);
    unblock(length, sizeof *length);
}

static void junction(record *r)
{
    ynd_junction_entry given = { 0, 0, 0, 0, 0, 0, 0, 0 }, *j;
    given.width = (uint8_t)number(r, 1);
    given.height = (uint8_t)number(r, 1);
    size_t n = number(r, 2), *place = block(sizeof *place);
    uint8_t *values = block(n);
    lent m = lend(0, 0, 1, 300, 0);
    ynd_new(m.ynd);
    j = block_of(&given, sizeof given);
    uint32_t got = ynd_add_junction(m.ynd, JUNCTIONS(&m), HEIGHTS(&m), j, values, n, place);
    told(r, got, *place);
    unblock(j, sizeof *j);
    unlend(&m);
    unblock(values, n);
    unblock(place, sizeof *place);
}

/* A large section made from a few numbers: zeros but for some bytes, each at places a stride apart. */
static uint8_t *made_section(record *r, size_t n)
{
    uint8_t *section = block(n);
    memset(section, 0, n);
    while (r->left) {
        size_t at = number(r, 4), stride = number(r, 4), times = number(r, 4);
        uint8_t value = (uint8_t)number(r, 1);
        for (size_t i = 0; i < times; i++)
            section[at + i * stride] = value;
    }
    return section;
}

static void large(record *r)
{
    enum { ROOM = 2621600 };
    size_t n = number(r, 4), added = number(r, 4), *place = block(sizeof *place), *length = block(sizeof *length);
    record answers = { bytes_of(r, 9), 9 }, counted = { bytes_of(r, 20), 20 };
    size_t written = number(r, 4);
    uint8_t *section = made_section(r, n), *to = block(ROOM);
    ynd_counts *counts = block(sizeof *counts);
    ynd_ref_entry *none = block(sizeof *none);
    lent m = lend(3900, 65600, 300, 66100, 65537);
    memset(none, 0, sizeof *none);
    uint32_t got = ynd_count(section, n, NULL, 0, counts, place);
    told(&answers, got, *place);
    if (got == 0)
        CHECK(counts->nodes == number(&counted, 4) && counts->links == number(&counted, 4) && counts->junctions == number(&counted, 4));
    got = ynd_read(m.ynd, section, n, NULL, 0, LISTS(&m), place);
    told(&answers, got, *place);
    if (got == 0) {
        for (size_t i = 0; i < added; i++)
            CHECK(ynd_add_ref(m.ynd, REFS(&m), none, place) == 0);
        got = ynd_write(m.ynd, LISTS(&m), to, ROOM, length, place);
        told(&answers, got, *place);
        CHECK(got || *length == written);
    }
    unlend(&m);
    unblock(none, sizeof *none);
    unblock(counts, sizeof *counts);
    unblock(to, ROOM);
    unblock(section, n);
    unblock(length, sizeof *length);
    unblock(place, sizeof *place);
}

/* The cell of a small section, in lists that hold it. */
static lent cell_of(const uint8_t *section, size_t n)
{
    lent m = lend(64, 256, 16, 512, 64);
    size_t place;
    CHECK(ynd_read(m.ynd, section, n, NULL, 0, LISTS(&m), &place) == 0);
    return m;
}

/* A walk from a place, or a round from a number. */
static void gone(record *r, bool round)
{
    size_t n = number(r, 2), start = number(r, 2), nc = number(r, 2), room = number(r, 2), *place = block(sizeof *place), *got_count = block(sizeof *got_count);
    record answers = { bytes_of(r, 3), 3 };
    uint32_t how = number(r, 1), at = number(r, 2), to = number(r, 2), *visited = block(room * sizeof *visited);
    size_t visits = number(r, 2);
    lent m = cell_of(bytes_of(r, n), n);
    uint8_t *choices = block_of(bytes_of(r, nc), nc);
    ynd_walk_end *end = block(sizeof *end);
    for (size_t i = 0; i < room; i++)
        visited[i] = 65535;
    uint32_t got = round
        ? ynd_follow_round(m.ynd, NODES(&m), LINKS(&m), (uint16_t)start, choices, nc, visited, room, end, got_count, place)
        : ynd_walk(m.ynd, NODES(&m), LINKS(&m), start, choices, nc, visited, room, end, got_count, place);
    told(&answers, got, *place);
    CHECK(got || (end->how == how && end->area_id == at && end->node_id == to && *got_count == visits));
    for (size_t i = 0; i < room; i++)
        CHECK(visited[i] == number(r, 2));
    unblock(end, sizeof *end);
    unblock(choices, nc);
    unlend(&m);
    unblock(visited, room * sizeof *visited);
    unblock(got_count, sizeof *got_count);
    unblock(place, sizeof *place);
}

static void sound(record *r)
{
    size_t n = number(r, 2), nodes = number(r, 2), links = number(r, 2), refs = number(r, 2), room = YND_SCRATCH - 1 + number(r, 1), *place = block(sizeof *place);
    record answers = { bytes_of(r, 3), 3 };
    bool verdict = number(r, 1), *said = block(sizeof *said);
    lent whole = cell_of(bytes_of(r, n), n), m = lend_more(&whole, nodes, links, whole.j, whole.h, refs);
    uint32_t *scratch = block(room * sizeof *scratch);
    uint32_t got = ynd_sound(m.ynd, NODES(&m), LINKS(&m), REFS(&m), scratch, room, said, place);
    told(&answers, got, *place);
    CHECK(got || *said == verdict);
    unblock(scratch, room * sizeof *scratch);
    unlend(&m);
    unlend(&whole);
    unblock(said, sizeof *said);
    unblock(place, sizeof *place);
}

static void walk(record *r)
{
    gone(r, false);
}

static void follow(record *r)
{
    gone(r, true);
}

static void round_file(record *r)
{
    size_t n = number(r, 2), room = number(r, 2), *place = block(sizeof *place), *count = block(sizeof *count);
    record answers = { bytes_of(r, 3), 3 };
    uint16_t first = (uint16_t)number(r, 2), *start = block(sizeof *start);
    size_t held = number(r, 2);
    uint8_t *file = block_of(bytes_of(r, n), n), *choices = block(room);
    memset(choices, 165, room);
    uint32_t got = ynd_read_round(file, n, choices, room, start, count, place);
    told(&answers, got, *place);
    CHECK(got || (*start == first && *count == held));
    CHECK(memcmp(choices, bytes_of(r, room), room) == 0);
    if (!got) {
        uint8_t *to = block(n);
        CHECK(ynd_write_round(*start, choices, *count, to, n, count, place) == 0 && *count == n && memcmp(to, file, n) == 0);
        unblock(to, n);
    }
    unblock(choices, room);
    unblock(file, n);
    unblock(start, sizeof *start);
    unblock(count, sizeof *count);
    unblock(place, sizeof *place);
}

static void round_of(record *r)
{
    uint16_t start = (uint16_t)number(r, 2);
    size_t n = number(r, 4), room = number(r, 4), *place = block(sizeof *place), *length = block(sizeof *length);
    record answers = { bytes_of(r, 3), 3 };
    uint8_t *choices = block(n), *file = block(room);
    uint32_t got = ynd_write_round(start, choices, n, file, room, length, place);
    told(&answers, got, *place);
    CHECK(got || *length == number(r, 4));
    unblock(file, room);
    unblock(choices, n);
    unblock(length, sizeof *length);
    unblock(place, sizeof *place);
}

enum { SET_MEMBERS = 3, SET_NODES = 12, SET_LINKS = 24 };

/* A cell joins: its nodes and links as they stand in the record. */
static void joins(record *r, ynd_member *members, size_t *count, const lent *all)
{
    uint16_t area = (uint16_t)number(r, 2);
    size_t n = number(r, 1), l = number(r, 1), *place = block(sizeof *place);
    ynd_counts *sizes = block(sizeof *sizes);
    lent m = lend(n, l, 0, 0, 0);
    ynd_new(m.ynd);
    m.ynd->node_count = (uint32_t)n;
    m.ynd->link_count = (uint32_t)l;
    *sizes = (ynd_counts){ n, l, 0, 0, 0 };
    for (size_t i = 0; i < n; i++) {
        ynd_node_new(area, (uint16_t)number(r, 1), 0, 0, 0, &m.nodes[i]);
        m.nodes[i].flags1 = (uint8_t)number(r, 1);
        m.nodes[i].link_start = number(r, 1);
        m.nodes[i].link_count = (uint8_t)number(r, 1);
    }
    for (size_t i = 0; i < l; i++) {
        uint16_t to = (uint16_t)number(r, 2);
        ynd_link_to(to, (uint16_t)number(r, 1), &m.links[i]);
    }
    CHECK(ynd_set_join(count, members, SET_MEMBERS, LISTS(all), m.ynd, LISTS(&m), sizes, place) == 0);
    unlend(&m);
    unblock(sizes, sizeof *sizes);
    unblock(place, sizeof *place);
}

static void crossing_walk(record *r, const ynd_member *members, size_t count, const lent *all)
{
    size_t member = number(r, 1), start = number(r, 1), n = number(r, 1), room = number(r, 1);
    size_t *place = block(sizeof *place), *visits = block(sizeof *visits);
    uint32_t refusal = number(r, 1), at = number(r, 1), how = number(r, 1), area = number(r, 2), to = number(r, 1);
    size_t held = number(r, 1);
    uint8_t *choices = block_of(bytes_of(r, n), n);
    ynd_location *visited = block(room * sizeof *visited);
    ynd_walk_end *end = block(sizeof *end);
    for (size_t i = 0; i < room; i++)
        visited[i] = (ynd_location){ 255, 255 };
    uint32_t got = ynd_set_crossing_walk(members, count, NODES(all), LINKS(all), member, start, choices, n, visited,
        room, end, visits, place);
    CHECK(got == refusal && *place == at);
    CHECK(got || (end->how == how && end->area_id == area && end->node_id == to && *visits == held));
    for (size_t i = 0; i < room; i++) {
        CHECK(visited[i].member == number(r, 1));
        CHECK(visited[i].place == number(r, 1));
    }
    unblock(end, sizeof *end);
    unblock(visited, room * sizeof *visited);
    unblock(choices, n);
    unblock(visits, sizeof *visits);
    unblock(place, sizeof *place);
}

static void member_renumbered(record *r, ynd_member *members, size_t count, const lent *all)
{
    size_t member = number(r, 1), room = number(r, 1), *place = block(sizeof *place);
    uint32_t refusal = number(r, 1), at = number(r, 1);
    uint32_t *scratch = block(YND_SCRATCH * sizeof *scratch), *places = block(room * sizeof *places);
    for (size_t i = 0; i < room; i++)
        places[i] = 255;
    uint32_t got = ynd_set_renumber(members, count, NODES(all), LINKS(all), JUNCTIONS(all), HEIGHTS(all), REFS(all),
        scratch, YND_SCRATCH, places, room, member, place);
    CHECK(got == refusal && *place == at);
    for (size_t i = 0; i < room; i++)
        CHECK(places[i] == number(r, 1));
    unblock(places, room * sizeof *places);
    unblock(scratch, YND_SCRATCH * sizeof *scratch);
    unblock(place, sizeof *place);
}

/* A set's walks and renumberings, one after the other. */
static void set_steps(record *r)
{
    size_t cells = number(r, 1), steps_left = number(r, 1), *count = block(sizeof *count);
    ynd_member *members = block(SET_MEMBERS * sizeof *members);
    lent all = lend(SET_NODES, SET_LINKS, 0, 0, 0);
    *count = 0;
    while (cells--)
        joins(r, members, count, &all);
    while (steps_left--)
        if (number(r, 1))
            member_renumbered(r, members, *count, &all);
        else
            crossing_walk(r, members, *count, &all);
    CHECK(r->left == 0);
    unlend(&all);
    unblock(members, SET_MEMBERS * sizeof *members);
    unblock(count, sizeof *count);
}

size_t replay(const uint8_t *bytes, size_t n)
{
    static void (*const KINDS[])(record *) = {
        NULL, steps, metres, grid, length, name, grid_cell, area, lane_offset, file, links, junction, large, walk, sound,
        NULL, NULL, NULL, round_file, follow, round_of, NULL, set_steps
    };
    record all = { bytes, n };
    size_t count = 0, other = 0;
    while (all.left) {
        uint32_t kind = number(&all, 1);
        size_t size = number(&all, 2);
        record one = { bytes_of(&all, size), size };
        if (kind >= sizeof KINDS / sizeof *KINDS || !KINDS[kind]) {
            other++;
            continue;
        }
        KINDS[kind](&one);
        count++;
    }
    if (other)
        printf("%zu vectors of other kinds left out\n", other);
    return count;
}
