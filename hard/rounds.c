/* T-03: round files read and written back, and rounds of either version followed (T-11), each against its sentence. */
#include "check.h"

/* The length of a whole round file of this many choices. */
static size_t file_length(size_t choices)
{
    return YND_ROUND_BYTES + choices;
}

/* What reading says of the bytes before memory counts: 15, 16 or 0. */
static uint32_t bad_file(const uint8_t *file, size_t n)
{
    static const uint8_t HEAD[] = { 'R', 'N', 'D', 1, 0 };
    if (n < sizeof HEAD || memcmp(file, HEAD, sizeof HEAD) != 0)
        return YND_NO_ROUND_FILE;
    return n < file_length(0) || n != file_length(number_at(file, 7, 2)) ? YND_BAD_ROUND_LENGTH : 0;
}

/* Written into memory of this length. */
static void write_with(uint16_t start, const uint8_t *choices, size_t count, const uint8_t *want, size_t room)
{
    uint8_t *to = block(room), *old = block(room);
    size_t *length = block(sizeof *length), *place = block(sizeof *place), n = file_length(count);
    uint32_t number = ynd_write_round(start, choices, count, to, room, length, place);
    if (answer(WRITE_ROUND, number, *place)) {
        CHECK(number == (count > YND_CHOICES_MOST ? YND_BAD_ROUND_LENGTH : YND_LENT_TOO_SHORT));
        CHECK(*place == (number == YND_LENT_TOO_SHORT ? YND_VISITED : 0));
        CHECK((count > YND_CHOICES_MOST || room < n) && *length == KEPT_SIZE && memcmp(to, old, room) == 0);
    } else {
        CHECK(count <= YND_CHOICES_MOST && n <= room && *length == n);
        CHECK(memcmp(to, want, n) == 0 && memcmp(to + n, old + n, room - n) == 0);
    }
    unblock(place, sizeof *place);
    unblock(length, sizeof *length);
    unblock(old, room);
    unblock(to, room);
}

/* Read into memory of this length; an accepted file is written back. */
static void read_with(const uint8_t *file, size_t n, size_t room)
{
    uint8_t *choices = block(room), *old = block(room);
    uint16_t *start = block(sizeof *start);
    size_t *count = block(sizeof *count), *place = block(sizeof *place);
    uint32_t bad = bad_file(file, n), number = ynd_read_round(file, n, choices, room, start, count, place);
    if (answer(READ_ROUND, number, *place)) {
        CHECK(number == (bad ? bad : YND_LENT_TOO_SHORT) && *place == (bad ? 0 : YND_VISITED));
        CHECK(*start == 0xA5A5 && *count == KEPT_SIZE && memcmp(choices, old, room) == 0);
        CHECK(bad || room < n - file_length(0));
    } else {
        CHECK(!bad && *count == n - file_length(0) && *count <= room && *start == number_at(file, 5, 2));
        CHECK(memcmp(choices, file + file_length(0), *count) == 0);
        CHECK(memcmp(choices + *count, old + *count, room - *count) == 0);
        write_with(*start, choices, *count, file, n);
        write_with(*start, choices, *count, file, n + 3);
        write_with(*start, choices, *count, file, n - 1);
    }
    unblock(place, sizeof *place);
    unblock(count, sizeof *count);
    unblock(start, sizeof *start);
    unblock(old, room);
    unblock(choices, room);
}

void check_round_file(const uint8_t *data, size_t size)
{
    uint8_t *file = block_of(data, size);
    size_t held = size > file_length(0) ? size - file_length(0) : 0;
    read_with(file, size, held);
    read_with(file, size, held + 2);
    if (held > 0)
        read_with(file, size, held - 1);
    check_versions(file, size);
    unblock(file, size);
}

/* As many choices as a file holds, and one more. */
void most_choices(void)
{
    size_t most = YND_CHOICES_MOST, room = file_length(most + 1);
    uint8_t *choices = block(most + 1), *want = block(file_length(most));
    memcpy(want, (uint8_t[]){ 'R', 'N', 'D', 1, 0, 9, 0, 255, 255 }, file_length(0));
    write_with(9, choices, most, want, room);
    write_with(9, choices, most, want, file_length(most));
    write_with(9, choices, most, want, file_length(most) - 1);
    write_with(9, choices, most + 1, want, room);
    write_with(9, choices, most + 1, want, 0);
    check_round_file(want, file_length(most));
    unblock(want, file_length(most));
    unblock(choices, most + 1);
}

/* A round's version and area; version 1 says no area. `plain` goes by the call that knows version 1 alone. */
typedef struct {
    bool plain;
    uint16_t version, area, start;
} head;

/* The first node's, with the island's bit; 0 in a cell with no node. */
static uint16_t own_area(const lent *m)
{
    return m->n > 0 && m->ynd->node_count > 0 ? m->nodes[0].area_id : 0;
}

/* What is refused before the walk: the version, another area, the struct, the nodes' list, a number that no node has,
 * the links' list. */
static uint32_t no_walk(const lent *m, head r, size_t *list)
{
    *list = 0;
    if (r.version != 1 && r.version != 2)
        return YND_NO_ROUND_FILE;
    if (r.version == 2 && r.area != own_area(m))
        return YND_OTHER_AREA;
    if (over_limit(m))
        return YND_AT_LIMIT;
    if (m->n < m->ynd->node_count)
        return YND_LENT_TOO_SHORT;
    if (model_node(m, r.start) == SIZE_MAX)
        return YND_NO_SUCH_PLACE;
    *list = m->l < m->ynd->link_count ? YND_LINKS : 0;
    return m->l < m->ynd->link_count ? YND_LENT_TOO_SHORT : 0;
}

static uint32_t follow(const lent *m, head r, const uint8_t *choices, size_t n, uint32_t *list, size_t room,
    ynd_walk_end *end, size_t *got, size_t *place)
{
    uint32_t number = r.plain
        ? ynd_follow_round(m->ynd, NODES(m), LINKS(m), r.start, choices, n, list, room, end, got, place)
        : ynd_follow_round_versioned(
            m->ynd, NODES(m), LINKS(m), r.version, r.area, r.start, choices, n, list, room, end, got, place);
    return answer(r.plain ? FOLLOW : FOLLOW_VERSION, number, *place);
}

/* A round of version 1 by a lent index: answered and left as `follow` did. */
static void follow_indexed(const lent *m, uint16_t start, const uint8_t *choices, size_t n, size_t room,
    uint32_t number, size_t at, const uint32_t *list, const ynd_walk_end *how, size_t count)
{
    uint32_t *visited = block(room * sizeof *visited), *scratch = block(YND_SCRATCH * sizeof *scratch);
    ynd_walk_end *end = block(sizeof *end);
    size_t *got = block(sizeof *got), *place = block(sizeof *place);
    uint32_t same = ynd_follow_round_indexed(
        m->ynd, NODES(m), LINKS(m), start, choices, n, visited, room, scratch, YND_SCRATCH, end, got, place);
    CHECK(answer(FOLLOW_INDEXED, same, *place) == number && *place == at && *got == count);
    CHECK(memcmp(end, how, sizeof *how) == 0 && memcmp(visited, list, room * sizeof *list) == 0);
    unblock(place, sizeof *place);
    unblock(got, sizeof *got);
    unblock(end, sizeof *end);
    unblock(scratch, YND_SCRATCH * sizeof *scratch);
    unblock(visited, room * sizeof *visited);
}

/* With a visited list of this length. */
static void follow_with(const lent *m, head r, const uint8_t *choices, size_t n, size_t room)
{
    uint8_t *lent_choices = block_of(choices, n);
    uint32_t *list = block(room * sizeof *list), *old = block(room * sizeof *old), visited[MOST_CHOICES + 1] = { 0 };
    ynd_walk_end *end = block(sizeof *end), how = { 0, 0, 0 };
    size_t *got = block(sizeof *got), *place = block(sizeof *place), count = 0, at;
    uint32_t bad = no_walk(m, r, &at);
    if (!bad)
        how = model_walk(m, model_node(m, r.start), choices, n, visited, &count);
    if (!bad && room < count) {
        bad = YND_LENT_TOO_SHORT;
        at = YND_VISITED;
    }
    uint32_t number = follow(m, r, lent_choices, n, list, room, end, got, place);
    CHECK(number == bad);
    if (number) {
        CHECK(*place == at && *got == KEPT_SIZE && end->how == 0xA5A5A5A5u);
        CHECK(memcmp(list, old, room * sizeof *list) == 0);
    } else {
        CHECK(*got == count && memcmp(end, &how, sizeof how) == 0 && memcmp(list, visited, count * sizeof *list) == 0);
        CHECK(memcmp(list + count, old + count, (room - count) * sizeof *list) == 0);
    }
    if (r.plain)
        follow_indexed(m, r.start, lent_choices, n, room, number, *place, list, end, *got);
    unblock(place, sizeof *place);
    unblock(got, sizeof *got);
    unblock(end, sizeof *end);
    unblock(old, room * sizeof *old);
    unblock(list, room * sizeof *list);
    unblock(lent_choices, n);
}

/* Of either version and of none, of the cell's area, with the island's bit turned, and of another. */
static void follow_versions(const lent *m, uint16_t start, const uint8_t *choices, size_t n)
{
    uint16_t own = own_area(m), areas[] = { own, own ^ 1024, own ^ 1, start };
    for (size_t i = 0; i < sizeof areas / sizeof *areas; i++) {
        follow_with(m, (head){ false, 1, areas[i], start }, choices, n, n + 1);
        follow_with(m, (head){ false, 2, areas[i], start }, choices, n, n + 1);
        follow_with(m, (head){ false, 2, areas[i], start }, choices, n, 0);
        follow_with(m, (head){ false, (uint16_t)(258 * i), areas[i], start }, choices, n, n + 1);
    }
}

void check_follow(const lent *m, script *s, const uint8_t *choices, size_t n)
{
    uint16_t start = byte(s) % 2 ? word16(s) : byte(s);
    if (m->n > 0 && byte(s) % 2)
        start = m->nodes[byte(s) % m->n].node_id;
    head plain = { true, 1, 0, start };
    follow_with(m, plain, choices, n, n + 1);
    follow_with(m, plain, choices, n, n / 2);
    follow_with(m, plain, choices, n, 0);
    follow_versions(m, start, choices, n);
}
