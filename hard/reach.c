/* T-01, T-08: the nodes within reach of a point, and the nearest, each against its sentence. */
#include "check.h"

/* The squared distance of a node's stored steps from a point. */
static uint64_t square_distance(const ynd_node_entry *v, int16_t x, int16_t y)
{
    int64_t a = (int64_t)ynd_steps_xy(v->x) - x, b = (int64_t)ynd_steps_xy(v->y) - y;
    return (uint64_t)(a * a + b * b);
}

/* What the call answers to a cell whose counts are over a limit or over its list; 0 where it is neither. */
static uint32_t bad_counts(const lent *m)
{
    if (m->ynd->node_count > YND_NODES_MOST || m->ynd->junction_count > YND_JUNCTIONS_MOST)
        return YND_AT_LIMIT;
    return m->n < m->ynd->node_count ? YND_LENT_TOO_SHORT : 0;
}

/* With a list of this length, `near` of the nodes being within reach. */
static void within_with(const lent *m, int16_t x, int16_t y, uint16_t radius, size_t room, size_t near)
{
    uint32_t *places = block(room * sizeof *places), *old = block(room * sizeof *old);
    size_t *count = block(sizeof *count), *place = block(sizeof *place);
    uint32_t number = ynd_within(m->ynd, NODES(m), x, y, radius, places, room, count, place);
    if (answer(WITHIN, number, *place)) {
        CHECK(number == (bad_counts(m) ? bad_counts(m) : YND_LENT_TOO_SHORT));
        CHECK(bad_counts(m) ? *place == 0 : *place == YND_VISITED && room < near);
        CHECK(*count == KEPT_SIZE && memcmp(places, old, room * sizeof *places) == 0);
    } else {
        uint8_t *met = calloc(m->n + 1, 1);
        CHECK(met && bad_counts(m) == 0 && *count == near && near <= room);
        for (size_t i = 0; i < near; i++) {
            CHECK(places[i] < m->ynd->node_count && !met[places[i]]++);
            uint64_t square = square_distance(&m->nodes[places[i]], x, y);
            CHECK(square <= (uint64_t)radius * radius);
            if (i > 0) {
                uint64_t before = square_distance(&m->nodes[places[i - 1]], x, y);
                CHECK(before < square || (before == square && places[i - 1] < places[i]));
            }
        }
        CHECK(memcmp(places + near, old + near, (room - near) * sizeof *places) == 0);
        free(met);
    }
    unblock(place, sizeof *place);
    unblock(count, sizeof *count);
    unblock(old, room * sizeof *old);
    unblock(places, room * sizeof *places);
}

static void nearest(const lent *m, int16_t x, int16_t y)
{
    bool *found = block(sizeof *found);
    size_t *at = block(sizeof *at), *place = block(sizeof *place), best = 0;
    uint64_t *square = block(sizeof *square);
    *found = false;
    uint32_t number = ynd_nearest(m->ynd, NODES(m), x, y, found, at, square, place);
    if (answer(NEAREST, number, *place)) {
        CHECK(number == bad_counts(m) && *place == 0 && !*found && *at == KEPT_SIZE && *square == KEPT_SIZE);
    } else if (m->ynd->node_count == 0) {
        CHECK(!*found && *at == KEPT_SIZE && *square == KEPT_SIZE);
    } else {
        for (size_t p = 1; p < m->ynd->node_count; p++)
            if (square_distance(&m->nodes[p], x, y) < square_distance(&m->nodes[best], x, y))
                best = p;
        CHECK(*found && *at == best && *square == square_distance(&m->nodes[best], x, y));
    }
    unblock(square, sizeof *square);
    unblock(place, sizeof *place);
    unblock(at, sizeof *at);
    unblock(found, sizeof *found);
}

void check_reach(const lent *m, script *s)
{
    int16_t x = (int16_t)word16(s), y = (int16_t)word16(s);
    uint16_t radius = word16(s);
    size_t near = 0;
    if (m->n > 0 && byte(s) % 2) {
        x = ynd_steps_xy(m->nodes[0].x);
        y = ynd_steps_xy(m->nodes[0].y);
    }
    for (size_t p = 0; !bad_counts(m) && p < m->ynd->node_count; p++)
        near += square_distance(&m->nodes[p], x, y) <= (uint64_t)radius * radius;
    within_with(m, x, y, radius, m->n, near);
    within_with(m, x, y, radius, near, near);
    if (near > 0)
        within_with(m, x, y, radius, near - 1, near);
    nearest(m, x, y);
}
