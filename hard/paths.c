/* T-06: a shortest path between two places, against its sentence. */
#include "check.h"

/* The least sum from a place to another, by relaxing every link as often as there are nodes; UINT64_MAX for none. */
static uint64_t least_sum(const lent *m, size_t from, size_t to)
{
    size_t n = m->ynd->node_count;
    uint64_t *sum = malloc(n * sizeof *sum + 1), least;
    CHECK(sum);
    for (size_t p = 0; p < n; p++)
        sum[p] = p == from ? 0 : UINT64_MAX;
    for (size_t turn = 0, changed = 1; changed && turn <= n; turn++) {
        changed = 0;
        for (size_t p = 0; p < n; p++)
            for (size_t k = 0; sum[p] != UINT64_MAX && k < links_held(m, p); k++) {
                const ynd_link_entry *l = &m->links[m->nodes[p].link_start + k];
                size_t q = l->area_id == m->nodes[0].area_id ? model_node(m, l->node_id) : SIZE_MAX;
                if (q != SIZE_MAX && sum[p] + l->length < sum[q]) {
                    sum[q] = sum[p] + l->length;
                    changed = 1;
                }
            }
    }
    least = sum[to];
    free(sum);
    return least;
}

/* What is asked before the search: the number and the place, 0 where nothing is amiss. */
static uint32_t asked(const lent *m, size_t from, size_t to, size_t scratch, size_t *place)
{
    size_t n = m->ynd->node_count;
    *place = 0;
    if (from >= n || to >= n)
        return YND_NO_SUCH_PLACE;
    if (over_limit(m))
        return YND_AT_LIMIT;
    *place = m->n < n ? YND_NODES : m->l < m->ynd->link_count ? YND_LINKS : YND_PATH_SCRATCH_LIST;
    return *place < YND_PATH_SCRATCH_LIST || scratch < YND_PATH_SCRATCH * n ? YND_LENT_TOO_SHORT : 0;
}

/* The path leads there over these places, none twice, and its links add up to the distance. */
static void follow(const lent *m, size_t from, size_t to, const uint8_t *choices, const uint32_t *places, size_t count, uint32_t distance)
{
    uint32_t *visited = malloc((count + 1) * sizeof *visited);
    uint64_t sum = 0;
    size_t visits;
    CHECK(visited);
    ynd_walk_end end = model_walk(m, from, choices, count, visited, &visits);
    CHECK(end.how == YND_DONE && visits == count + 1 && visited[count] == to);
    CHECK(memcmp(visited, places, visits * sizeof *visited) == 0);
    for (size_t i = 0; i < count; i++)
        sum += m->links[m->nodes[places[i]].link_start + choices[i]].length;
    for (size_t i = 0; i < visits; i++)
        for (size_t j = 0; j < i; j++)
            CHECK(places[i] != places[j]);
    CHECK(sum == distance);
    free(visited);
}

static void with_lists(const lent *m, size_t from, size_t to, size_t s, size_t c, size_t t)
{
    uint32_t *scratch = block(s * sizeof *scratch), *places = block(t * sizeof *places), *old = block(t * sizeof *old);
    uint32_t *distance = block(sizeof *distance);
    uint8_t *choices = block(c), *kept = block(c);
    size_t *count = block(sizeof *count), *place = block(sizeof *place), at;
    uint32_t number = ynd_shortest_path(m->ynd, NODES(m), LINKS(m), from, to, scratch, s, choices, c, places, t,
        distance, count, place);
    uint32_t first = asked(m, from, to, s, &at);
    if (answer(SHORTEST_PATH, number, *place)) {
        CHECK(*count == KEPT_SIZE && memcmp(places, old, t * sizeof *places) == 0 && memcmp(choices, kept, c) == 0);
        if (first)
            CHECK(number == first && *place == at);
        else if (number == YND_UNREACHABLE)
            CHECK(*place == 0 && least_sum(m, from, to) == UINT64_MAX);
        else
            CHECK(number == YND_LENT_TOO_SHORT && *place == YND_VISITED && (c < m->ynd->node_count || t < m->ynd->node_count));
    } else {
        CHECK(first == 0 && *distance == least_sum(m, from, to) && *count < m->ynd->node_count);
        follow(m, from, to, choices, places, *count, *distance);
        CHECK(memcmp(choices + *count, kept + *count, c - *count) == 0);
        CHECK(memcmp(places + *count + 1, old + *count + 1, (t - *count - 1) * sizeof *places) == 0);
    }
    unblock(place, sizeof *place);
    unblock(count, sizeof *count);
    unblock(kept, c);
    unblock(choices, c);
    unblock(distance, sizeof *distance);
    unblock(old, t * sizeof *old);
    unblock(places, t * sizeof *places);
    unblock(scratch, s * sizeof *scratch);
}

void check_path(const lent *m, script *s)
{
    size_t n = m->ynd->node_count < 64 ? m->ynd->node_count : 64, from = byte(s), to = byte(s);
    if (n > 0 && byte(s) % 4) {
        from %= n;
        to %= n;
    }
    with_lists(m, from, to, YND_PATH_SCRATCH * n, n, n);
    if (n > 0) {
        with_lists(m, from, to, YND_PATH_SCRATCH * n - 1, n, n);
        with_lists(m, from, to, YND_PATH_SCRATCH * n, n - 1, n + 1);
    }
}
