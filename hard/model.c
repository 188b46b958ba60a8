#include "model.h"

uint64_t number_at(const uint8_t *section, size_t at, size_t width)
{
    uint64_t n = 0;
    while (width-- > 0)
        n = n << 8 | section[at + width];
    return n;
}

bool over_limit(const lent *m)
{
    return m->ynd->node_count > YND_NODES_MOST || m->ynd->junction_count > YND_JUNCTIONS_MOST;
}

static size_t least(size_t a, size_t b)
{
    return a < b ? a : b;
}

static size_t held(size_t start, size_t count, size_t pool)
{
    return start < pool ? least(count, pool - start) : 0;
}

size_t links_held(const lent *m, size_t p)
{
    return held(m->nodes[p].link_start, m->nodes[p].link_count, m->ynd->link_count);
}

size_t values_held(const lent *m, size_t p)
{
    const ynd_junction_entry *j = &m->junctions[p];
    return held(j->heightmap_start, (size_t)j->width * j->height, m->ynd->heightmap_count);
}

/* A link or ref of this area is the cell's own: in full or, on an island (bit 1024), without the bit. */
static bool belongs(uint16_t own, uint16_t area)
{
    return area == own || ((own & 1024) && area == (own & ~1024));
}

bool model_sound(const lent *m)
{
    static uint8_t has[65536];
    size_t n = m->ynd->node_count;
    if (n == 0)
        return true;
    uint16_t own = m->nodes[0].area_id;
    memset(has, 0, sizeof has);
    for (size_t p = 0; p < n; p++) {
        if (m->nodes[p].area_id != own || has[m->nodes[p].node_id])
            return false;
        has[m->nodes[p].node_id] = 1;
    }
    for (size_t p = 0; p < n; p++)
        for (size_t k = 0; k < links_held(m, p); k++) {
            const ynd_link_entry *l = &m->links[m->nodes[p].link_start + k];
            if (belongs(own, l->area_id) && !has[l->node_id])
                return false;
        }
    for (size_t i = 0; i < m->ynd->ref_count; i++)
        if (belongs(own, m->refs[i].area_id) && !has[m->refs[i].node_id])
            return false;
    return true;
}

size_t model_node(const lent *m, uint16_t number)
{
    size_t n = m->ynd->node_count;
    if (number < n && m->nodes[number].node_id == number)
        return number;
    for (size_t p = 0; p < n; p++)
        if (m->nodes[p].node_id == number)
            return p;
    return SIZE_MAX;
}

ynd_walk_end model_walk(const lent *m, size_t start, const uint8_t *choices, size_t n, uint32_t *visited, size_t *count)
{
    size_t at = start;
    *count = 0;
    visited[(*count)++] = (uint32_t)at;
    for (size_t i = 0; i < n; i++) {
        if (choices[i] >= links_held(m, at))
            return (ynd_walk_end){ YND_NO_LINK, 0, 0 };
        const ynd_link_entry *l = &m->links[m->nodes[at].link_start + choices[i]];
        if (!belongs(m->nodes[0].area_id, l->area_id))
            return (ynd_walk_end){ YND_LEFT, l->area_id, l->node_id };
        at = model_node(m, l->node_id);
        if (at == SIZE_MAX)
            return (ynd_walk_end){ YND_NO_NODE, 0, 0 };
        visited[(*count)++] = (uint32_t)at;
    }
    return (ynd_walk_end){ YND_DONE, 0, 0 };
}

static bool ped(const ynd_node_entry *v)
{
    unsigned kind = v->flags1 >> 3;
    return kind == 10 || kind == 14 || kind == 18;
}

void model_renumber(lent *m, uint32_t *places)
{
    static uint32_t last[65536];
    size_t n = m->ynd->node_count, next = 0, vehicles = 0;
    uint16_t own = n ? m->nodes[0].area_id : 0;
    ynd_node_entry *old = malloc(n * sizeof *old + 1);
    CHECK(old);
    if (n)
        memcpy(old, m->nodes, n * sizeof *old);
    memset(last, 0xFF, sizeof last);
    for (size_t p = 0; p < n; p++)
        last[old[p].node_id] = (uint32_t)p;
    for (int kind = 0; kind < 2; kind++) {
        for (size_t p = 0; p < n; p++)
            if (ped(&old[p]) == (kind == 1)) {
                m->nodes[next] = old[p];
                m->nodes[next].node_id = (uint16_t)next;
                places[p] = (uint32_t)next++;
            }
        if (kind == 0)
            vehicles = next;
    }
    for (size_t i = 0; i < m->ynd->link_count; i++)
        if (belongs(own, m->links[i].area_id) && last[m->links[i].node_id] != UINT32_MAX)
            m->links[i].node_id = (uint16_t)places[last[m->links[i].node_id]];
    for (size_t i = 0; i < m->ynd->ref_count; i++)
        if (belongs(own, m->refs[i].area_id) && last[m->refs[i].node_id] != UINT32_MAX)
            m->refs[i].node_id = (uint16_t)places[last[m->refs[i].node_id]];
    m->ynd->vehicle_node_count = (uint32_t)vehicles;
    m->ynd->ped_node_count = (uint32_t)(n - vehicles);
    free(old);
}

static bool same_xy(float a, float b)
{
    return ynd_bits_of(ynd_metres_xy(ynd_steps_xy(a))) == ynd_bits_of(b);
}

static bool same_z(float a, float b)
{
    return ynd_bits_of(ynd_metres_z(ynd_steps_z(a))) == ynd_bits_of(b);
}

static bool same_node(const lent *a, const lent *b, size_t p)
{
    const ynd_node_entry *v = &a->nodes[p], *w = &b->nodes[p];
    size_t n = links_held(a, p);
    return v->area_id == w->area_id && v->node_id == w->node_id && v->street_name == w->street_name && same_xy(v->x, w->x) && same_xy(v->y, w->y)
        && same_z(v->z, w->z) && memcmp(&v->flags0, &w->flags0, 5) == 0 && (v->flags5 & 7) == w->flags5 && n == links_held(b, p)
        && memcmp(&v->unused0, &w->unused0, 16) == 0 && v->unused4 == w->unused4
        && (n == 0 || memcmp(&a->links[v->link_start], &b->links[w->link_start], n * sizeof *a->links) == 0);
}

static bool same_junction(const lent *a, const lent *b, size_t p)
{
    const ynd_junction_entry *v = &a->junctions[p], *w = &b->junctions[p];
    size_t n = values_held(a, p);
    return same_xy(v->x, w->x) && same_xy(v->y, w->y) && same_z(v->min_z, w->min_z) && same_z(v->max_z, w->max_z) && v->width == w->width
        && v->height == w->height && n == values_held(b, p) && (n == 0 || memcmp(&a->heights[v->heightmap_start], &b->heights[w->heightmap_start], n) == 0);
}

bool same_written(const lent *a, const lent *b)
{
    const ynd_cell *c = a->ynd, *d = b->ynd;
    if (c->node_count != d->node_count || c->junction_count != d->junction_count || c->ref_count != d->ref_count)
        return false;
    if (c->vft != d->vft || c->vehicle_node_count != d->vehicle_node_count || c->ped_node_count != d->ped_node_count || memcmp(c->unknowns, d->unknowns, sizeof c->unknowns))
        return false;
    for (size_t p = 0; p < c->node_count; p++)
        if (!same_node(a, b, p))
            return false;
    for (size_t p = 0; p < c->junction_count; p++)
        if (!same_junction(a, b, p))
            return false;
    return c->ref_count == 0 || memcmp(a->refs, b->refs, c->ref_count * sizeof *a->refs) == 0;
}
