#define _DEFAULT_SOURCE
#include "lent.h"

#ifdef HARD_HEAP

void *block(size_t bytes)
{
    void *p = malloc(bytes);
    CHECK(p || bytes == 0);
    if (p)
        memset(p, KEPT, bytes);
    return p;
}

void unblock(void *p, size_t bytes)
{
    (void)bytes;
    free(p);
}

#else

#include <sys/mman.h>
#include <unistd.h>

/* Areas of a few sizes, kept for the next block. A block stands at the end of its area, before a page that may not be touched; what
 * stands before it holds BEFORE. */
enum { CLASSES = 6, AREAS = 96, BEFORE = 0x5A, WATCHED = 64 };
static const size_t SIZES[CLASSES] = { 4096, 16384, 65536, 262144, 1 << 20, 1 << 25 };
static struct { uint8_t *end; bool used; } areas[CLASSES][AREAS];

static unsigned class_of(size_t bytes)
{
    unsigned c = 0;
    while (c < CLASSES && SIZES[c] < bytes + WATCHED)
        c++;
    CHECK(c < CLASSES);
    return c;
}

static uint8_t *map_area(size_t size)
{
    size_t page = (size_t)sysconf(_SC_PAGESIZE);
    uint8_t *p = mmap(NULL, size + 2 * page, PROT_NONE, MAP_PRIVATE | MAP_ANONYMOUS | MAP_NORESERVE, -1, 0);
    CHECK(p != MAP_FAILED);
    CHECK(mprotect(p + page, size, PROT_READ | PROT_WRITE) == 0);
    return p + page + size;
}

void *block(size_t bytes)
{
    unsigned c = class_of(bytes), i = 0;
    while (i < AREAS && areas[c][i].used)
        i++;
    CHECK(i < AREAS);
    if (!areas[c][i].end)
        areas[c][i].end = map_area(SIZES[c]);
    areas[c][i].used = true;
    uint8_t *p = areas[c][i].end - bytes;
    memset(p - WATCHED, BEFORE, WATCHED);
    memset(p, KEPT, bytes);
    return p;
}

void unblock(void *p, size_t bytes)
{
    unsigned c = class_of(bytes), i = 0;
    uint8_t *at = p;
    for (size_t k = 1; k <= WATCHED; k++)
        CHECK(at[-(ptrdiff_t)k] == BEFORE);
    while (i < AREAS && !(areas[c][i].used && areas[c][i].end == at + bytes))
        i++;
    CHECK(i < AREAS);
    areas[c][i].used = false;
}

#endif

void *block_of(const void *from, size_t bytes)
{
    void *p = block(bytes);
    if (bytes)
        memcpy(p, from, bytes);
    return p;
}

lent lend(size_t n, size_t l, size_t j, size_t h, size_t r)
{
    lent m = { .n = n, .l = l, .j = j, .h = h, .r = r };
    m.ynd = block(sizeof *m.ynd);
    m.nodes = block(n * sizeof *m.nodes);
    m.links = block(l * sizeof *m.links);
    m.junctions = block(j * sizeof *m.junctions);
    m.heights = block(h);
    m.refs = block(r * sizeof *m.refs);
    return m;
}

static void bring(void *to, size_t room, const void *from, size_t bytes)
{
    size_t least = room < bytes ? room : bytes;
    if (least)
        memcpy(to, from, least);
}

lent lend_more(const lent *m, size_t n, size_t l, size_t j, size_t h, size_t r)
{
    lent c = lend(n, l, j, h, r);
    *c.ynd = *m->ynd;
    bring(c.nodes, n * sizeof *c.nodes, m->nodes, m->n * sizeof *c.nodes);
    bring(c.links, l * sizeof *c.links, m->links, m->l * sizeof *c.links);
    bring(c.junctions, j * sizeof *c.junctions, m->junctions, m->j * sizeof *c.junctions);
    bring(c.heights, h, m->heights, m->h);
    bring(c.refs, r * sizeof *c.refs, m->refs, m->r * sizeof *c.refs);
    return c;
}

lent lend_copy(const lent *m)
{
    return lend_more(m, m->n, m->l, m->j, m->h, m->r);
}

void unlend(lent *m)
{
    unblock(m->ynd, sizeof *m->ynd);
    unblock(m->nodes, m->n * sizeof *m->nodes);
    unblock(m->links, m->l * sizeof *m->links);
    unblock(m->junctions, m->j * sizeof *m->junctions);
    unblock(m->heights, m->h);
    unblock(m->refs, m->r * sizeof *m->refs);
}

static bool same_bytes(const void *a, const void *b, size_t bytes)
{
    return bytes == 0 || memcmp(a, b, bytes) == 0;
}

bool same_lent(const lent *a, const lent *b)
{
    return a->n == b->n && a->l == b->l && a->j == b->j && a->h == b->h && a->r == b->r && same_bytes(a->ynd, b->ynd, sizeof *a->ynd)
        && same_bytes(a->nodes, b->nodes, a->n * sizeof *a->nodes) && same_bytes(a->links, b->links, a->l * sizeof *a->links)
        && same_bytes(a->junctions, b->junctions, a->j * sizeof *a->junctions) && same_bytes(a->heights, b->heights, a->h)
        && same_bytes(a->refs, b->refs, a->r * sizeof *a->refs);
}
