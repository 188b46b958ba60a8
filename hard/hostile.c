/* What a hostile file can make a caller ask for, and what a call on such a cell can take: small files whose ranges
 * overlap, a walk whose numbers are not places, a link added in front of many. Times are of the processor. */
#include <stdio.h>
#include <stdlib.h>
#include <string.h>
#include <time.h>

#include "bofrashem.h"

enum { SYSTEM = 0x50000000, SIDE = 255, VALUES = SIDE * SIDE, AREA = 489, MANY_LINKS = 400000 };

static void need(bool good, const char *what)
{
    if (!good) {
        fprintf(stderr, "%s\n", what);
        exit(EXIT_FAILURE);
    }
}

static void *memory(size_t n, size_t size)
{
    void *p = calloc(n ? n : 1, size);
    need(p != NULL, "no memory");
    return memset(p, 1, n * size);
}

static double milliseconds(clock_t since)
{
    return (double)(clock() - since) * 1e3 / CLOCKS_PER_SEC;
}

static void number_at(uint8_t *section, size_t at, uint32_t number)
{
    for (size_t k = 0; k < 4; k++)
        section[at + k] = (uint8_t)(number >> 8 * k);
}

/* What counting says of a section, what its lists take, and how long both take once the memory is there. */
static void ask(const char *what, const uint8_t *section, size_t length)
{
    ynd_counts held;
    ynd_cell ynd;
    size_t place;
    clock_t begun = clock();
    need(ynd_count(section, length, NULL, 0, &held, &place) == 0, what);
    double counting = milliseconds(begun);
    void *nodes = memory(held.nodes, sizeof(ynd_node_entry)), *links = memory(held.links, sizeof(ynd_link_entry));
    void *junctions = memory(held.junctions, sizeof(ynd_junction_entry)), *heights = memory(held.heights, 1);
    void *refs = memory(held.refs, sizeof(ynd_ref_entry));
    size_t asked = sizeof ynd + held.nodes * sizeof(ynd_node_entry) + held.links * sizeof(ynd_link_entry)
        + held.junctions * sizeof(ynd_junction_entry) + held.heights + held.refs * sizeof(ynd_ref_entry);
    begun = clock();
    need(ynd_read(&ynd, section, length, NULL, 0, nodes, held.nodes, links, held.links, junctions, held.junctions,
        heights, held.heights, refs, held.refs, &place) == 0, what);
    printf("%s: %zu bytes ask for %zu; counted in %.2f ms, read in %.0f ms\n", what, length, asked, counting,
        milliseconds(begun));
    printf("    nodes %zu links %zu junctions %zu heights %zu refs %zu\n", held.nodes, held.links, held.junctions,
        held.heights, held.refs);
    free(nodes);
    free(links);
    free(junctions);
    free(heights);
    free(refs);
}

/* The records of a node with 31 links and of a junction with the largest heightmap, as they are written. */
static void records(uint8_t node[YND_NODE_RECORD_BYTES], uint8_t junction[YND_JUNCTION_RECORD_BYTES])
{
    static uint8_t heights[VALUES], section[VALUES + 4096];
    ynd_node_entry nodes[1];
    ynd_link_entry links[YND_NODE_LINKS_WRITTEN], to;
    ynd_junction_entry junctions[1], largest = { .width = SIDE, .height = SIDE };
    ynd_cell ynd;
    ynd_addresses at;
    size_t place, length, total;
    ynd_new(&ynd);
    ynd_link_to(AREA, 0, &to);
    need(ynd_add_node(&ynd, nodes, 1, AREA, 0, 0, 0, &place) == 0, "a node");
    for (int k = 0; k < YND_NODE_LINKS_WRITTEN; k++)
        need(ynd_add_link(&ynd, nodes, 1, links, YND_NODE_LINKS_WRITTEN, 0, &to, &place) == 0, "a link");
    uint8_t *values = memory(VALUES, 1);
    need(ynd_add_junction(&ynd, junctions, 1, heights, VALUES, &largest, values, VALUES, &place) == 0, "a junction");
    need(ynd_lay_out(0, VALUES, 1, YND_NODE_LINKS_WRITTEN, 1, &at, &total, &place) == 0, "the layout");
    need(ynd_write(&ynd, nodes, 1, links, YND_NODE_LINKS_WRITTEN, junctions, 1, heights, VALUES, NULL, 0, section,
        sizeof section, &length, &place) == 0, "writing");
    memcpy(node, section + (at.nodes - SYSTEM), YND_NODE_RECORD_BYTES);
    memcpy(junction, section + (at.junctions - SYSTEM), YND_JUNCTION_RECORD_BYTES);
    free(values);
}

/* A section of so many equal nodes and junctions; all arrays but theirs lie over others. */
static uint8_t *section_of(size_t nodes, size_t junctions, size_t values_at, size_t length)
{
    uint8_t *s = memory(length, 1), node[YND_NODE_RECORD_BYTES], junction[YND_JUNCTION_RECORD_BYTES];
    size_t behind = YND_ROOT_BYTES + nodes * YND_NODE_RECORD_BYTES;
    records(node, junction);
    memset(s, 0, length);
    for (size_t i = 0; i < nodes; i++)
        memcpy(s + YND_ROOT_BYTES + i * sizeof node, node, sizeof node);
    for (size_t i = 0; i < junctions; i++)
        memcpy(s + behind + i * sizeof junction, junction, sizeof junction);
    number_at(s, 16, SYSTEM + YND_ROOT_BYTES);
    number_at(s, 24, (uint32_t)nodes);
    number_at(s, 40, SYSTEM);
    number_at(s, 48, nodes ? YND_NODE_LINKS_WRITTEN : 0);
    number_at(s, 56, (uint32_t)(SYSTEM + behind));
    number_at(s, 96, (uint32_t)junctions);
    number_at(s, 64, (uint32_t)(SYSTEM + values_at));
    number_at(s, 100, VALUES);
    number_at(s, 80, SYSTEM);
    number_at(s, 88, nodes ? 0xFFFFFFFF : 0);
    return s;
}

static void files(void)
{
    size_t records = YND_ROOT_BYTES + YND_JUNCTIONS_MOST * YND_JUNCTION_RECORD_BYTES;
    size_t all = records + YND_NODES_MOST * YND_NODE_RECORD_BYTES;
    uint8_t *apart = section_of(0, YND_JUNCTIONS_MOST, records, records + VALUES);
    uint8_t *over = section_of(0, YND_JUNCTIONS_MOST, 0, VALUES);
    uint8_t *most = section_of(YND_NODES_MOST, YND_JUNCTIONS_MOST, 0, all);
    ask("junctions of the same values", apart, records + VALUES);
    ask("the same, the values over the records", over, VALUES);
    ask("the most that any file asks for", most, all);
    free(apart);
    free(over);
    free(most);
}

/* The last node, numbered 0, has a link to itself, and every other stands before it. By an index where there is a
 * scratch. */
static void walk(const char *what, const ynd_cell *ynd, const ynd_node_entry *nodes, const ynd_link_entry *links,
    size_t start, uint32_t *scratch)
{
    enum { N = YND_NODES_MOST, C = YND_CHOICES_MOST };
    uint8_t *choices = memory(C, 1);
    uint32_t *visited = memory(N, sizeof *visited);
    ynd_walk_end end;
    size_t count, place;
    memset(choices, 0, C);
    clock_t begun = clock();
    uint32_t number = scratch
        ? ynd_walk_indexed(ynd, nodes, N, links, 1, start, choices, C, visited, N, scratch, YND_SCRATCH, &end, &count,
            &place)
        : ynd_walk(ynd, nodes, N, links, 1, start, choices, C, visited, N, &end, &count, &place);
    need(number == 0 && end.how == YND_DONE, "the walk");
    double taken = milliseconds(begun);
    printf("%s: a walk of %d choices takes %.1f ms, %.0f ns a choice\n", what, C, taken, taken * 1e6 / C);
    free(choices);
    free(visited);
}

static void walks(ynd_node_entry *nodes)
{
    ynd_cell ynd;
    ynd_link_entry back;
    uint32_t *scratch = memory(YND_SCRATCH, sizeof *scratch);
    uint32_t *places = memory(YND_NODES_MOST, sizeof *places);
    size_t last = YND_NODES_MOST - 1, place;
    ynd_new(&ynd);
    ynd_link_to(AREA, 0, &back);
    for (size_t i = 0; i < YND_NODES_MOST; i++)
        ynd_node_new(AREA, (uint16_t)(last - i), 0, 0, 0, &nodes[i]);
    nodes[last].link_count = 1;
    ynd.node_count = YND_NODES_MOST;
    ynd.link_count = 1;
    walk("65,536 nodes, numbers the other way round", &ynd, nodes, &back, last, NULL);
    walk("the same, by an index", &ynd, nodes, &back, last, scratch);
    clock_t begun = clock();
    need(ynd_renumber(&ynd, nodes, YND_NODES_MOST, &back, 1, NULL, 0, NULL, 0, NULL, 0, scratch, YND_SCRATCH, places,
        YND_NODES_MOST, &place) == 0, "renumbering");
    printf("renumbered in %.1f ms\n", milliseconds(begun));
    walk("the same, renumbered", &ynd, nodes, &back, places[last], NULL);
    free(scratch);
    free(places);
}

static void links(ynd_node_entry *nodes)
{
    ynd_cell ynd;
    ynd_link_entry *list = memory(MANY_LINKS + 100, sizeof *list), to;
    size_t place;
    ynd_new(&ynd);
    ynd_link_to(AREA, 0, &to);
    for (size_t i = 0; i < YND_NODES_MOST; i++) {
        nodes[i].link_count = 6;
        nodes[i].link_start = (uint32_t)(6 * i);
    }
    ynd.node_count = YND_NODES_MOST;
    ynd.link_count = MANY_LINKS;
    clock_t begun = clock();
    for (int k = 0; k < 100; k++)
        need(ynd_add_link(&ynd, nodes, YND_NODES_MOST, list, MANY_LINKS + 100, 0, &to, &place) == 0, "a link");
    printf("a link added before %d others of 65,536 nodes: %.2f ms\n", MANY_LINKS, milliseconds(begun) / 100);
    free(list);
}

int main(void)
{
    ynd_node_entry *nodes = memory(YND_NODES_MOST, sizeof *nodes);
    files();
    walks(nodes);
    links(nodes);
    free(nodes);
    return EXIT_SUCCESS;
}
