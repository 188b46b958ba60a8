/* Reads a yard from a file, checks it, lists near nodes, finds a shortest path, walks, follows the same way as a round
 * file, renumbers, walks again, writes it, and says so in plain text.
 *
 *     handheld FILE [START [CHOICE ..]]
 *
 * FILE holds the system section of a cell (graphics empty). The walk starts at the place START (0) and takes at each node the
 * link CHOICE by its place; with no choice it takes the last link of each node, eight times. */
#include <stdio.h>
#include <stdlib.h>

#include "bofrashem.h"

enum { CHOICES_MOST = 256, STEPS = 8, REACH = 80, SHOWN = 12, MEMORY_MOST = 16 << 20 };

/* A cell with the memory that is lent for it. All of it is ours: the library keeps nothing. */
typedef struct {
    ynd_cell ynd;
    ynd_counts room;
    ynd_node_entry *nodes;
    ynd_link_entry *links;
    ynd_junction_entry *junctions;
    uint8_t *heights;
    ynd_ref_entry *refs;
} yard;

static int refused(const char *what, uint32_t number, size_t place)
{
    char text[YND_TEXT_MOST];
    ynd_refusal_text(number, text, sizeof text);
    printf("%s: refused %u %zu, %s\n", what, (unsigned)number, place, text);
    return EXIT_FAILURE;
}

/* A list of n entries; one where n is 0, so that NULL means no memory. */
static void *list(size_t n, size_t size)
{
    void *p = calloc(n ? n : 1, size);
    if (!p) {
        fputs("no memory\n", stderr);
        exit(EXIT_FAILURE);
    }
    return p;
}

static yard lend(ynd_counts room)
{
    yard y = { .room = room };
    ynd_new(&y.ynd);
    y.nodes = list(room.nodes, sizeof *y.nodes);
    y.links = list(room.links, sizeof *y.links);
    y.junctions = list(room.junctions, sizeof *y.junctions);
    y.heights = list(room.heights, sizeof *y.heights);
    y.refs = list(room.refs, sizeof *y.refs);
    return y;
}

static void give_back(yard *y)
{
    free(y->nodes);
    free(y->links);
    free(y->junctions);
    free(y->heights);
    free(y->refs);
}

/* How many bytes a cell's lists take. A small file can ask for hundreds of megabytes, by ranges that overlap. */
static size_t bytes_of(const ynd_counts *held)
{
    return held->nodes * sizeof(ynd_node_entry) + held->links * sizeof(ynd_link_entry)
        + held->junctions * sizeof(ynd_junction_entry) + held->heights + held->refs * sizeof(ynd_ref_entry);
}

/* The whole file, or NULL. */
static uint8_t *whole_file(const char *name, size_t *length)
{
    FILE *f = fopen(name, "rb");
    uint8_t *bytes = list((size_t)YND_SECTION_MOST + 1, 1);
    if (!f) {
        free(bytes);
        return NULL;
    }
    *length = fread(bytes, 1, (size_t)YND_SECTION_MOST + 1, f);
    fclose(f);
    return bytes;
}

static uint32_t walk(const yard *y, size_t start, const uint8_t *choices, size_t n, uint32_t *visited, size_t *count, size_t *place)
{
    ynd_walk_end end;
    uint32_t number = ynd_walk(&y->ynd, y->nodes, y->room.nodes, y->links, y->room.links, start, choices, n, visited, n + 1, &end, count, place);
    if (number)
        return number;
    static const char *const HOW[] = { "done", "no such link", "left the cell", "no such node" };
    printf("  %s after %zu link%s", HOW[end.how], *count - 1, *count == 2 ? "" : "s");
    if (end.how == YND_LEFT)
        printf(", to area %u, node %u", (unsigned)end.area_id, (unsigned)end.node_id);
    printf("\n");
    for (size_t i = 0; i < *count; i++) {
        const ynd_node_entry *v = &y->nodes[visited[i]];
        printf("  place %u, number %u, at %g %g %g, %u link%s%s\n", (unsigned)visited[i], v->node_id, (double)v->x, (double)v->y, (double)v->z,
            v->link_count, v->link_count == 1 ? "" : "s", ynd_node_is_ped_node(v) ? ", ped node" : "");
    }
    return 0;
}

/* Whether a link of this area stays in a cell of the area `own`: on an island it may lack the bit. */
static bool stays(uint16_t own, uint16_t area)
{
    return area == own || (ynd_is_island_area(own) && area == own - 1024);
}

/* The last link of each node on the way, as long as it stays in the cell. */
static size_t last_links(const yard *y, size_t at, uint8_t *choices)
{
    size_t n = 0, place;
    while (n < STEPS && at < y->ynd.node_count && y->nodes[at].link_count > 0) {
        const ynd_node_entry *v = &y->nodes[at];
        const ynd_link_entry *l = &y->links[v->link_start + v->link_count - 1u];
        bool found = false;
        choices[n++] = (uint8_t)(v->link_count - 1);
        if (!stays(y->nodes[0].area_id, l->area_id) || ynd_node(&y->ynd, y->nodes, y->room.nodes, l->node_id, &found, &at, &place) || !found)
            break;
    }
    return n;
}

static void heightmaps(const yard *y)
{
    size_t room = y->room.heights, count, place;
    uint8_t *values = list(room, 1);
    for (size_t j = 0; j < y->ynd.junction_count; j++) {
        const ynd_junction_entry *at = &y->junctions[j];
        if (ynd_shown_values(&y->ynd, y->junctions, y->room.junctions, y->heights, y->room.heights, j, values, room, &count, &place))
            continue;
        printf("junction %zu: corner %g %g, heights %g to %g, %u by %u values:", j, (double)at->x, (double)at->y, (double)at->min_z, (double)at->max_z, at->width, at->height);
        for (size_t i = 0; i < count; i++)
            printf(" %u", values[i]);
        printf("\n");
    }
    free(values);
}

/* The nodes within twenty metres of a tap beside the node at a place, and the nearest to it. */
static uint32_t near_nodes(const yard *y, size_t at, size_t *place)
{
    size_t count, nearest;
    uint64_t square;
    bool found;
    if (at >= y->ynd.node_count)
        return 0;
    int16_t east = (int16_t)(ynd_steps_xy(y->nodes[at].x) + 3), north = ynd_steps_xy(y->nodes[at].y);
    uint32_t *places = list(y->room.nodes, sizeof *places);
    uint32_t number = ynd_within(&y->ynd, y->nodes, y->room.nodes, east, north, REACH, places, y->room.nodes, &count,
        place);
    if (!number)
        number = ynd_nearest(&y->ynd, y->nodes, y->room.nodes, east, north, &found, &nearest, &square, place);
    if (!number) {
        printf("within %d m of %g %g:", REACH / 4, east / 4.0, north / 4.0);
        for (size_t i = 0; i < count; i++)
            printf(" %u", (unsigned)places[i]);
        printf("; the nearest is place %zu, %llu square steps away\n", nearest, (unsigned long long)square);
    }
    free(places);
    return number;
}

/* Writes the way as a round file, reads that, and follows it: it starts at the node's number, not at its place. */
static uint32_t round_file(const yard *y, size_t start, const uint8_t *choices, size_t n, size_t *place)
{
    uint8_t file[YND_ROUND_BYTES + CHOICES_MOST], read[CHOICES_MOST];
    uint32_t visited[CHOICES_MOST + 1];
    size_t length, count, visits;
    uint16_t number;
    ynd_walk_end end;
    uint32_t refusal = ynd_write_round(y->nodes[start].node_id, choices, n, file, sizeof file, &length, place);
    if (!refusal)
        refusal = ynd_read_round(file, length, read, CHOICES_MOST, &number, &count, place);
    if (!refusal)
        refusal = ynd_follow_round(&y->ynd, y->nodes, y->room.nodes, y->links, y->room.links, number, read, count,
            visited, count + 1, &end, &visits, place);
    if (!refusal) {
        printf("the round file:");
        for (size_t i = 0; i < length; i++)
            printf(" %02x", file[i]);
        printf("; followed from number %u it visits %zu nodes, the last at place %u\n", (unsigned)number, visits,
            (unsigned)visited[visits - 1]);
    }
    return refusal;
}

/* The shortest path from the node at a place to the last node. */
static uint32_t shortest_path(const yard *y, size_t from, size_t *place)
{
    size_t n = y->ynd.node_count, count = 0;
    uint32_t distance = 0;
    if (from >= n)
        return 0;
    uint32_t *scratch = list(YND_PATH_SCRATCH * n, sizeof *scratch), *places = list(n, sizeof *places);
    uint8_t *choices = list(n, 1);
    uint32_t number = ynd_shortest_path(&y->ynd, y->nodes, y->room.nodes, y->links, y->room.links, from, n - 1, scratch,
        YND_PATH_SCRATCH * n, choices, n, places, n, &distance, &count, place);
    if (number == YND_UNREACHABLE) {
        printf("no path from place %zu to place %zu\n", from, n - 1);
        number = 0;
    } else if (!number) {
        printf("shortest path from place %zu to place %zu: %u m, %zu links by", from, n - 1, (unsigned)distance, count);
        for (size_t i = 0; i <= count && i < SHOWN; i++)
            printf(" %u", (unsigned)places[i]);
        printf(count < SHOWN ? "\n" : " ..\n");
    }
    free(scratch);
    free(places);
    free(choices);
    return number;
}

/* Renumbers and walks again: the same way, wherever its nodes now stand. */
static int renumber_and_walk(yard *y, size_t start, const uint8_t *choices, size_t n, uint32_t *visited)
{
    size_t count, place;
    uint32_t *scratch = list(YND_SCRATCH, sizeof *scratch), *places = list(y->room.nodes, sizeof *places);
    uint32_t number = ynd_renumber(&y->ynd, y->nodes, y->room.nodes, y->links, y->room.links, y->junctions, y->room.junctions, y->heights, y->room.heights,
        y->refs, y->room.refs, scratch, YND_SCRATCH, places, y->room.nodes, &place);
    if (!number) {
        printf("renumbered: %u nodes first, then %u ped nodes; place %zu is now place %u\n", (unsigned)y->ynd.vehicle_node_count,
            (unsigned)y->ynd.ped_node_count, start, (unsigned)places[start]);
        printf("the same walk from place %u:\n", (unsigned)places[start]);
        number = walk(y, places[start], choices, n, visited, &count, &place);
    }
    free(scratch);
    free(places);
    return number ? refused("renumbering", number, place) : EXIT_SUCCESS;
}

static int write_back(yard *y)
{
    ynd_addresses at;
    size_t total, length, place;
    uint32_t number = ynd_lay_out(y->ynd.ref_count, y->ynd.heightmap_count, y->ynd.junction_count, y->ynd.link_count,
        y->ynd.node_count, &at, &total, &place);
    if (number)
        return refused("laying out", number, place);
    uint8_t *section = list(total, 1);
    number = ynd_write_then_read(&y->ynd, y->nodes, y->room.nodes, y->links, y->room.links, y->junctions, y->room.junctions, y->heights, y->room.heights,
        y->refs, y->room.refs, section, total, &length, &place);
    if (!number)
        printf("written and read back: %zu bytes, nodes at 0x%llx\n", length, (unsigned long long)at.nodes);
    free(section);
    return number ? refused("writing", number, place) : EXIT_SUCCESS;
}

static int use(yard *y, size_t start, const uint8_t *given, size_t n)
{
    size_t count, place;
    bool sound = false;
    uint32_t *scratch = list(YND_SCRATCH, sizeof *scratch), visited[CHOICES_MOST + 1];
    uint8_t choices[CHOICES_MOST];
    uint32_t number = ynd_sound(&y->ynd, y->nodes, y->room.nodes, y->links, y->room.links, y->refs, y->room.refs, scratch, YND_SCRATCH, &sound, &place);
    free(scratch);
    if (number)
        return refused("soundness", number, place);
    printf("sound: %s\n", sound ? "yes" : "no");
    heightmaps(y);
    number = near_nodes(y, start, &place);
    if (number)
        return refused("near nodes", number, place);
    number = shortest_path(y, start, &place);
    if (number)
        return refused("shortest path", number, place);
    for (size_t i = 0; i < n; i++)
        choices[i] = given[i];
    if (n == 0)
        n = last_links(y, start, choices);
    printf("walk from place %zu:\n", start);
    number = walk(y, start, choices, n, visited, &count, &place);
    if (number)
        return refused("walk", number, place);
    number = round_file(y, start, choices, n, &place);
    if (number)
        return refused("round file", number, place);
    int status = renumber_and_walk(y, start, choices, n, visited);
    return status ? status : write_back(y);
}

int main(int argc, char **argv)
{
    if (argc < 2 || argc > 3 + CHOICES_MOST) {
        fputs("usage: handheld FILE [START [CHOICE ..]]\n", stderr);
        return EXIT_FAILURE;
    }
    size_t length, place, start = argc > 2 ? strtoul(argv[2], NULL, 10) : 0, n = argc > 3 ? (size_t)argc - 3 : 0;
    uint8_t choices[CHOICES_MOST];
    for (size_t i = 0; i < n; i++)
        choices[i] = (uint8_t)strtoul(argv[3 + i], NULL, 10);
    uint8_t *section = whole_file(argv[1], &length);
    if (!section) {
        perror(argv[1]);
        return EXIT_FAILURE;
    }
    ynd_counts counts;
    int status = EXIT_FAILURE;
    uint32_t number = ynd_count(section, length, NULL, 0, &counts, &place);
    if (!number && bytes_of(&counts) > MEMORY_MOST) {
        printf("%s: asks for %zu bytes\n", argv[1], bytes_of(&counts));
    } else if (!number) {
        yard y = lend(counts);
        number = ynd_read(&y.ynd, section, length, NULL, 0, y.nodes, counts.nodes, y.links, counts.links, y.junctions, counts.junctions,
            y.heights, counts.heights, y.refs, counts.refs, &place);
        printf("%s: nodes %zu links %zu junctions %zu refs %zu\n", argv[1], counts.nodes, counts.links, counts.junctions, counts.refs);
        if (!number)
            status = use(&y, start, choices, n);
        give_back(&y);
    }
    free(section);
    return number ? refused(argv[1], number, place) : status;
}
