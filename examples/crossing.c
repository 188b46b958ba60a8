/* Two cells whose round crosses from one to the other: a hall and the dock beside it. Both are drawn here, join a set,
 * and are walked, renumbered, edited, written and taken apart again. What each step did is said in plain text. */
#include <stdio.h>
#include <stdlib.h>

#include "bofrashem.h"

enum { HALL = 489, DOCK = 490, NODES = 8, LINKS = 16, STEPS = 6, SECTION = 4096 };

/* A cell with the memory that is lent for it. No node here has a junction. */
typedef struct {
    ynd_cell ynd;
    ynd_node_entry nodes[NODES];
    ynd_link_entry links[LINKS];
} cell;

/* A set of cells: its members are the first `count` of `members`, their parts of the lists one behind the other. */
typedef struct {
    size_t count;
    ynd_member members[YND_MEMBERS_MOST];
    ynd_node_entry nodes[2 * NODES];
    ynd_link_entry links[2 * LINKS];
} set;

/* A junction's, a value's and a ref's list with no entries. */
#define NONE NULL, 0, NULL, 0, NULL, 0

/* The place is looked at once the call was made. */
static void accepted(const char *what, uint32_t number, const size_t *place)
{
    if (number) {
        char text[YND_TEXT_MOST];
        ynd_refusal_text(number, text, sizeof text);
        printf("%s: refused %u %zu, %s\n", what, (unsigned)number, *place, text);
        exit(EXIT_FAILURE);
    }
}

/* ---- drawing */

static void node(cell *c, uint16_t area, float x, float y)
{
    size_t place;
    accepted("a node", ynd_add_node(&c->ynd, c->nodes, NODES, area, x, y, 0, &place), &place);
}

static void link(cell *c, size_t from, uint16_t area, uint16_t number)
{
    ynd_link_entry to;
    size_t place;
    ynd_link_to(area, number, &to);
    accepted("a link", ynd_add_link(&c->ynd, c->nodes, NODES, c->links, LINKS, from, &to, &place), &place);
}

/* The round goes by first links: hall 0, hall 1, over the threshold to dock 1, dock 2, and back to hall 0. */
static void draw(cell *hall, cell *dock)
{
    ynd_new(&hall->ynd);
    ynd_new(&dock->ynd);
    node(hall, HALL, 500, 20);
    node(hall, HALL, 508, 20);
    link(hall, 0, HALL, 1);
    link(hall, 1, DOCK, 1);
    node(dock, DOCK, 516, 30);
    node(dock, DOCK, 516, 20);
    node(dock, DOCK, 516, 10);
    link(dock, 0, DOCK, 1);
    link(dock, 1, DOCK, 2);
    link(dock, 2, HALL, 0);
    /* a place for people on foot: renumbering takes it behind the others */
    ynd_node_set_special(&dock->nodes[0], 10);
}

/* ---- the set */

/* Its parts get room for two nodes and four links more than it holds. */
static void join(set *s, const cell *c)
{
    ynd_counts sizes = { c->ynd.node_count + 2, c->ynd.link_count + 4, 0, 0, 0 };
    size_t place;
    accepted("joining", ynd_set_join(&s->count, s->members, YND_MEMBERS_MOST, s->nodes, 2 * NODES, s->links, 2 * LINKS,
        NONE, &c->ynd, c->nodes, NODES, c->links, LINKS, NONE, &sizes, &place), &place);
}

static const char *how(const ynd_walk_end *end)
{
    static const char *const HOW[] = { "done", "no such link", "left", "no such node" };
    return HOW[end->how];
}

/* The round, by the first link of each node, from the first node of the first member. */
static void walk_across(const set *s, const char *when)
{
    const uint8_t choices[STEPS] = { 0 };
    ynd_location visited[STEPS + 1];
    ynd_walk_end end;
    size_t count, place;
    accepted("walking across", ynd_set_crossing_walk(s->members, s->count, s->nodes, 2 * NODES, s->links, 2 * LINKS, 0,
        0, choices, STEPS, visited, STEPS + 1, &end, &count, &place), &place);
    printf("%s: %s after %zu link%s\n", when, how(&end), count - 1, count == 2 ? "" : "s");
    for (size_t i = 0; i < count; i++) {
        ynd_node_entry v;
        accepted("a node", ynd_member_get_node(s->members, s->count, s->nodes, 2 * NODES, visited[i].member,
            visited[i].place, &v, &place), &place);
        printf("  area %u, place %u, number %u, at %g %g\n", v.area_id, (unsigned)visited[i].place, v.node_id,
            (double)v.x, (double)v.y);
    }
}

/* The same choices in the hall's cell alone: the walk ends where it leaves, and says where to by a number. */
static void walk_plain(const set *s, const char *when)
{
    const uint8_t choices[STEPS] = { 0 };
    uint32_t visited[STEPS + 1];
    ynd_walk_end end;
    size_t count, place;
    const ynd_cell *hall = &s->members[0].ynd;
    accepted("walking", ynd_walk(hall, s->nodes, s->members[0].nodes, s->links, s->members[0].links, 0, choices, STEPS,
        visited, STEPS + 1, &end, &count, &place), &place);
    printf("%s: %s, to area %u, number %u\n", when, how(&end), (unsigned)end.area_id, (unsigned)end.node_id);
}

static void renumber(set *s, size_t member)
{
    uint32_t *scratch = malloc(YND_SCRATCH * sizeof *scratch), places[NODES];
    size_t place;
    if (!scratch) {
        fputs("no memory\n", stderr);
        exit(EXIT_FAILURE);
    }
    accepted("renumbering", ynd_set_renumber(s->members, s->count, s->nodes, 2 * NODES, s->links, 2 * LINKS, NULL, 0,
        NULL, 0, NULL, 0, scratch, YND_SCRATCH, places, NODES, member, &place), &place);
    free(scratch);
    printf("the dock is renumbered: place 0 is now place %u, place 1 place %u, place 2 place %u\n",
        (unsigned)places[0], (unsigned)places[1], (unsigned)places[2]);
}

/* A round that says its area, as a handheld gets it: the file says which of the two cells it starts in. */
static void follow(const set *s, uint16_t area)
{
    const uint8_t choices[2] = { 0 };
    uint8_t file[YND_AREA_ROUND_BYTES + 2], read[2];
    uint16_t version, said, start;
    ynd_location visited[3];
    ynd_walk_end end;
    size_t length, count, place;
    accepted("writing the round", ynd_write_round_versioned(2, area, 1, choices, 2, file, sizeof file, &length, &place),
        &place);
    accepted("reading the round", ynd_read_round_versioned(file, length, read, sizeof read, &version, &said, &start,
        &count, &place), &place);
    uint32_t number = ynd_set_follow_round(s->members, s->count, s->nodes, 2 * NODES, s->links, 2 * LINKS, version, said,
        0, start, read, count, visited, 3, &end, &count, &place);
    if (number) {
        printf("a round of area %u: refused %u\n", (unsigned)area, (unsigned)number);
        return;
    }
    printf("a round of area %u: %s, by", (unsigned)area, how(&end));
    for (size_t i = 0; i < count; i++)
        printf(" place %u of member %u%s", (unsigned)visited[i].place, (unsigned)visited[i].member,
            i + 1 < count ? "," : "\n");
}

/* One node more in the hall: its part has room, and the dock stays as it is. */
static void draw_more(set *s)
{
    size_t place;
    accepted("one node more", ynd_member_add_node(s->members, s->count, s->nodes, 2 * NODES, 0, HALL, 500, 40, 0,
        &place), &place);
    printf("the hall has %u nodes, and room for %u\n", (unsigned)s->members[0].ynd.node_count,
        (unsigned)s->members[0].nodes);
}

static void write_all(set *s)
{
    static uint8_t section[SECTION];
    for (size_t member = 0; member < s->count; member++) {
        size_t length, place;
        accepted("writing", ynd_member_write_then_read(s->members, s->count, s->nodes, 2 * NODES, s->links, 2 * LINKS,
            NONE, member, section, SECTION, &length, &place), &place);
        printf("member %zu is written and read back: %zu bytes\n", member, length);
    }
}

/* The dock's cell is copied out before it leaves. */
static void leave(set *s, cell *back)
{
    size_t place;
    accepted("handing back", ynd_set_hand_back(s->members, s->count, s->nodes, 2 * NODES, s->links, 2 * LINKS, NONE,
        DOCK, &back->ynd, back->nodes, NODES, back->links, LINKS, NONE, &place), &place);
    accepted("leaving", ynd_set_leave(s->members, s->count, s->nodes, 2 * NODES, s->links, 2 * LINKS, NONE, DOCK,
        &s->count, &place), &place);
    printf("the dock has left with %u nodes; %zu member stays\n", (unsigned)back->ynd.node_count, s->count);
}

int main(void)
{
    static cell hall, dock, back;
    static set s;
    draw(&hall, &dock);
    join(&s, &hall);
    walk_across(&s, "the hall alone");
    join(&s, &dock);
    walk_across(&s, "the round");
    walk_plain(&s, "a plain walk in the hall");
    follow(&s, HALL);
    follow(&s, DOCK);
    follow(&s, DOCK + 1);
    renumber(&s, 1);
    walk_across(&s, "the same round");
    walk_plain(&s, "the same plain walk, which is not protected");
    draw_more(&s);
    write_all(&s);
    leave(&s, &back);
    walk_across(&s, "the round without the dock");
    return EXIT_SUCCESS;
}
