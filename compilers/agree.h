/* The driver of `make compilers`: the same calls on the same inputs, whichever compiler made the library.
 *
 * A run is blocks of calls. A block begins from its number alone: its random numbers and all memory that it lends are
 * made of that. So any block can be run again by itself, up to any of its calls. Each call is drawn, and so are its
 * arguments (calls.c, which compilers/calls makes of include/bofrashem.h). Its answer, its place and every list that
 * it was lent go into the block's digest, whether it was refused or not. Nothing here asks whether an answer is
 * right: hard/ does. */
#ifndef COMPILERS_AGREE_H
#define COMPILERS_AGREE_H

#include "bofrashem.h"

/* ---- Random numbers (random.c): the same on every machine ---- */

void seeded(uint64_t seed, uint64_t block);
uint64_t any(void);
/* Below `bound`, which is not 0. */
size_t below(size_t bound);
bool one_in(size_t n);
/* A place in a list of so many entries; at times one or more past it. */
size_t place_in(size_t held);
/* A length that is mostly the whole, at times less. */
size_t cut(size_t whole);
/* A float: any bits, special values, and coordinates as yards have them. */
float any_float(void);
uint32_t float_bits(void);
/* Before each call: chooses how its floats are drawn. */
void next_floats(void);
int16_t any_steps(void);
void any_bytes(void *to, size_t n);

/* ---- Digests (digest.c) ---- */

typedef struct {
    uint64_t lanes[4];
} digest;

digest empty_digest(void);
void mix(digest *d, const void *from, size_t n);
uint64_t folded(const digest *d);

/* ---- The memory that is lent (world.c) ---- */

enum {
    NODES = 512, LINKS = 4096, JUNCTIONS = 24, HEIGHTS = 2048, REFS = 96, MEMBERS = 10, SECTION = 1 << 15, ROUND = 256,
    CHOICES = 96, GIVEN = 264, NAME = 24, VISITED = 2 * NODES
};

/* A cell, and how many entries of each list are lent. */
typedef struct {
    ynd_cell ynd;
    ynd_counts lent;
    ynd_node_entry nodes[NODES];
    ynd_link_entry links[LINKS];
    ynd_junction_entry junctions[JUNCTIONS];
    uint8_t heights[HEIGHTS];
    ynd_ref_entry refs[REFS];
} yard;

/* A set of cells: `count` members, and how many entries of each list are lent. */
typedef struct {
    size_t count;
    ynd_counts lent;
    ynd_member members[MEMBERS];
    ynd_node_entry nodes[2 * NODES];
    ynd_link_entry links[2 * LINKS];
    ynd_junction_entry junctions[2 * JUNCTIONS];
    uint8_t heights[2 * HEIGHTS];
    ynd_ref_entry refs[2 * REFS];
} group;

/* All that calls are lent. What they leave in it is what later calls begin with. */
typedef struct {
    yard now, other;    /* the cell that calls work on; the cell that is handed back */
    group set;
    uint8_t system[SECTION + 8], graphics[SECTION + 8], section[SECTION + 8];   /* read from; written to */
    size_t system_len, graphics_len, written;
    size_t skew, file_skew;     /* bytes may begin at any address: sections and files do so many behind an even one */
    uint8_t file[ROUND + 8], choices[CHOICES], values[HEIGHTS], name[NAME], text[YND_TEXT_MOST + 8];
    size_t file_len, choices_len, name_len;
    ynd_link_entry given[GIVEN];
    uint32_t visited[VISITED], places[VISITED], scratch[YND_SCRATCH];
    uint64_t spare[64];     /* single entries and answers, by turns */
} world;

extern world the;

/* The memory of a block's first call. */
void new_world(void);
/* Between calls: now and then another cell, another file, an empty set, or a word changed by hand. */
void change_world(void);
uint16_t any_area(void);

/* ---- Arguments (given.c) ---- */

/* The area and the number of some node; at times of none. */
uint16_t some_area(void), some_number(void);
/* The place of a member; and its cell, by which places in it are drawn. */
size_t some_member(void), members_lent(void);
const ynd_cell *member_drawn(void);
/* The area of a member; at times another. */
uint16_t member_area(void);
/* A place among so many, which a struct made by hand may say wrongly. */
size_t place_of(uint32_t held);
uint32_t some_word(void);
uint64_t some_address(void);
uint16_t some_version(void);
const ynd_node_entry *some_node(void);
const ynd_link_entry *some_link(void);
const ynd_junction_entry *some_junction(void);
const ynd_ref_entry *some_ref(void);
const ynd_counts *some_sizes(void);
/* At most 128 bytes. */
const void *some_bytes(size_t n);
/* How many values are given for a heightmap of this size: mostly as many as it has. */
size_t values_for(size_t width, size_t height);

/* ---- One call (call.c) ---- */

/* What the arguments of the call are, as they are drawn. */
void number_given(const char *name, uint64_t value);
void *lend(const char *name, void *at, size_t bytes);
/* Memory for a struct or an array of one call, that holds `from` or, without one, a pattern. */
void *spare(const char *name, const void *from, size_t bytes);
/* Around the call itself: all arguments are drawn; its answer. */
void arguments_end(void);
void answer(const void *result, size_t bytes);

/* ---- The calls (calls.c) ---- */

typedef struct {
    const char *name;
    void (*make)(void);
    unsigned weight;
} drawn_call;

extern const drawn_call CALLS[];
extern const size_t CALL_COUNT;

/* ---- Blocks (blocks.c): what a program asks for ---- */

/* The digest of a block of so many calls. */
uint64_t block_digest(uint64_t seed, uint64_t block, uint32_t calls);
/* The same, with a line for each call: its place, its digest, its name. */
void each_digest(uint64_t seed, uint64_t block, uint32_t calls);
/* The block up to the call at a place, and what that call was given and left. */
void show_call(uint64_t seed, uint64_t block, uint32_t at);
/* How often each call is made in a block, and how often it is refused, by number. */
void count_calls(uint64_t seed, uint64_t first, uint32_t blocks, uint32_t calls);

/* ---- Text (told.c), by way of a function of the program ---- */

void told(const char *text, size_t n);
void text(const char *s);
void decimal(uint64_t v);
void hexadecimal(uint64_t v, unsigned digits);
void bytes_told(const void *from, size_t n);

#endif
