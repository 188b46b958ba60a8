/* Bofrashem: the calls on path node cells, for programs in C and C++. Link libbofrashem. The guide is
 * docs/LINKING.md.
 *
 * Memory. Nothing in the library allocates, frees or keeps anything: every list, section and struct is the caller's,
 * before, during and after a call. A cell is one ynd_cell beside five lists: nodes, links, junctions, heights
 * (heightmap values), refs. A list is passed as pointer and length, the length counted in entries; it may be longer
 * than what the cell holds. An empty list has length 0, and its pointer may be NULL. What is lent for changing (no
 * const) may not overlap anything else that is lent to the same call. Pointers other than those of empty lists may
 * not be NULL, and are aligned as their type says.
 *
 * Refusals. A call that can be refused returns the refusal's number, or 0 (YND_ACCEPTED), and always sets *place: to
 * the place that the number speaks of, or 0. A refusal changes nothing else that was lent, but for the scratch of
 * ynd_shortest_path, which says so. Where several causes fit, the first one in the order given with the call is
 * returned, with the lowest place. "14 over a limit" is a struct made by hand, with over 65,536 nodes or 4,096
 * junctions, whichever lists the call is lent. A place, link or value that the struct counts and the lists don't hold
 * is 7.
 *
 * Rounding. The processor has to round to nearest while a call runs, as it does when a C program begins (fesetround);
 * else cells of the grid and lengths may be off by one, for one. Flushing subnormal numbers to zero changes no answer.
 * docs/LINKING.md, "Rounding", has what was tried.
 *
 * Threads. There is no state beside what is lent: calls on different memory may run at the same time.
 *
 * Costs. A call with no "Time:" in its comment takes the same time whatever the cell holds. "Linear in" names what is
 * gone through once: n nodes, l links, j junctions, h heightmap values, r refs. A list longer than what the cell
 * holds costs nothing. No call takes more memory than it is lent, and some kilobytes of stack (docs/LINKING.md).
 *
 * Places count from 0. A node's place is its index in the list; its number (node_id) is what links name. Where each
 * node's number is its place, as after renumbering, a node is found by its number at once; elsewhere by a look at up
 * to n nodes. */
#ifndef BOFRASHEM_H
#define BOFRASHEM_H

#include <float.h>
#include <stdbool.h>
#include <stddef.h>
#include <stdint.h>

/* The version of this header. ynd_version() is that of the library that a program runs with: the same number, or a
 * later one with the same major number. What each version changed for a caller: CHANGELOG.md. */
#define BOFRASHEM_VERSION_MAJOR 1
#define BOFRASHEM_VERSION_MINOR 2
#define BOFRASHEM_VERSION_PATCH 0
#define BOFRASHEM_VERSION "1.2.0"
#define BOFRASHEM_VERSION_NUMBER \
    (BOFRASHEM_VERSION_MAJOR * 10000 + BOFRASHEM_VERSION_MINOR * 100 + BOFRASHEM_VERSION_PATCH)

#if defined(__cplusplus) && __cplusplus >= 201703L     /* where a refusal is dropped the compiler warns */
#define YND_NODISCARD [[nodiscard]]
#elif !defined(__cplusplus) && defined(__STDC_VERSION__) && __STDC_VERSION__ >= 202000L
#define YND_NODISCARD [[nodiscard]]
#elif defined(__GNUC__)
#define YND_NODISCARD __attribute__((warn_unused_result))
#else
#define YND_NODISCARD
#endif

#ifdef __cplusplus
extern "C" {
#define YND_ASSERT(test, text) static_assert(test, text)
#else
#define YND_ASSERT(test, text) _Static_assert(test, text)
#endif

/* The refusals.
 *
 * | Number | Cause | Place |
 * |---|---|---|
 * | 1 | 1 to 111 system bytes | 0 |
 * | 2 | a section over 16,777,216 bytes | 0 system, 1 graphics |
 * | 3 | an array's address or extent is bad | 0 nodes, 1 links, 2 junctions, 3 heightmap, 4 refs |
 * | 4 | a node's link start, or start plus count, over the list's length | the node |
 * | 5 | a junction's heightmap start, or start plus width × height, over the bytes' length | the junction |
 * | 6 | more than 65,536 nodes or 4,096 junctions | 0 nodes, 1 junctions |
 * | 7 | lent memory too short | as for 3, 5 section, 6 scratch, 7 new places, 8 list/round, 9 path scratch, 10 members |
 * | 8 | over 31 links on writing | the node |
 * | 9 | links before this node, which has links, over 65,535 on writing | the node |
 * | 10 | heightmap bytes before a junction over 65,535 on writing | the junction |
 * | 11 | refs over 65,535 on writing | 0 |
 * | 12 | heightmap values not width × height | 0 |
 * | 13 | no such place or member, area not in the set, round's start that no node has, or grid number over 31 | 0 |
 * | 14 | over a limit: 65,536 nodes of cell or set, 4,096 junctions, 255 links a node, 9 members, 32-bit counts | 0 |
 * | 15 | a round file's first five bytes aren't the mark and a version that the reader takes | 0 |
 * | 16 | a round file under 9 bytes (version 2: 11), or not that plus its count; over 65,535 choices on writing | 0 |
 * | 17 | no walk joins the two places | 0 |
 * | 18 | the area is already in the set | 0 |
 * | 19 | a version 2 round's area isn't the cell's | 0 |
 */
enum ynd_refusal {
    YND_ACCEPTED = 0,
    YND_FEW_SYSTEM_BYTES = 1,
    YND_SECTION_TOO_LONG = 2,
    YND_BAD_ARRAY = 3,
    YND_BAD_LINK_RANGE = 4,
    YND_BAD_HEIGHTMAP_RANGE = 5,
    YND_TOO_MANY = 6,
    YND_LENT_TOO_SHORT = 7,
    YND_OVER_31_LINKS = 8,
    YND_LINKS_BEFORE_NODE = 9,
    YND_HEIGHTS_BEFORE_JUNCTION = 10,
    YND_TOO_MANY_REFS = 11,
    YND_VALUES_NOT_SIZE = 12,
    YND_NO_SUCH_PLACE = 13,
    YND_AT_LIMIT = 14,
    YND_NO_ROUND_FILE = 15,
    YND_BAD_ROUND_LENGTH = 16,
    YND_UNREACHABLE = 17,
    YND_AREA_IN_SET = 18,
    YND_OTHER_AREA = 19
};

/* The places of the refusals 3 (0 to 4) and 7 (0 to 10). YND_VISITED is any list of places that a call
 * fills, the choices of a shortest path, and the memory of a round's choices or file. YND_MEMBERS is the list of the
 * members of a set. */
enum ynd_list {
    YND_NODES = 0,
    YND_LINKS = 1,
    YND_JUNCTIONS = 2,
    YND_HEIGHTS = 3,
    YND_REFS = 4,
    YND_SECTION = 5,
    YND_SCRATCH_LIST = 6,
    YND_NEW_PLACES = 7,
    YND_VISITED = 8,
    YND_PATH_SCRATCH_LIST = 9,
    YND_MEMBERS = 10
};

/* Sizes and limits. */
enum {
    YND_ROOT_BYTES = 112,
    YND_PAGE_BLOCK_BYTES = 1040,
    YND_NODE_RECORD_BYTES = 40,
    YND_LINK_RECORD_BYTES = 8,
    YND_JUNCTION_RECORD_BYTES = 12,
    YND_REF_RECORD_BYTES = 8,
    YND_SECTION_MOST = 16777216,    /* bytes of a section that is read */
    YND_NODES_MOST = 65536,         /* nodes of a cell */
    YND_JUNCTIONS_MOST = 4096,      /* junctions of a cell */
    YND_NODE_LINKS_MOST = 255,      /* links of a node in memory */
    YND_CHOICES_MOST = 65535,       /* choices of a round that is written */
    YND_ROUND_BYTES = 9,            /* bytes of a round file of version 1 before its choices */
    YND_AREA_ROUND_BYTES = 11,      /* the same of version 2, which says the area */
    YND_NODE_LINKS_WRITTEN = 31,    /* links of a node that is written */
    YND_SCRATCH = 65536,            /* entries of the scratch that ynd_renumber and ynd_sound are lent */
    YND_PATH_SCRATCH = 4,           /* entries for each node of the scratch that ynd_shortest_path is lent */
    YND_MEMBERS_MOST = 9,           /* members of a set, of YND_NODES_MOST nodes together */
    YND_GRID = 32,                  /* grid cells along x and y */
    YND_FILE_NAME_BYTES = 13,
    YND_ROOT_WORDS = 28,
    YND_TEXT_MOST = 128             /* bytes that hold any text of ynd_refusal_text and its zero */
};

/* A cell: the words of the root, and how many entries the five lists hold. */
typedef struct ynd_cell {
    uint32_t vft;
    uint32_t vehicle_node_count;    /* as read; set by renumbering */
    uint32_t ped_node_count;
    uint32_t unknowns[7];           /* unk24, unk34, unk48, unk4c, unk5c, unk68, unk6c of the root */
    uint32_t node_count;
    uint32_t link_count;            /* links of the list, also those that no node has any more */
    uint32_t junction_count;
    uint32_t heightmap_count;       /* heightmap values of the list, likewise */
    uint32_t ref_count;
} ynd_cell;

/* A node. Its links are link_count entries of the links, from link_start on. The five unused fields of the file's
 * record are the caller's: they stay with the node and are written. */
typedef struct ynd_node_entry {
    uint16_t area_id;
    uint16_t node_id;
    uint32_t street_name;
    float x, y, z;
    uint8_t flags0, flags1, flags2, flags3, flags4, flags5;
    uint8_t link_count;
    uint8_t zero;
    uint32_t link_start;
    uint32_t unused0, unused1, unused2, unused3;
    uint16_t unused4;
    uint16_t zeros;
} ynd_node_entry;

/* A link to the node that has this area and number. */
typedef struct ynd_link_entry {
    uint16_t area_id;
    uint16_t node_id;
    uint8_t flags0, flags1, flags2;
    uint8_t length;
} ynd_link_entry;

/* A junction. Its heightmap is width * height entries of the heights, from heightmap_start on. */
typedef struct ynd_junction_entry {
    float x, y, min_z, max_z;
    uint8_t width, height;
    uint16_t zero;
    uint32_t heightmap_start;
} ynd_junction_entry;

/* A ref: the junction (by place) of the node that has this area and number. */
typedef struct ynd_ref_entry {
    uint16_t area_id;
    uint16_t node_id;
    uint16_t junction_id;
    uint16_t unk0;
} ynd_ref_entry;

/* How many entries a file holds, in the order of the lists. */
typedef struct ynd_counts {
    size_t nodes, links, junctions, heights, refs;
} ynd_counts;

/* How a walk ended; for YND_LEFT the area and number that the link names, else 0. */
enum ynd_walk_how { YND_DONE = 0, YND_NO_LINK = 1, YND_LEFT = 2, YND_NO_NODE = 3 };
typedef struct ynd_walk_end {
    uint32_t how;
    uint32_t area_id, node_id;
} ynd_walk_end;

/* What a walk shows: of a node (position by its bits; junction by its place, if has_junction is 1), .. */
typedef struct ynd_seen_node {
    size_t area_id, street_name, x_bits, y_bits, z_bits, flags[6], unused[5], link_count, has_junction, junction;
} ynd_seen_node;

/* .. of a junction (corner and heights by their bits), .. */
typedef struct ynd_seen_junction {
    uint32_t x_bits, y_bits, min_z_bits, max_z_bits, width, height;
} ynd_seen_junction;

/* .. and of the link chosen. */
typedef struct ynd_seen_link {
    uint8_t found, flags0, flags1, flags2, length;
} ynd_seen_link;

/* A member's entry in the list of a set's members: the cell's own words, and how many entries its parts of the set's
 * five lists have. */
typedef struct ynd_member {
    ynd_cell ynd;
    uint32_t nodes, links, junctions, heights, refs;
} ynd_member;

/* A node that a crossing walk visits: its member, by its place in the list of members, and its place there. */
typedef struct ynd_location {
    uint32_t member, place;
} ynd_location;

/* A part of a section: 0 system, 1 graphics. */
typedef struct ynd_part {
    size_t section, offset, length;
} ynd_part;

/* The addresses of the five blocks of a written section. */
typedef struct ynd_addresses {
    uint64_t refs, heightmap, junctions, links, nodes;
} ynd_addresses;

/* The archive is 64-bit and little-endian code for x86-64 or aarch64. It has these structs too, so their layouts have
 * to be these. */
YND_ASSERT(sizeof(size_t) == 8 && sizeof(float) == 4 && sizeof(bool) == 1, "a 64-bit machine");
YND_ASSERT(FLT_RADIX == 2 && FLT_MANT_DIG == 24 && FLT_MAX_EXP == 128, "float is IEEE 754 binary32");
#ifdef __BYTE_ORDER__
YND_ASSERT(__BYTE_ORDER__ == __ORDER_LITTLE_ENDIAN__, "a little-endian machine");
#endif
YND_ASSERT(sizeof(ynd_cell) == 15 * 4 && offsetof(ynd_cell, unknowns) == 3 * 4 && offsetof(ynd_cell, node_count) == 10 * 4
    && offsetof(ynd_cell, ref_count) == 14 * 4, "fifteen words");
YND_ASSERT(sizeof(ynd_node_entry) == 13 * 4 && offsetof(ynd_node_entry, node_id) == 2 && offsetof(ynd_node_entry, street_name) == 4
    && offsetof(ynd_node_entry, x) == 8 && offsetof(ynd_node_entry, z) == 16 && offsetof(ynd_node_entry, flags0) == 20
    && offsetof(ynd_node_entry, flags4) == 24 && offsetof(ynd_node_entry, link_count) == 26
    && offsetof(ynd_node_entry, link_start) == 28 && offsetof(ynd_node_entry, unused0) == 32
    && offsetof(ynd_node_entry, unused4) == 48, "thirteen words");
YND_ASSERT(sizeof(ynd_link_entry) == 4 * 2 && offsetof(ynd_link_entry, node_id) == 2 && offsetof(ynd_link_entry, flags0) == 4
    && offsetof(ynd_link_entry, flags2) == 6 && offsetof(ynd_link_entry, length) == 7, "four numbers of 16 bits");
YND_ASSERT(sizeof(ynd_junction_entry) == 6 * 4 && offsetof(ynd_junction_entry, max_z) == 12 && offsetof(ynd_junction_entry, width) == 16
    && offsetof(ynd_junction_entry, height) == 17 && offsetof(ynd_junction_entry, heightmap_start) == 20, "six words");
YND_ASSERT(sizeof(ynd_ref_entry) == 4 * 2 && offsetof(ynd_ref_entry, junction_id) == 4, "four numbers of 16 bits");
YND_ASSERT(sizeof(ynd_member) == 20 * 4 && offsetof(ynd_member, nodes) == 15 * 4 && offsetof(ynd_member, refs) == 19 * 4
    && sizeof(ynd_location) == 2 * 4, "twenty words, two words");
YND_ASSERT(sizeof(ynd_counts) == 5 * 8 && sizeof(ynd_walk_end) == 3 * 4 && sizeof(ynd_seen_node) == 19 * 8
    && sizeof(ynd_seen_junction) == 6 * 4 && sizeof(ynd_seen_link) == 5 && sizeof(ynd_part) == 3 * 8
    && sizeof(ynd_addresses) == 5 * 8, "answers");
#undef YND_ASSERT

/* ---- Version and texts ---- */

/* The version of the library, made of its three parts as BOFRASHEM_VERSION_NUMBER is. Never refused. */
uint32_t ynd_version(void);

/* What a refusal's number says in words: "accepted" for 0, the cause of the table above for 1 to 19 ("times" for its
 * sign), "no refusal has this number" for all others. As much of it as leaves room for a zero goes to the front of
 * `text` as bytes of ASCII, with the zero behind it; later bytes stay, and of none nothing is stored. Returns the
 * length of the whole text, the zero aside: as snprintf does. YND_TEXT_MOST bytes always do. Never refused. */
size_t ynd_refusal_text(uint32_t number, char *text, size_t text_len);

/* ---- Reading ---- */

/* How many entries of each kind a file holds: what ynd_read has to be lent. Stores nothing but `counts`. A system
 * section of no bytes is a yard not drawn yet: it holds nothing. Time: linear in the nodes and junctions of the
 * file. Ranges may overlap, so that a small file can count far more than its bytes hold: hold the counts to a limit
 * of your own before memory is asked for (docs/LINKING.md, "Files that nobody vouches for"). Refused, in this
 * order: 2, 1, 3, 6, 4, 5. */
YND_NODISCARD
uint32_t ynd_count(
    const uint8_t *system, size_t system_len, const uint8_t *graphics, size_t graphics_len, ynd_counts *counts,
    size_t *place);

/* A cell that holds nothing. Fills `ynd`. Never refused. */
void ynd_new(ynd_cell *ynd);

/* Reads a cell from its two sections into the lent lists, from their front on; later entries stay. `ynd` gets the
 * counts and the words of the root; what it held before does not matter. A system section of no bytes gives the
 * cell of ynd_new and leaves the lists. The sections may be given back after the call. Time: linear in what
 * ynd_count says. Refused, in this order: 2, 1, 3, 6, 4, 5, then 7 at 0 to 4 where a list is shorter than ynd_count
 * says. */
YND_NODISCARD
uint32_t ynd_read(
    ynd_cell *ynd, const uint8_t *system, size_t system_len, const uint8_t *graphics, size_t graphics_len,
    ynd_node_entry *nodes, size_t nodes_len, ynd_link_entry *links, size_t links_len,
    ynd_junction_entry *junctions, size_t junctions_len, uint8_t *heights, size_t heights_len,
    ynd_ref_entry *refs, size_t refs_len, size_t *place);

/* ---- Renumbering ---- */

/* Here and below: a link or ref is of the own area if its area_id is the first node's or, where the first node's
 * carries the island's bit (1024), the first node's without the bit. */

/* Renumbers: nodes that are no ped nodes come first, then ped nodes, each in their old order, numbered by place.
 * Links and refs of the own area follow; both node counts of `ynd` are set. `places` gets the new place of the node
 * at each old place. The scratch holds anything after an accepted call. Time: linear in n, l and r. Refused, in
 * this order: 14 over a limit; 7 at 0 to 4 where a list is shorter than its count, 7 at 6 where the scratch has
 * under YND_SCRATCH entries, 7 at 7 where `places` has fewer entries than there are nodes. */
YND_NODISCARD
uint32_t ynd_renumber(
    ynd_cell *ynd, ynd_node_entry *nodes, size_t nodes_len, ynd_link_entry *links, size_t links_len,
    const ynd_junction_entry *junctions, size_t junctions_len, const uint8_t *heights, size_t heights_len,
    ynd_ref_entry *refs, size_t refs_len, uint32_t *scratch, size_t scratch_len,
    uint32_t *places, size_t places_len, size_t *place);

/* ---- Writing ---- */

/* Writes the cell into `section`, from its first byte on; later bytes stay. `length` gets how many bytes were
 * written. Time: linear in what is written. Refused, in this order: 14 over a limit, 12 where a junction made by
 * hand has fewer than width × height of the values that the struct counts, 8 and 9 node by node, 10, 11, 7 at 0 to
 * 4 where a list is shorter than its count, 7 at 5 where the section is too short. Of a list that is shorter than its
 * count 12 and 8 to 10 are asked of the entries that are lent: a node of 32 links, of which 31 are lent, is 7 at 1.
 * What is written is never refused on reading, but for memory (7). */
YND_NODISCARD
uint32_t ynd_write(
    const ynd_cell *ynd, const ynd_node_entry *nodes, size_t nodes_len,
    const ynd_link_entry *links, size_t links_len, const ynd_junction_entry *junctions, size_t junctions_len,
    const uint8_t *heights, size_t heights_len, const ynd_ref_entry *refs, size_t refs_len,
    uint8_t *section, size_t section_len, size_t *length, size_t *place);

/* Writes the cell into `section` and reads just those bytes back into the cell's own lists. `length` gets how many
 * bytes were written. Time: linear in what is written. Refused as ynd_write is; a cell made by hand is also refused
 * with 7 at 0 to 4 where a list is too short for copies of ranges that overlap. A refusal leaves cell, lists and
 * section as they were. */
YND_NODISCARD
uint32_t ynd_write_then_read(
    ynd_cell *ynd, ynd_node_entry *nodes, size_t nodes_len, ynd_link_entry *links, size_t links_len,
    ynd_junction_entry *junctions, size_t junctions_len, uint8_t *heights, size_t heights_len,
    ynd_ref_entry *refs, size_t refs_len, uint8_t *section, size_t section_len, size_t *length, size_t *place);

/* ---- Walks and soundness ---- */

/* Walks from the node at place `start`, by a byte a choice: each byte chooses a link by its place among the node's
 * links. `end` gets how the walk ended, `visited` the places from its front on (later entries stay), `count` how
 * many they are: one more than the links followed. Time: a node is found by its number for each choice, so that
 * where numbers are not places each may look at n nodes: renumber a cell that was read before long walks, or bound
 * the choices. Refused, in this order: 13 no such place; 14 over a limit; 7 at 0 and 1 where a list is shorter than
 * its count; 7 at 8 where `visited` is too short (choices_len + 1 entries always do). */
YND_NODISCARD
uint32_t ynd_walk(
    const ynd_cell *ynd, const ynd_node_entry *nodes, size_t nodes_len,
    const ynd_link_entry *links, size_t links_len, size_t start, const uint8_t *choices, size_t choices_len,
    uint32_t *visited, size_t visited_len, ynd_walk_end *end, size_t *count, size_t *place);

/* As ynd_walk, with a scratch by which the node with a number is found at once: for long walks in a cell that isn't
 * renumbered. The scratch then holds at each number the first place that has it, its other entries stay; a refusal
 * leaves it as it was. Time: linear in n and in the choices, whatever the numbers, but that of ynd_walk where
 * `visited` has no more entries than there are choices. Refused, in this order: 13 no such place; 14 over a limit;
 * 7 at 0 and 1 where a list is shorter than its count; 7 at 6 where the scratch has under YND_SCRATCH entries; 7 at 8
 * where `visited` is too short (choices_len + 1 entries always do, and spare that). */
YND_NODISCARD
uint32_t ynd_walk_indexed(
    const ynd_cell *ynd, const ynd_node_entry *nodes, size_t nodes_len,
    const ynd_link_entry *links, size_t links_len, size_t start, const uint8_t *choices, size_t choices_len,
    uint32_t *visited, size_t visited_len, uint32_t *scratch, size_t scratch_len,
    ynd_walk_end *end, size_t *count, size_t *place);

/* Whether the cell is sound: all nodes have one area, their numbers differ, and each link and ref of the own area
 * names a node of the cell. The scratch then holds at each number the last place that has it. Time: linear in n,
 * the nodes' links and r. Refused, in this order: 14 over a limit; 7 at 0, 1 and 4 where a list is shorter than its
 * count; 7 at 6 where the scratch has under YND_SCRATCH entries. */
YND_NODISCARD
uint32_t ynd_sound(
    const ynd_cell *ynd, const ynd_node_entry *nodes, size_t nodes_len,
    const ynd_link_entry *links, size_t links_len, const ynd_ref_entry *refs, size_t refs_len,
    uint32_t *scratch, size_t scratch_len, bool *sound, size_t *place);

/* ---- What a walk shows ---- */

/* What a walk shows of the node at place `at`. Fills `shown`. Time: linear in r. Refused, in this order: 13 no such
 * place; 14 over a limit; 7 at 0, 1, 2 and 4 where a list is shorter than its count. */
YND_NODISCARD
uint32_t ynd_shown_node(
    const ynd_cell *ynd, const ynd_node_entry *nodes, size_t nodes_len,
    const ynd_link_entry *links, size_t links_len, const ynd_junction_entry *junctions, size_t junctions_len,
    const ynd_ref_entry *refs, size_t refs_len, size_t at, ynd_seen_node *shown, size_t *place);

/* What a walk shows of the junction at place `at`, its values aside (ynd_shown_values). Fills `shown`. Refused, in
 * this order: 13 no such place; 14 over a limit; 7 at 2 where a list is shorter than its count. */
YND_NODISCARD
uint32_t ynd_shown_junction(
    const ynd_cell *ynd, const ynd_junction_entry *junctions, size_t junctions_len, size_t at,
    ynd_seen_junction *shown, size_t *place);

/* Copies the heightmap values of the junction at place `at` to the front of `values` (later entries stay) and how
 * many they are into `count`: 65,025 entries always do. Time: linear in the values. Refused, in this order: 13 no
 * such place; 14 over a limit; 7 at 2 and 3 where a list is shorter than its count; 7 at 3 where `values` is too
 * short. */
YND_NODISCARD
uint32_t ynd_shown_values(
    const ynd_cell *ynd, const ynd_junction_entry *junctions, size_t junctions_len,
    const uint8_t *heights, size_t heights_len, size_t at, uint8_t *values, size_t values_len, size_t *count,
    size_t *place);

/* What a walk shows of the link that a byte chooses at place `at`: `shown` gets found = 1 and the link's flags and
 * length, or five zeros where there is no such link. Refused, in this order: 13 no such place; 14 over a limit; 7
 * at 0 and 1 where a list is shorter than its count. */
YND_NODISCARD
uint32_t ynd_shown_link(
    const ynd_cell *ynd, const ynd_node_entry *nodes, size_t nodes_len,
    const ynd_link_entry *links, size_t links_len, size_t at, uint8_t choice, ynd_seen_link *shown,
    size_t *place);

/* ---- Lookups. Nothing found is no refusal ---- */

/* The place of the node that has a number: `found` says whether there is one, `at` gets its place (else `at`
 * stays). Time: at once where the node at the place of that number has it, else linear in n. Refused: 14 over a
 * limit; 7 at 0 where a list is shorter than its count. */
YND_NODISCARD
uint32_t ynd_node(
    const ynd_cell *ynd, const ynd_node_entry *nodes, size_t nodes_len, uint16_t node_id, bool *found,
    size_t *at, size_t *place);

/* The place of the junction that the refs give to a node, by area and number: `found`, and then `at` (else `at`
 * stays). A ref of the own area counts as naming the first node's area, with the island's bit. Time: linear in r.
 * Refused: 14 over a limit; 7 at 0 and 4 where a list is shorter than its count. */
YND_NODISCARD
uint32_t ynd_junction_of(
    const ynd_cell *ynd, const ynd_node_entry *nodes, size_t nodes_len,
    const ynd_ref_entry *refs, size_t refs_len, uint16_t area_id, uint16_t node_id, bool *found, size_t *at,
    size_t *place);

/* The cell's own area, the first node's: `found` is false in a cell with no node, and `area` stays. Refused: 14
 * over a limit; 7 at 0 where a list is shorter than its count. */
YND_NODISCARD
uint32_t ynd_area_of_cell(
    const ynd_cell *ynd, const ynd_node_entry *nodes, size_t nodes_len, bool *found, uint32_t *area,
    size_t *place);

/* ---- Nodes within reach of a point. Point, radius and distances count quarter-metre steps ---- */

/* The places of all nodes whose stored x and y (as writing stores them) lie at most `radius` from the point, each
 * once and no other: `count` gets how many they are, the first entries of `places` their places, later entries
 * stay. The nearest comes first: they ascend by squared distance, equal distances by place. Radius 0 lists the
 * nodes exactly there. Time: linear in n, with k log k for k places listed; n are gone through once more where
 * `places` is shorter than n. Refused, in this order: 14 a struct over a limit; 7 at 0 where a list is shorter than
 * its count; 7 at 8 where `places` has fewer entries than there are such nodes (node_count entries always do, and
 * spare a count). */
YND_NODISCARD
uint32_t ynd_within(
    const ynd_cell *ynd, const ynd_node_entry *nodes, size_t nodes_len, int16_t x, int16_t y, uint16_t radius,
    uint32_t *places, size_t places_len, size_t *count, size_t *place);

/* The node nearest to the point, the lowest place where distances are equal: `found` is false in a cell with no
 * node; else `at` gets its place and `square` its squared distance (else they stay). Time: linear in n. Refused, in
 * this order: 14 a struct over a limit; 7 at 0 where a list is shorter than its count. */
YND_NODISCARD
uint32_t ynd_nearest(
    const ynd_cell *ynd, const ynd_node_entry *nodes, size_t nodes_len, int16_t x, int16_t y, bool *found,
    size_t *at, uint64_t *square, size_t *place);

/* ---- Round files, and rounds followed. A round is the number of its start node and a byte a choice. Its file has the
 * mark RND, version 1 (two bytes), the number (two), the count of choices (two) and the choices; low bytes first ---- */

/* Reads a round file: `start` gets the number, `count` how many choices there are, the first entries of `choices`
 * the choices, later entries stay (YND_CHOICES_MOST entries always do). Time: linear in the choices. Refused, in
 * this order: 15 the first five bytes aren't the mark and version 1; 16 under 9 bytes, or another length than 9
 * plus the count; 7 at 8 where `choices` has fewer entries than the count. */
YND_NODISCARD
uint32_t ynd_read_round(
    const uint8_t *file, size_t file_len, uint8_t *choices, size_t choices_len, uint16_t *start, size_t *count,
    size_t *place);

/* Writes a round file of 9 + choices_len bytes: `length` gets how many they are, later bytes of `file` stay. Time:
 * linear in the choices. Refused, in this order: 16 over 65,535 choices; 7 at 8 where `file` is shorter. */
YND_NODISCARD
uint32_t ynd_write_round(
    uint16_t start, const uint8_t *choices, size_t choices_len, uint8_t *file, size_t file_len, size_t *length,
    size_t *place);

/* Follows a round: the walk from the place that ynd_node finds for the number `start`, with all that ynd_walk
 * leaves. Renumbering gives nodes new numbers: a file from before it starts at whichever node then has its number,
 * so write it again with the node's new number. Time: that of ynd_node and of ynd_walk. Refused, in this order: 14
 * over a limit; 7 at 0 where the nodes are fewer than their count; 13 no node has the number; 7 at 1 where the
 * links are fewer than their count; 7 at 8 where `visited` is too short (choices_len + 1 entries always do). */
YND_NODISCARD
uint32_t ynd_follow_round(
    const ynd_cell *ynd, const ynd_node_entry *nodes, size_t nodes_len,
    const ynd_link_entry *links, size_t links_len, uint16_t start, const uint8_t *choices, size_t choices_len,
    uint32_t *visited, size_t visited_len, ynd_walk_end *end, size_t *count, size_t *place);

/* As ynd_follow_round, with a scratch as ynd_walk_indexed has it: for long rounds in a cell that isn't renumbered.
 * What is said there of the scratch and of time holds here. Refused, in this order: 14 over a limit; 7 at 0 where the
 * nodes are fewer than their count; 13 no node has the number; 7 at 1 where the links are fewer than their count; 7 at
 * 6 where the scratch has under YND_SCRATCH entries; 7 at 8 where `visited` is too short (choices_len + 1 entries
 * always do). */
YND_NODISCARD
uint32_t ynd_follow_round_indexed(
    const ynd_cell *ynd, const ynd_node_entry *nodes, size_t nodes_len,
    const ynd_link_entry *links, size_t links_len, uint16_t start, const uint8_t *choices, size_t choices_len,
    uint32_t *visited, size_t visited_len, uint32_t *scratch, size_t scratch_len,
    ynd_walk_end *end, size_t *count, size_t *place);

/* ---- Rounds that say which cell they are of. Version 2 of a round file has the area (two bytes) after the version;
 * all else is as in version 1. A version 1 round is of the cell that it is followed in ---- */

/* Reads a round file of version 1 or 2: `version` gets which (1 or 2), `area` the area of version 2, or 0 for
 * version 1; all else is as for ynd_read_round. Write a round back in the version that it was read in. Time: linear
 * in the choices. Refused, in this order: 15 the first five bytes aren't the mark and version 1 or 2; 16 under 9
 * bytes, or another length than 9 plus the count (in version 2: 11); 7 at 8 where `choices` has fewer entries than
 * the count. */
YND_NODISCARD
uint32_t ynd_read_round_versioned(
    const uint8_t *file, size_t file_len, uint8_t *choices, size_t choices_len, uint16_t *version, uint16_t *area,
    uint16_t *start, size_t *count, size_t *place);

/* Writes a round file of this version: 9 + choices_len bytes in version 1, which has no area (`area` is not looked
 * at), 11 + choices_len in version 2; `length` gets how many they are, later bytes of `file` stay. Time: linear in
 * the choices. Refused, in this order: 15 a version that is neither 1 nor 2; 16 over 65,535 choices; 7 at 8 where
 * `file` is shorter. */
YND_NODISCARD
uint32_t ynd_write_round_versioned(
    uint16_t version, uint16_t area, uint16_t start, const uint8_t *choices, size_t choices_len,
    uint8_t *file, size_t file_len, size_t *length, size_t *place);

/* Follows a round of this version, as ynd_follow_round follows one of version 1: of version 2 only in the cell
 * whose own area (the first node's, with the island's bit; 0 in a cell with no node) is `area`. In version 1 `area`
 * is not looked at. Time: that of ynd_node and of ynd_walk. Refused, in this order: 15 a version that is neither 1
 * nor 2; 19 a version 2 round whose area isn't the cell's, asked of the nodes that are lent; 14 over a limit; 7 at 0
 * where the nodes are fewer than their count; 13 no node has the number; 7 at 1 where the links are fewer than their
 * count; 7 at 8 where `visited` is too short (choices_len + 1 entries always do). */
YND_NODISCARD
uint32_t ynd_follow_round_versioned(
    const ynd_cell *ynd, const ynd_node_entry *nodes, size_t nodes_len,
    const ynd_link_entry *links, size_t links_len, uint16_t version, uint16_t area, uint16_t start,
    const uint8_t *choices, size_t choices_len, uint32_t *visited, size_t visited_len, ynd_walk_end *end,
    size_t *count, size_t *place);

/* ---- Sets of cells. A set is a list of members beside five lists, which hold all members' nodes, links, junctions,
 * heights and refs, one member's part after the other's in the order of joining. A part may have more entries than
 * the member's cell holds. At most YND_MEMBERS_MOST members, of YND_NODES_MOST nodes together. A member's area is
 * its cell's own, 0 if it has no node. "14 over a limit" is a set made by hand: over nine members, over 65,536 nodes
 * together, or a member over a cell's limits. "7 at 0 to 4" is one of the five lists that is shorter than the members'
 * parts together, or a member's part that is shorter than its count, as the entries of `members` say both ---- */

/* A cell joins: what `ynd` says of its lists is copied behind the other members' parts, and its own parts get
 * `sizes` entries, at least as many as the cell holds. The set's members are the first `count` of `members`;
 * `count` then is one more. Time: linear in what is copied. Refused, in this order: 18 a member has the cell's
 * area; 14 a tenth member, more than 65,536 nodes together, or over a limit; 7 at 0 to 4 where the set's list has
 * no room for `sizes` entries more, the cell's list is shorter than its count, or `sizes` is less than that or
 * passes 32 bits; 7 at 10 where `members` has no free entry. */
YND_NODISCARD
uint32_t ynd_set_join(
    size_t *count, ynd_member *members, size_t members_len, ynd_node_entry *nodes, size_t nodes_len,
    ynd_link_entry *links, size_t links_len, ynd_junction_entry *junctions, size_t junctions_len,
    uint8_t *heights, size_t heights_len, ynd_ref_entry *refs, size_t refs_len, const ynd_cell *ynd,
    const ynd_node_entry *new_nodes, size_t new_nodes_len, const ynd_link_entry *new_links, size_t new_links_len,
    const ynd_junction_entry *new_junctions, size_t new_junctions_len, const uint8_t *new_heights,
    size_t new_heights_len, const ynd_ref_entry *new_refs, size_t new_refs_len, const ynd_counts *sizes,
    size_t *place);

/* The member of this area leaves, the first joined of several; the parts behind its own move up. `members` are the
 * set's and no more; `count` gets how many are left, the first of `members`. Time: linear in the parts that move
 * up. Refused, in this order: 13 no member has the area; 14 over a limit; 7 at 0 to 4. */
YND_NODISCARD
uint32_t ynd_set_leave(
    ynd_member *members, size_t members_len, ynd_node_entry *nodes, size_t nodes_len,
    ynd_link_entry *links, size_t links_len, ynd_junction_entry *junctions, size_t junctions_len,
    uint8_t *heights, size_t heights_len, ynd_ref_entry *refs, size_t refs_len, uint16_t area, size_t *count,
    size_t *place);

/* The cell that ynd_set_leave would take out by this area, copied into lists of the caller's own; the set stays as
 * it is, and ynd_set_leave follows where it is to leave. `ynd` gets its words (what it held before does not
 * matter), the five lists its entries from their front on; later entries stay. `members` are the set's and no more.
 * Time: linear in what is copied. Refused, in this order: 13 no member has the area; 14 over a limit; 7 at 0 to 4;
 * 7 at 0 to 4 where the caller's own list is shorter than the cell's count. */
YND_NODISCARD
uint32_t ynd_set_hand_back(
    const ynd_member *members, size_t members_len, const ynd_node_entry *nodes, size_t nodes_len,
    const ynd_link_entry *links, size_t links_len, const ynd_junction_entry *junctions, size_t junctions_len,
    const uint8_t *heights, size_t heights_len, const ynd_ref_entry *refs, size_t refs_len, uint16_t area,
    ynd_cell *ynd, ynd_node_entry *to_nodes, size_t to_nodes_len, ynd_link_entry *to_links, size_t to_links_len,
    ynd_junction_entry *to_junctions, size_t to_junctions_len, uint8_t *to_heights, size_t to_heights_len,
    ynd_ref_entry *to_refs, size_t to_refs_len, size_t *place);

/* Renumbers the member at a place of `members` (the set's and no more), as ynd_renumber does a cell. Links of the
 * others that name its area, and that aren't of their own, follow where it is the first of its area; their refs
 * don't. `places` gets the new place of each of its nodes. The scratch holds anything after an accepted call. A
 * plain ynd_walk in another member may show its YND_LEFT with another number afterwards; a crossing walk from the
 * same node goes the same way in a sound set. Time: linear in the member's n, l and r, in YND_SCRATCH and in the
 * links of the others. Refused, in this order: 13 no such member; 14 over a limit; 7 at 0 to 4; 7 at 6 where the
 * scratch has under YND_SCRATCH entries; 7 at 7 where `places` has fewer entries than the member has nodes. */
YND_NODISCARD
uint32_t ynd_set_renumber(
    ynd_member *members, size_t members_len, ynd_node_entry *nodes, size_t nodes_len,
    ynd_link_entry *links, size_t links_len, const ynd_junction_entry *junctions, size_t junctions_len,
    const uint8_t *heights, size_t heights_len, ynd_ref_entry *refs, size_t refs_len,
    uint32_t *scratch, size_t scratch_len, uint32_t *places, size_t places_len, size_t member, size_t *place);

/* Walks from the node at place `start` of a member, as ynd_walk does, and goes on in the first member of the area
 * that a link names where it leaves its cell: YND_LEFT if no member has it, YND_NO_NODE if that one hasn't the
 * number. `visited` gets member and place of each node. `members` are the set's and no more. Time: that of
 * ynd_walk, in each member by its own numbers. Refused, in this order: 13 no such member or place; 14 over a limit;
 * 7 at 0 and 1; 7 at 8 where `visited` is too short (choices_len + 1 entries always do). */
YND_NODISCARD
uint32_t ynd_set_crossing_walk(
    const ynd_member *members, size_t members_len, const ynd_node_entry *nodes, size_t nodes_len,
    const ynd_link_entry *links, size_t links_len, size_t member, size_t start,
    const uint8_t *choices, size_t choices_len, ynd_location *visited, size_t visited_len, ynd_walk_end *end,
    size_t *count, size_t *place);

/* Whether the set is sound: each member is as ynd_sound asks it of a cell, and each link that leads into a member
 * names a node there. `members` are the set's and no more. The scratch then holds each member's numbers, one member
 * after the other, each with its last place. Time: linear in all nodes, their links and refs for each member: at
 * most nine times the whole set. Refused, in this order: 14 over a limit; 7 at 0, 1 and 4; 7 at 6 where the scratch
 * has under YND_SCRATCH entries. */
YND_NODISCARD
uint32_t ynd_set_sound(
    const ynd_member *members, size_t members_len, const ynd_node_entry *nodes, size_t nodes_len,
    const ynd_link_entry *links, size_t links_len, const ynd_ref_entry *refs, size_t refs_len,
    uint32_t *scratch, size_t scratch_len, bool *sound, size_t *place);

/* The member of this area, the first joined of several: `found` says whether there is one, `member` gets it, or stays.
 * An empty member's area is 0. `members` are the set's and no more; parts are cut where the nodes end. Never refused. */
void ynd_set_member_of_area(
    const ynd_member *members, size_t members_len, const ynd_node_entry *nodes, size_t nodes_len, uint16_t area,
    bool *found, size_t *member);

/* Follows a round of this version across the set, as ynd_set_crossing_walk walks: from the node that has the number
 * `start` in the member of `area` (version 2, `member` is not looked at) or in the member named (version 1, `area`
 * is not looked at). `members` are the set's and no more. Time: that of ynd_member_node and of
 * ynd_set_crossing_walk. Refused, in this order: 15 a version that is neither 1 nor 2; 19 a version 2 round whose
 * area is no member's; 13 no such member; 14 over a limit; 7 at 0 to 4, at 2 to 4 for a member's part alone, since
 * those lists aren't lent; 13 no node of the member has the number; 7 at 8 where `visited` is too short (choices_len
 * + 1 entries always do). */
YND_NODISCARD
uint32_t ynd_set_follow_round(
    const ynd_member *members, size_t members_len, const ynd_node_entry *nodes, size_t nodes_len,
    const ynd_link_entry *links, size_t links_len, uint16_t version, uint16_t area, size_t member, uint16_t start,
    const uint8_t *choices, size_t choices_len, ynd_location *visited, size_t visited_len, ynd_walk_end *end,
    size_t *count, size_t *place);

/* ---- Calls on one member of a set, each named as the cell's call that it is: the member at a place of `members`
 * (the set's and no more) is the cell, and its lists are its parts of the five lists. So 7 where a list has no free
 * entry is here 7 where the member's part has none, whatever stands behind it. All else in the six lists stays: the
 * other members, and what is behind all parts. Each is refused first, in this order, with "the set's": 13 no such
 * member; 14 over a limit; 7 at 0 to 4. A list that a call isn't lent counts as long enough for the parts, but 7 comes
 * for it too where a member's part, by its entry, is shorter than its count. What follows with each call are the
 * cell's own causes. Time: that of the cell's call ---- */

/* Writes the member as ynd_write does a cell: into `section` from its first byte on; `length` gets how many bytes
 * were written. Refused, in this order: the set's; 12, 8 and 9 node by node, 10 and 11 as ynd_write is; 7 at 5 where
 * the section is too short. */
YND_NODISCARD
uint32_t ynd_member_write(
    const ynd_member *members, size_t members_len, const ynd_node_entry *nodes, size_t nodes_len,
    const ynd_link_entry *links, size_t links_len, const ynd_junction_entry *junctions, size_t junctions_len,
    const uint8_t *heights, size_t heights_len, const ynd_ref_entry *refs, size_t refs_len, size_t member,
    uint8_t *section, size_t section_len, size_t *length, size_t *place);

/* Writes the member and reads just those bytes back into its own parts, as ynd_write_then_read does a cell. Refused as
 * ynd_member_write is; a member made by hand is also refused with 7 at 0 to 4 where its part is too short for copies
 * of ranges that overlap. A refusal leaves all members and the section as they were. */
YND_NODISCARD
uint32_t ynd_member_write_then_read(
    ynd_member *members, size_t members_len, ynd_node_entry *nodes, size_t nodes_len,
    ynd_link_entry *links, size_t links_len, ynd_junction_entry *junctions, size_t junctions_len,
    uint8_t *heights, size_t heights_len, ynd_ref_entry *refs, size_t refs_len, size_t member,
    uint8_t *section, size_t section_len, size_t *length, size_t *place);

/* What a walk shows of the member's node at place `at`, as ynd_shown_node. Refused, in this order: the set's; 13 no
 * such place. */
YND_NODISCARD
uint32_t ynd_member_shown_node(
    const ynd_member *members, size_t members_len, const ynd_node_entry *nodes, size_t nodes_len,
    const ynd_link_entry *links, size_t links_len, const ynd_junction_entry *junctions, size_t junctions_len,
    const ynd_ref_entry *refs, size_t refs_len, size_t member, size_t at, ynd_seen_node *shown, size_t *place);

/* What a walk shows of the member's junction at place `at`, as ynd_shown_junction. Refused, in this order: the set's;
 * 13 no such place. */
YND_NODISCARD
uint32_t ynd_member_shown_junction(
    const ynd_member *members, size_t members_len, const ynd_junction_entry *junctions, size_t junctions_len,
    size_t member, size_t at, ynd_seen_junction *shown, size_t *place);

/* Copies the heightmap values of the member's junction at place `at` to the front of `values`, as ynd_shown_values.
 * Refused, in this order: the set's; 13 no such place; 7 at 3 where `values` is too short. */
YND_NODISCARD
uint32_t ynd_member_shown_values(
    const ynd_member *members, size_t members_len, const ynd_junction_entry *junctions, size_t junctions_len,
    const uint8_t *heights, size_t heights_len, size_t member, size_t at, uint8_t *values, size_t values_len,
    size_t *count, size_t *place);

/* What a walk shows of the link that a byte chooses at place `at` of the member, as ynd_shown_link. Refused, in this
 * order: the set's; 13 no such place. */
YND_NODISCARD
uint32_t ynd_member_shown_link(
    const ynd_member *members, size_t members_len, const ynd_node_entry *nodes, size_t nodes_len,
    const ynd_link_entry *links, size_t links_len, size_t member, size_t at, uint8_t choice, ynd_seen_link *shown,
    size_t *place);

/* The place of the member's node that has a number, as ynd_node. Refused: the set's. */
YND_NODISCARD
uint32_t ynd_member_node(
    const ynd_member *members, size_t members_len, const ynd_node_entry *nodes, size_t nodes_len, size_t member,
    uint16_t node_id, bool *found, size_t *at, size_t *place);

/* The place of the junction that the member's refs give to a node, as ynd_junction_of. Refused: the set's. */
YND_NODISCARD
uint32_t ynd_member_junction_of(
    const ynd_member *members, size_t members_len, const ynd_node_entry *nodes, size_t nodes_len,
    const ynd_ref_entry *refs, size_t refs_len, size_t member, uint16_t area_id, uint16_t node_id, bool *found,
    size_t *at, size_t *place);

/* The member's own area, as ynd_area_of_cell: `found` is false in a member with no node, whose area in the set is 0.
 * Refused: the set's. */
YND_NODISCARD
uint32_t ynd_member_area(
    const ynd_member *members, size_t members_len, const ynd_node_entry *nodes, size_t nodes_len, size_t member,
    bool *found, uint32_t *area, size_t *place);

/* Adds a node behind all others of the member, as ynd_add_node. Refused, in this order: the set's, 14 also where the
 * set has 65,536 nodes together; 7 at 0 where the member's part has no free entry. */
YND_NODISCARD
uint32_t ynd_member_add_node(
    ynd_member *members, size_t members_len, ynd_node_entry *nodes, size_t nodes_len, size_t member,
    uint16_t area_id, float x, float y, float z, size_t *place);

/* Adds a link as the last one of the member's node at place `at`, as ynd_add_link. Refused, in this order: the set's;
 * 13 no such place; 14 where link_count would pass 32 bits, or at 255 links of the node; 7 at 1 where the member's
 * part has no free entry. */
YND_NODISCARD
uint32_t ynd_member_add_link(
    ynd_member *members, size_t members_len, ynd_node_entry *nodes, size_t nodes_len,
    ynd_link_entry *links, size_t links_len, size_t member, size_t at, const ynd_link_entry *link, size_t *place);

/* Adds a ref behind all others of the member, as ynd_add_ref. Refused, in this order: the set's; 14 where the count
 * would pass 32 bits; 7 at 4 where the member's part has no free entry. */
YND_NODISCARD
uint32_t ynd_member_add_ref(
    ynd_member *members, size_t members_len, ynd_ref_entry *refs, size_t refs_len, size_t member,
    const ynd_ref_entry *added, size_t *place);

/* Adds a junction behind all others of the member, with its heightmap values, as ynd_add_junction. Refused, in this
 * order: the set's; 14 at 4,096 junctions, or where the count of values would pass 32 bits; 12 where the values are
 * not width times height; 7 at 2 and 3 where the member's part has no room. */
YND_NODISCARD
uint32_t ynd_member_add_junction(
    ynd_member *members, size_t members_len, ynd_junction_entry *junctions, size_t junctions_len,
    uint8_t *heights, size_t heights_len, size_t member, const ynd_junction_entry *junction,
    const uint8_t *values, size_t values_len, size_t *place);

/* Copies the member's own words, and how many entries it holds. Fills `ynd`. Refused: the set's. */
YND_NODISCARD
uint32_t ynd_member_get_cell(
    const ynd_member *members, size_t members_len, size_t member, ynd_cell *ynd, size_t *place);

/* Copies the member's node at place `at`, as ynd_get_node. Refused, in this order: the set's; 13 no such place. */
YND_NODISCARD
uint32_t ynd_member_get_node(
    const ynd_member *members, size_t members_len, const ynd_node_entry *nodes, size_t nodes_len, size_t member,
    size_t at, ynd_node_entry *node, size_t *place);

/* Copies link k of the member's node at place `at`, as ynd_get_link. Refused, in this order: the set's; 13 no such
 * node or link. */
YND_NODISCARD
uint32_t ynd_member_get_link(
    const ynd_member *members, size_t members_len, const ynd_node_entry *nodes, size_t nodes_len,
    const ynd_link_entry *links, size_t links_len, size_t member, size_t at, size_t k, ynd_link_entry *link,
    size_t *place);

/* Copies the member's ref at place `at`, as ynd_get_ref. Refused, in this order: the set's; 13 no such place. */
YND_NODISCARD
uint32_t ynd_member_get_ref(
    const ynd_member *members, size_t members_len, const ynd_ref_entry *refs, size_t refs_len, size_t member,
    size_t at, ynd_ref_entry *taken, size_t *place);

/* Copies the member's junction at place `at`, as ynd_get_junction. Refused, in this order: the set's; 13 no such
 * place. */
YND_NODISCARD
uint32_t ynd_member_get_junction(
    const ynd_member *members, size_t members_len, const ynd_junction_entry *junctions, size_t junctions_len,
    size_t member, size_t at, ynd_junction_entry *junction, size_t *place);

/* Copies heightmap value k of the member's junction at place `at`, as ynd_get_height. Refused, in this order: the
 * set's; 13 no such junction or value. */
YND_NODISCARD
uint32_t ynd_member_get_height(
    const ynd_member *members, size_t members_len, const ynd_junction_entry *junctions, size_t junctions_len,
    const uint8_t *heights, size_t heights_len, size_t member, size_t at, size_t k, uint8_t *value, size_t *place);

/* Stores every field of the member's node at place `at` but where its links are, as ynd_put_node. Refused, in this
 * order: the set's; 13 no such place. */
YND_NODISCARD
uint32_t ynd_member_put_node(
    const ynd_member *members, size_t members_len, ynd_node_entry *nodes, size_t nodes_len, size_t member, size_t at,
    const ynd_node_entry *node, size_t *place);

/* Stores a position, in whole steps, of the member's node at place `at`, as ynd_set_position. Refused, in this order:
 * the set's; 13 no such place. */
YND_NODISCARD
uint32_t ynd_member_set_position(
    const ynd_member *members, size_t members_len, ynd_node_entry *nodes, size_t nodes_len, size_t member, size_t at,
    float x, float y, float z, size_t *place);

/* Stores link k of the member's node at place `at`, as ynd_put_link. Refused, in this order: the set's; 13 no such
 * node or link. */
YND_NODISCARD
uint32_t ynd_member_put_link(
    const ynd_member *members, size_t members_len, const ynd_node_entry *nodes, size_t nodes_len,
    ynd_link_entry *links, size_t links_len, size_t member, size_t at, size_t k, const ynd_link_entry *link,
    size_t *place);

/* Stores the member's ref at place `at`, as ynd_put_ref. Refused, in this order: the set's; 13 no such place. */
YND_NODISCARD
uint32_t ynd_member_put_ref(
    const ynd_member *members, size_t members_len, ynd_ref_entry *refs, size_t refs_len, size_t member, size_t at,
    const ynd_ref_entry *put, size_t *place);

/* Stores every field of the member's junction at place `at` but where its heightmap starts, as ynd_put_junction.
 * Refused, in this order: the set's; 13 no such place; 12 where width times height is not what it was. */
YND_NODISCARD
uint32_t ynd_member_put_junction(
    const ynd_member *members, size_t members_len, ynd_junction_entry *junctions, size_t junctions_len,
    size_t member, size_t at, const ynd_junction_entry *junction, size_t *place);

/* Stores heightmap value k of the member's junction at place `at`, as ynd_put_height. Refused, in this order: the
 * set's; 13 no such junction or value. */
YND_NODISCARD
uint32_t ynd_member_put_height(
    const ynd_member *members, size_t members_len, const ynd_junction_entry *junctions, size_t junctions_len,
    uint8_t *heights, size_t heights_len, size_t member, size_t at, size_t k, uint8_t value, size_t *place);

/* Stores the member's own words: vft, the counts of nodes that are no ped nodes and of ped nodes, and unk24, unk34,
 * unk48, unk4c, unk5c, unk68 and unk6c. How many entries it holds stays. Refused: the set's. */
YND_NODISCARD
uint32_t ynd_member_put_words(
    ynd_member *members, size_t members_len, size_t member, uint32_t vft, uint32_t vehicle_node_count,
    uint32_t ped_node_count, const uint32_t unknowns[7], size_t *place);

/* The first `count` nodes of the member stay, as ynd_truncate_nodes; its part stays as long. Refused, in this order:
 * the set's; 13 where there are fewer. */
YND_NODISCARD
uint32_t ynd_member_truncate_nodes(
    ynd_member *members, size_t members_len, size_t member, size_t count, size_t *place);

/* The first `count` junctions of the member stay, as ynd_truncate_junctions. Refused, in this order: the set's; 13
 * where there are fewer. */
YND_NODISCARD
uint32_t ynd_member_truncate_junctions(
    ynd_member *members, size_t members_len, size_t member, size_t count, size_t *place);

/* The first `count` refs of the member stay, as ynd_truncate_refs. Refused, in this order: the set's; 13 where there
 * are fewer. */
YND_NODISCARD
uint32_t ynd_member_truncate_refs(
    ynd_member *members, size_t members_len, size_t member, size_t count, size_t *place);

/* The links of the member's node at place `at` are the given ones, as ynd_put_links. Refused, in this order: the
 * set's; 13 no such place; 14 over 255 given links, or where link_count would pass 32 bits; 7 at 1 where the member's
 * part is shorter than its count afterwards (link_count + given_len entries always do). */
YND_NODISCARD
uint32_t ynd_member_put_links(
    ynd_member *members, size_t members_len, ynd_node_entry *nodes, size_t nodes_len,
    ynd_link_entry *links, size_t links_len, size_t member, size_t at, const ynd_link_entry *given,
    size_t given_len, size_t *place);

/* The heightmap of the member's junction at place `at` is width times height of the given values, as
 * ynd_put_heightmap. Refused, in this order: the set's; 13 no such place; 14 where heightmap_count would pass 32 bits;
 * 12 where the values are not width times height; 7 at 3 where the member's part is shorter than its count afterwards
 * (heightmap_count + values_len entries always do). */
YND_NODISCARD
uint32_t ynd_member_put_heightmap(
    ynd_member *members, size_t members_len, ynd_junction_entry *junctions, size_t junctions_len,
    uint8_t *heights, size_t heights_len, size_t member, size_t at, uint8_t width, uint8_t height,
    const uint8_t *values, size_t values_len, size_t *place);

/* ---- Shortest paths ---- */

/* A walk from the node at `from` to the node at `to` by the cell's own links whose lengths add up to least: every
 * other walk between them has a sum at least as large. `distance` gets the sum in metres, `count` the number of
 * links, the first `count` bytes of `choices` the choices, the first `count + 1` entries of `places` the places,
 * none of them twice; later entries stay. ynd_walk by these choices visits these places and ends *done*. From a
 * place to itself: no choices, distance 0. Time: n log n and l log n steps, for all nodes that a walk reaches,
 * however near `to` is; where numbers are not places, a link looks at up to 256 nodes more. Refused, in this order:
 * 13 no such place, either of them; 14 a struct over a limit; 7 at 0 and 1 where a list is shorter than its count;
 * 7 at 9 where the scratch has under YND_PATH_SCRATCH * node_count entries; 17 where no walk joins the two places;
 * 7 at 8 where `choices` or `places` has under node_count entries. From 17 on, and where the call is accepted, the
 * scratch may hold anything; all else that was lent stays on a refusal. */
YND_NODISCARD
uint32_t ynd_shortest_path(
    const ynd_cell *ynd, const ynd_node_entry *nodes, size_t nodes_len,
    const ynd_link_entry *links, size_t links_len, size_t from, size_t to, uint32_t *scratch, size_t scratch_len,
    uint8_t *choices, size_t choices_len, uint32_t *places, size_t places_len, uint32_t *distance, size_t *count,
    size_t *place);

/* ---- Entries added ---- */

/* Adds a node behind all others, with no flags and no links; its number is its place, its position is stored in
 * whole steps. Refused: 14 over a limit, or at 65,536 nodes; 7 at 0 where `nodes` has no free entry. */
YND_NODISCARD
uint32_t ynd_add_node(
    ynd_cell *ynd, ynd_node_entry *nodes, size_t nodes_len, uint16_t area_id, float x, float y, float z,
    size_t *place);

/* Adds a link as the last one of the node at place `at`; the links behind it move up by one, and so do the ranges
 * there. Time: linear in n and in the links that move: to draw many links, store each node's at once by
 * ynd_put_links. Refused, in this order: 13 no such place; 14 over a limit, where link_count would pass 32 bits, or at
 * 255 links of the node; 7 at 0 where `nodes` is shorter than its count, 7 at 1 where `links` has no free entry. */
YND_NODISCARD
uint32_t ynd_add_link(
    ynd_cell *ynd, ynd_node_entry *nodes, size_t nodes_len, ynd_link_entry *links, size_t links_len, size_t at,
    const ynd_link_entry *link, size_t *place);

/* Adds a ref behind all others. Refused: 14 over a limit, or where the count would pass 32 bits; 7 at 4 where
 * `refs` has no free entry. */
YND_NODISCARD
uint32_t ynd_add_ref(
    ynd_cell *ynd, ynd_ref_entry *refs, size_t refs_len, const ynd_ref_entry *added, size_t *place);

/* Adds a junction behind all others, and its heightmap values behind all others; `junction` says width and height,
 * its heightmap_start is not looked at. Time: linear in the values. Refused, in this order: 14 over a limit, at
 * 4,096 junctions, or where the count of values would pass 32 bits; 12 where the values are not width times height;
 * 7 at 2 and 3 where `junctions` or `heights` have no room. */
YND_NODISCARD
uint32_t ynd_add_junction(
    ynd_cell *ynd, ynd_junction_entry *junctions, size_t junctions_len, uint8_t *heights, size_t heights_len,
    const ynd_junction_entry *junction, const uint8_t *values, size_t values_len, size_t *place);

/* ---- Entries taken out and stored, by place ---- */

/* Copies the node at place `at`. Refused: 13 no such place; 14 over a limit; 7 at 0 where a list is shorter than
 * its count. */
YND_NODISCARD
uint32_t ynd_get_node(
    const ynd_cell *ynd, const ynd_node_entry *nodes, size_t nodes_len, size_t at, ynd_node_entry *node,
    size_t *place);

/* Copies link k of the node at place `at`. Refused: 13 no such node or link; 14 over a limit; 7 at 0 and 1 where a
 * list is shorter than its count. */
YND_NODISCARD
uint32_t ynd_get_link(
    const ynd_cell *ynd, const ynd_node_entry *nodes, size_t nodes_len,
    const ynd_link_entry *links, size_t links_len, size_t at, size_t k, ynd_link_entry *link, size_t *place);

/* Copies the ref at place `at`. Refused: 13 no such place; 14 over a limit; 7 at 4 where a list is shorter than its
 * count. */
YND_NODISCARD
uint32_t ynd_get_ref(
    const ynd_cell *ynd, const ynd_ref_entry *refs, size_t refs_len, size_t at, ynd_ref_entry *taken,
    size_t *place);

/* Copies the junction at place `at`. Refused: 13 no such place; 14 over a limit; 7 at 2 where a list is shorter
 * than its count. */
YND_NODISCARD
uint32_t ynd_get_junction(
    const ynd_cell *ynd, const ynd_junction_entry *junctions, size_t junctions_len, size_t at,
    ynd_junction_entry *junction, size_t *place);

/* Copies heightmap value k of the junction at place `at`. Refused: 13 no such junction or value; 14 over a limit; 7
 * at 2 and 3 where a list is shorter than its count. */
YND_NODISCARD
uint32_t ynd_get_height(
    const ynd_cell *ynd, const ynd_junction_entry *junctions, size_t junctions_len,
    const uint8_t *heights, size_t heights_len, size_t at, size_t k, uint8_t *value, size_t *place);

/* Stores every field of the node at place `at` but where its links are (link_start, link_count); the position is
 * taken as it is. Refused: 13 no such place; 14 over a limit; 7 at 0 where a list is shorter than its count. */
YND_NODISCARD
uint32_t ynd_put_node(
    const ynd_cell *ynd, ynd_node_entry *nodes, size_t nodes_len, size_t at, const ynd_node_entry *node,
    size_t *place);

/* Stores a position, in whole steps, of the node at place `at`. Refused: 13 no such place; 14 over a limit; 7 at 0
 * where a list is shorter than its count. */
YND_NODISCARD
uint32_t ynd_set_position(
    const ynd_cell *ynd, ynd_node_entry *nodes, size_t nodes_len, size_t at, float x, float y, float z,
    size_t *place);

/* Stores link k of the node at place `at`. Refused: 13 no such node or link; 14 over a limit; 7 at 0 and 1 where a
 * list is shorter than its count. */
YND_NODISCARD
uint32_t ynd_put_link(
    const ynd_cell *ynd, const ynd_node_entry *nodes, size_t nodes_len, ynd_link_entry *links, size_t links_len,
    size_t at, size_t k, const ynd_link_entry *link, size_t *place);

/* Stores the ref at place `at`. Refused: 13 no such place; 14 over a limit; 7 at 4 where a list is shorter than its
 * count. */
YND_NODISCARD
uint32_t ynd_put_ref(
    const ynd_cell *ynd, ynd_ref_entry *refs, size_t refs_len, size_t at, const ynd_ref_entry *put,
    size_t *place);

/* Stores every field of the junction at place `at` but where its heightmap starts. Refused, in this order: 13 no
 * such place; 14 over a limit; 12 where width times height is not what it was; 7 at 2 where a list is shorter than
 * its count. */
YND_NODISCARD
uint32_t ynd_put_junction(
    const ynd_cell *ynd, ynd_junction_entry *junctions, size_t junctions_len, size_t at,
    const ynd_junction_entry *junction, size_t *place);

/* Stores heightmap value k of the junction at place `at`. Refused: 13 no such junction or value; 14 over a limit; 7
 * at 2 and 3 where a list is shorter than its count. */
YND_NODISCARD
uint32_t ynd_put_height(
    const ynd_cell *ynd, const ynd_junction_entry *junctions, size_t junctions_len,
    uint8_t *heights, size_t heights_len, size_t at, size_t k, uint8_t value, size_t *place);

/* ---- Words, lists and heightmaps stored ---- */

/* Stores the cell's vft. Never refused. (Each of the four is as storing the field of `ynd` by hand.) */
void ynd_set_vft(ynd_cell *ynd, uint32_t vft);

/* Stores the count of nodes that are no ped nodes; renumbering sets it by the nodes. Never refused. */
void ynd_set_vehicle_node_count(ynd_cell *ynd, uint32_t count);

/* Stores the count of ped nodes; renumbering sets it by the nodes. Never refused. */
void ynd_set_ped_node_count(ynd_cell *ynd, uint32_t count);

/* Stores the root's words unk24, unk34, unk48, unk4c, unk5c, unk68 and unk6c. Never refused. */
void ynd_set_unknowns(ynd_cell *ynd, const uint32_t unknowns[7]);

/* The first `count` nodes stay; only node_count changes. Refused, in this order: 13 where there are fewer; 14 over
 * 65,536 nodes or 4,096 junctions. */
YND_NODISCARD
uint32_t ynd_truncate_nodes(ynd_cell *ynd, size_t count, size_t *place);

/* The first `count` junctions stay; only junction_count changes. Refused, in this order: 13 where there are fewer;
 * 14 over 65,536 nodes or 4,096 junctions. */
YND_NODISCARD
uint32_t ynd_truncate_junctions(ynd_cell *ynd, size_t count, size_t *place);

/* The first `count` refs stay; only ref_count changes. Refused, in this order: 13 where there are fewer; 14 over
 * 65,536 nodes or 4,096 junctions. */
YND_NODISCARD
uint32_t ynd_truncate_refs(ynd_cell *ynd, size_t count, size_t *place);

/* The links of the node at place `at` are the given ones, in their order; none clear it. No more than the node has
 * stand where these stood, more stand behind all links, and link_count grows by them; the node's old ones then stay
 * in the list, and no node has them. Time: linear in the given links. Refused, in this order: 13 no such place; 14
 * over 65,536 nodes or 4,096 junctions, over 255 given links, or where link_count would pass 32 bits; 7 at 0 where
 * `nodes` is shorter than its count, 7 at 1 where `links` is shorter than its count afterwards (link_count +
 * given_len entries always do). */
YND_NODISCARD
uint32_t ynd_put_links(
    ynd_cell *ynd, ynd_node_entry *nodes, size_t nodes_len, ynd_link_entry *links, size_t links_len, size_t at,
    const ynd_link_entry *given, size_t given_len, size_t *place);

/* The heightmap of the junction at place `at` is width times height of the given values; other fields stay. Where
 * they stand is as for ynd_put_links. Time: linear in the values. Refused, in this order: 13 no such place; 14 over
 * 65,536 nodes or 4,096 junctions, or where heightmap_count would pass 32 bits; 12 where the values are not width
 * times height; 7 at 2 where `junctions` is shorter than its count, 7 at 3 where `heights` is shorter than its
 * count afterwards (heightmap_count + values_len entries always do). */
YND_NODISCARD
uint32_t ynd_put_heightmap(
    ynd_cell *ynd, ynd_junction_entry *junctions, size_t junctions_len, uint8_t *heights, size_t heights_len,
    size_t at, uint8_t width, uint8_t height, const uint8_t *values, size_t values_len, size_t *place);

/* ---- The fields of a node ---- */

/* The bit off_road: flags0, bit 3. Never refused. */
bool ynd_node_off_road(const ynd_node_entry *node);

/* The bit no_big_vehicles: flags0, bit 5. Never refused. */
bool ynd_node_no_big_vehicles(const ynd_node_entry *node);

/* The bit cannot_go_left: flags0, bit 7. Never refused. */
bool ynd_node_cannot_go_left(const ynd_node_entry *node);

/* The bit slip_road: flags1, bit 0. Never refused. */
bool ynd_node_slip_road(const ynd_node_entry *node);

/* The bit indicate_keep_left: flags1, bit 1. Never refused. */
bool ynd_node_indicate_keep_left(const ynd_node_entry *node);

/* The bit indicate_keep_right: flags1, bit 2. Never refused. */
bool ynd_node_indicate_keep_right(const ynd_node_entry *node);

/* The bit left_turns_only: flags1, bit 7. Never refused. */
bool ynd_node_left_turns_only(const ynd_node_entry *node);

/* Whether renumbering takes it for a ped node: flags1 shifted right by 3 is 10, 14 or 18. Never refused. */
bool ynd_node_is_ped_node(const ynd_node_entry *node);

/* The bit no_gps: flags2, bit 0. Never refused. */
bool ynd_node_no_gps(const ynd_node_entry *node);

/* The bit is_junction: flags2, bit 2. Never refused. */
bool ynd_node_is_junction(const ynd_node_entry *node);

/* The bit is_disabled_unk1: flags2, bit 4. Never refused. */
bool ynd_node_is_disabled_unk1(const ynd_node_entry *node);

/* The bit highway: flags2, bit 6. Never refused. */
bool ynd_node_highway(const ynd_node_entry *node);

/* The bit is_disabled_unk0: flags2, bit 7. Never refused. */
bool ynd_node_is_disabled_unk0(const ynd_node_entry *node);

/* Whether either bit of is_disabled is set. Never refused. */
bool ynd_node_is_disabled(const ynd_node_entry *node);

/* The bit tunnel: flags3, bit 0. Never refused. */
bool ynd_node_tunnel(const ynd_node_entry *node);

/* The heuristic value: the upper seven bits of flags3. Never refused. */
uint8_t ynd_node_heuristic_value(const ynd_node_entry *node);

/* The density: the low four bits of flags4. Never refused. */
uint8_t ynd_node_density(const ynd_node_entry *node);

/* The dead-endness: flags4, bits 4 to 6, times 16. Never refused. */
uint8_t ynd_node_dead_endness(const ynd_node_entry *node);

/* Sets the bit off_road: flags0, bit 3. Never refused. */
void ynd_node_set_off_road(ynd_node_entry *node, bool on);

/* Sets the bit no_big_vehicles: flags0, bit 5. Never refused. */
void ynd_node_set_no_big_vehicles(ynd_node_entry *node, bool on);

/* Sets the bit cannot_go_left: flags0, bit 7. Never refused. */
void ynd_node_set_cannot_go_left(ynd_node_entry *node, bool on);

/* Sets the bit slip_road: flags1, bit 0. Never refused. */
void ynd_node_set_slip_road(ynd_node_entry *node, bool on);

/* Sets the bit indicate_keep_left: flags1, bit 1. Never refused. */
void ynd_node_set_indicate_keep_left(ynd_node_entry *node, bool on);

/* Sets the bit indicate_keep_right: flags1, bit 2. Never refused. */
void ynd_node_set_indicate_keep_right(ynd_node_entry *node, bool on);

/* Sets the bit left_turns_only: flags1, bit 7. Never refused. */
void ynd_node_set_left_turns_only(ynd_node_entry *node, bool on);

/* Sets the bit no_gps: flags2, bit 0. Never refused. */
void ynd_node_set_no_gps(ynd_node_entry *node, bool on);

/* Sets the bit is_junction: flags2, bit 2. Never refused. */
void ynd_node_set_is_junction(ynd_node_entry *node, bool on);

/* Sets the bit highway: flags2, bit 6. Never refused. */
void ynd_node_set_highway(ynd_node_entry *node, bool on);

/* Sets the bit tunnel: flags3, bit 0. Never refused. */
void ynd_node_set_tunnel(ynd_node_entry *node, bool on);

/* Sets the heuristic value; of a value over 127 the low seven bits are stored. Never refused. */
void ynd_node_set_heuristic_value(ynd_node_entry *node, uint8_t v);

/* Sets the density; of a value over 15 the low four bits are stored. Never refused. */
void ynd_node_set_density(ynd_node_entry *node, uint8_t v);

/* The kind of node: the upper five bits of flags1. Never refused. */
uint8_t ynd_node_special(const ynd_node_entry *node);

/* Sets the kind of node; of a value over 31 the low five bits are stored. Never refused. */
void ynd_node_set_special(ynd_node_entry *node, uint8_t v);

/* The speed: 0 slow, 1 normal, 2 fast, 3 faster (flags5, bits 1 and 2). Never refused. */
uint8_t ynd_node_speed(const ynd_node_entry *node);

/* Sets the speed; a value over 3 is 3. Never refused. */
void ynd_node_set_speed(ynd_node_entry *node, uint8_t v);

/* Whether a kind (ynd_node_special) is one of the three kinds of ped node: 10, 14, 18. Never refused. */
bool ynd_special_is_ped(uint8_t v);

/* A node at a position, stored in whole steps, with no flags and no links. Fills `node`. Never refused. */
void ynd_node_new(uint16_t area_id, uint16_t node_id, float x, float y, float z, ynd_node_entry *node);

/* Stores a position, in whole steps. Never refused. */
void ynd_node_set_position(ynd_node_entry *node, float x, float y, float z);

/* ---- The fields of a link ---- */

/* The bit gps_both_ways: flags0, bit 0. Never refused. */
bool ynd_link_gps_both_ways(const ynd_link_entry *link);

/* The bit narrow_road: flags1, bit 1. Never refused. */
bool ynd_link_narrow_road(const ynd_link_entry *link);

/* The offset value: flags1, bits 4 to 6. Never refused. */
uint8_t ynd_link_offset_value(const ynd_link_entry *link);

/* The bit negative_offset: flags1, bit 7. Never refused. */
bool ynd_link_negative_offset(const ynd_link_entry *link);

/* The lane offset: offset_value / 7 times a half, below zero where negative_offset. Never refused. */
float ynd_link_lane_offset(const ynd_link_entry *link);

/* The bit dont_use_for_navigation: flags2, bit 0. Never refused. */
bool ynd_link_dont_use_for_navigation(const ynd_link_entry *link);

/* The bit shortcut: flags2, bit 1. Never refused. */
bool ynd_link_shortcut(const ynd_link_entry *link);

/* How many lanes lead back: flags2, bits 2 to 4. Never refused. */
uint8_t ynd_link_lane_count_backward(const ynd_link_entry *link);

/* How many lanes lead forward: the upper three bits of flags2. Never refused. */
uint8_t ynd_link_lane_count_forward(const ynd_link_entry *link);

/* Whether lanes lead both ways. Never refused. */
bool ynd_link_is_two_way(const ynd_link_entry *link);

/* Sets the bit shortcut: flags2, bit 1. Never refused. */
void ynd_link_set_shortcut(ynd_link_entry *link, bool on);

/* Sets how many lanes lead back; of a value over 7 the low three bits are stored. Never refused. */
void ynd_link_set_lane_count_backward(ynd_link_entry *link, uint8_t n);

/* Sets how many lanes lead forward; of a value over 7 the low three bits are stored. Never refused. */
void ynd_link_set_lane_count_forward(ynd_link_entry *link, uint8_t n);

/* A link to a node, with no flags and length 0. Fills `link`. Never refused. */
void ynd_link_to(uint16_t area_id, uint16_t node_id, ynd_link_entry *link);

/* ---- Steps, positions, lengths ---- */

/* The steps in which a coordinate x or y is stored: x times 4, cut towards zero, limited to -32768..32767; NaN
 * gives 0. Never refused. */
int16_t ynd_steps_xy(float x);

/* The steps in which a coordinate z is stored: z times 32, cut and limited likewise. Never refused. */
int16_t ynd_steps_z(float x);

/* ynd_steps_xy of the float that has these bits. Never refused. */
int16_t ynd_steps_xy_of_bits(uint32_t bits);

/* ynd_steps_z of the float that has these bits. Never refused. */
int16_t ynd_steps_z_of_bits(uint32_t bits);

/* What n stored steps stand for along x and y: n divided by 4, exactly. Never refused. */
float ynd_metres_xy(int16_t n);

/* What n stored steps stand for along z: n divided by 32, exactly. Never refused. */
float ynd_metres_z(int16_t n);

/* The bits of a float; every NaN gives 0x7fc00000. Never refused. */
uint32_t ynd_bits_of(float x);

/* The float that has these bits; there is one NaN. Never refused. */
float ynd_float_of(uint32_t bits);

/* The position x, y, z as it comes back once it was stored in steps. Fills `stored`. Never refused. */
void ynd_stored_position(float x, float y, float z, float stored[3]);

/* The stored steps of the position x, y, z. Fills `steps`. Never refused. */
void ynd_quantise(float x, float y, float z, int16_t steps[3]);

/* The position that stored steps stand for. Fills `position`. Never refused. */
void ynd_dequantise(int16_t x, int16_t y, int16_t z, float position[3]);

/* The length of a link from a to b in whole metres: the correctly rounded root, cut, at most 255; NaN gives 255.
 * Never refused. */
uint8_t ynd_length_between(float ax, float ay, float az, float bx, float by, float bz);

/* The lane offset of a link from its two fields: value / 7 times a half, below zero where `negative`. Never
 * refused. */
float ynd_lane_offset(uint8_t offset_value, bool negative);

/* ---- The grid of cells ---- */

/* The grid cell that holds a position: its numbers along x and y, each 0 to 31. Fills `cell`. Never refused. */
void ynd_cell_for_position(float x, float y, uint32_t cell[2]);

/* The area number of a grid cell, 32 cy + cx, into `area`. Refused: 13 at 0 where cx or cy is over 31. */
YND_NODISCARD
uint32_t ynd_area_id(uint32_t cx, uint32_t cy, uint32_t *area, size_t *place);

/* The grid cell that an area names, the island's bit (1024) left aside. Fills `cell`. Never refused. */
void ynd_cell_of_area(uint32_t area, uint32_t cell[2]);

/* Whether an area carries the island's bit (1024). Never refused. */
bool ynd_is_island_area(uint32_t area);

/* Whether two areas name the same grid cell, the island's bit left aside. Never refused. */
bool ynd_same_cell(uint32_t a, uint32_t b);

/* The corners of a grid cell in metres: x0, y0, x1, y1. Fills `bounds`. Refused: 13 at 0 where cx or cy is over
 * 31. */
YND_NODISCARD
uint32_t ynd_cell_bounds(uint32_t cx, uint32_t cy, float bounds[4], size_t *place);

/* ---- Names of cell files ---- */

/* The file name of a grid cell: its bytes into `name`, zero behind them, and how many they are into `count`.
 * Refused: 13 at 0 where cx or cy is over 31. */
YND_NODISCARD
uint32_t ynd_cell_file_name(uint32_t cx, uint32_t cy, uint8_t name[13], size_t *count, size_t *place);

/* Whether a file name names an area, which then goes into `area` (else `area` stays). Only what follows the last /
 * or \ counts. The name is bytes, with no zero behind them. Time: linear in the name. Never refused. */
bool ynd_area_id_from_file_name(const uint8_t *name, size_t name_len, uint32_t *area);

/* ---- Sections, the root and the four records ---- */

/* Where an array of `count` entries of `width` bytes lies, in sections of so many bytes. True where the address is
 * good, and then section, offset and length are in `part`; false, with `part` as it was, where not. Address 0 or
 * count 0 is an empty array. Never refused. */
bool ynd_locate(
    uint64_t address, uint32_t count, uint8_t width, size_t system, size_t graphics, ynd_part *part);

/* The root that reading goes by, as it is written (28 words; word 1 is 1); of no bytes that of ynd_new. Fills `words`.
 * Refused, in this order: 2 at 0 over YND_SECTION_MOST bytes; 1 from 1 to 111 bytes. */
YND_NODISCARD
uint32_t ynd_root(const uint8_t *section, size_t section_len, uint32_t words[28], size_t *place);

/* The node record at an offset of a section, as it is written. Fills `bytes`. Refused: 3 at 0 where it does not end
 * inside the section. */
YND_NODISCARD
uint32_t ynd_node_record(const uint8_t *section, size_t section_len, uint32_t at, uint8_t bytes[40], size_t *place);

/* The link record at an offset of a section, as it is written. Fills `bytes`. Refused: 3 at 1 likewise. */
YND_NODISCARD
uint32_t ynd_link_record(const uint8_t *section, size_t section_len, uint32_t at, uint8_t bytes[8], size_t *place);

/* The junction record at an offset of a section, as it is written. Fills `bytes`. Refused: 3 at 2 likewise. */
YND_NODISCARD
uint32_t ynd_junction_record(
    const uint8_t *section, size_t section_len, uint32_t at, uint8_t bytes[12], size_t *place);

/* The ref record at an offset of a section, as it is written. Fills `bytes`. Refused: 3 at 4 likewise. */
YND_NODISCARD
uint32_t ynd_ref_record(const uint8_t *section, size_t section_len, uint32_t at, uint8_t bytes[8], size_t *place);

/* Where the five blocks of a written section lie, by their counts: each address (0 for an empty one) into
 * `addresses`, the length of the whole into `total`. ynd_write needs that many bytes. Refused, in this order: 14
 * over 65,536 nodes or 4,096 junctions; 2 at 0 where the whole is over YND_SECTION_MOST bytes. */
YND_NODISCARD
uint32_t ynd_lay_out(
    uint32_t refs, uint32_t heightmap, uint32_t junctions, uint32_t links, uint32_t nodes,
    ynd_addresses *addresses, size_t *total, size_t *place);

#ifdef __cplusplus
}
#endif
#endif
