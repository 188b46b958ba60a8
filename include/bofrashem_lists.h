/* The calls of bofrashem.h with a cell's five lists as one struct, for those who tire of sixteen parameters: inline
 * functions and nothing to link. Made of bofrashem.h by tools/lists-header.
 *
 * `ynd_lists_read` is `ynd_read`, and so on: a call's comment in bofrashem.h says what it does. The struct says where
 * the lists are and how long; no function here changes it, and calls that only read don't change what it points to. */
#ifndef BOFRASHEM_LISTS_H
#define BOFRASHEM_LISTS_H

#include "bofrashem.h"

#ifdef __cplusplus
extern "C" {
#endif

/* The five lists of a cell or of a set, each as pointer and length. All zeros are five empty lists. */
typedef struct ynd_lists {
    ynd_node_entry *nodes;
    size_t nodes_len;
    ynd_link_entry *links;
    size_t links_len;
    ynd_junction_entry *junctions;
    size_t junctions_len;
    uint8_t *heights;
    size_t heights_len;
    ynd_ref_entry *refs;
    size_t refs_len;
} ynd_lists;

/* ---- Memory for them ---- */

/* How many bytes lists of so many entries take, one behind the other: for counts as ynd_count gives them. */
static inline size_t ynd_lists_bytes(const ynd_counts *counts)
{
    return counts->nodes * sizeof(ynd_node_entry) + counts->junctions * sizeof(ynd_junction_entry)
        + counts->links * sizeof(ynd_link_entry) + counts->refs * sizeof(ynd_ref_entry) + counts->heights;
}

/* Lists of so many entries in that many bytes of memory of the caller's, aligned as uint32_t is. */
static inline ynd_lists ynd_lists_in(void *memory, const ynd_counts *counts)
{
    ynd_lists lists;
    lists.nodes_len = counts->nodes;
    lists.links_len = counts->links;
    lists.junctions_len = counts->junctions;
    lists.heights_len = counts->heights;
    lists.refs_len = counts->refs;
    lists.nodes = (ynd_node_entry *)memory;
    lists.junctions = (ynd_junction_entry *)(void *)(lists.nodes + lists.nodes_len);
    lists.links = (ynd_link_entry *)(void *)(lists.junctions + lists.junctions_len);
    lists.refs = (ynd_ref_entry *)(void *)(lists.links + lists.links_len);
    lists.heights = (uint8_t *)(void *)(lists.refs + lists.refs_len);
    return lists;
}

/* How long a section of so many entries is: ynd_lay_out by counts. Refused as that is; a count over 32 bits is over
 * every limit. */
YND_NODISCARD static inline uint32_t ynd_lists_lay_out(
    const ynd_counts *counts, ynd_addresses *addresses, size_t *total, size_t *place)
{
    const size_t most = UINT32_MAX;
    return ynd_lay_out(
        (uint32_t)(counts->refs < most ? counts->refs : most),
        (uint32_t)(counts->heights < most ? counts->heights : most),
        (uint32_t)(counts->junctions < most ? counts->junctions : most),
        (uint32_t)(counts->links < most ? counts->links : most),
        (uint32_t)(counts->nodes < most ? counts->nodes : most), addresses, total, place);
}

/* ---- Reading ---- */

YND_NODISCARD static inline uint32_t ynd_lists_read(
    ynd_cell *ynd, const uint8_t *system, size_t system_len, const uint8_t *graphics, size_t graphics_len,
    const ynd_lists *lists, size_t *place)
{
    return ynd_read(
        ynd, system, system_len, graphics, graphics_len, lists->nodes, lists->nodes_len, lists->links,
        lists->links_len, lists->junctions, lists->junctions_len, lists->heights, lists->heights_len, lists->refs,
        lists->refs_len, place);
}

/* ---- Renumbering ---- */

YND_NODISCARD static inline uint32_t ynd_lists_renumber(
    ynd_cell *ynd, const ynd_lists *lists, uint32_t *scratch, size_t scratch_len, uint32_t *places, size_t places_len,
    size_t *place)
{
    return ynd_renumber(
        ynd, lists->nodes, lists->nodes_len, lists->links, lists->links_len, lists->junctions, lists->junctions_len,
        lists->heights, lists->heights_len, lists->refs, lists->refs_len, scratch, scratch_len, places, places_len,
        place);
}

/* ---- Writing ---- */

YND_NODISCARD static inline uint32_t ynd_lists_write(
    const ynd_cell *ynd, const ynd_lists *lists, uint8_t *section, size_t section_len, size_t *length, size_t *place)
{
    return ynd_write(
        ynd, lists->nodes, lists->nodes_len, lists->links, lists->links_len, lists->junctions, lists->junctions_len,
        lists->heights, lists->heights_len, lists->refs, lists->refs_len, section, section_len, length, place);
}

YND_NODISCARD static inline uint32_t ynd_lists_write_then_read(
    ynd_cell *ynd, const ynd_lists *lists, uint8_t *section, size_t section_len, size_t *length, size_t *place)
{
    return ynd_write_then_read(
        ynd, lists->nodes, lists->nodes_len, lists->links, lists->links_len, lists->junctions, lists->junctions_len,
        lists->heights, lists->heights_len, lists->refs, lists->refs_len, section, section_len, length, place);
}

/* ---- Walks and soundness ---- */

YND_NODISCARD static inline uint32_t ynd_lists_walk(
    const ynd_cell *ynd, const ynd_lists *lists, size_t start, const uint8_t *choices, size_t choices_len,
    uint32_t *visited, size_t visited_len, ynd_walk_end *end, size_t *count, size_t *place)
{
    return ynd_walk(
        ynd, lists->nodes, lists->nodes_len, lists->links, lists->links_len, start, choices, choices_len, visited,
        visited_len, end, count, place);
}

YND_NODISCARD static inline uint32_t ynd_lists_walk_indexed(
    const ynd_cell *ynd, const ynd_lists *lists, size_t start, const uint8_t *choices, size_t choices_len,
    uint32_t *visited, size_t visited_len, uint32_t *scratch, size_t scratch_len, ynd_walk_end *end, size_t *count,
    size_t *place)
{
    return ynd_walk_indexed(
        ynd, lists->nodes, lists->nodes_len, lists->links, lists->links_len, start, choices, choices_len, visited,
        visited_len, scratch, scratch_len, end, count, place);
}

YND_NODISCARD static inline uint32_t ynd_lists_sound(
    const ynd_cell *ynd, const ynd_lists *lists, uint32_t *scratch, size_t scratch_len, bool *sound, size_t *place)
{
    return ynd_sound(
        ynd, lists->nodes, lists->nodes_len, lists->links, lists->links_len, lists->refs, lists->refs_len, scratch,
        scratch_len, sound, place);
}

/* ---- What a walk shows ---- */

YND_NODISCARD static inline uint32_t ynd_lists_shown_node(
    const ynd_cell *ynd, const ynd_lists *lists, size_t at, ynd_seen_node *shown, size_t *place)
{
    return ynd_shown_node(
        ynd, lists->nodes, lists->nodes_len, lists->links, lists->links_len, lists->junctions, lists->junctions_len,
        lists->refs, lists->refs_len, at, shown, place);
}

YND_NODISCARD static inline uint32_t ynd_lists_shown_junction(
    const ynd_cell *ynd, const ynd_lists *lists, size_t at, ynd_seen_junction *shown, size_t *place)
{
    return ynd_shown_junction(
        ynd, lists->junctions, lists->junctions_len, at, shown, place);
}

YND_NODISCARD static inline uint32_t ynd_lists_shown_values(
    const ynd_cell *ynd, const ynd_lists *lists, size_t at, uint8_t *values, size_t values_len, size_t *count,
    size_t *place)
{
    return ynd_shown_values(
        ynd, lists->junctions, lists->junctions_len, lists->heights, lists->heights_len, at, values, values_len, count,
        place);
}

YND_NODISCARD static inline uint32_t ynd_lists_shown_link(
    const ynd_cell *ynd, const ynd_lists *lists, size_t at, uint8_t choice, ynd_seen_link *shown, size_t *place)
{
    return ynd_shown_link(
        ynd, lists->nodes, lists->nodes_len, lists->links, lists->links_len, at, choice, shown, place);
}

/* ---- Lookups ---- */

YND_NODISCARD static inline uint32_t ynd_lists_node(
    const ynd_cell *ynd, const ynd_lists *lists, uint16_t node_id, bool *found, size_t *at, size_t *place)
{
    return ynd_node(
        ynd, lists->nodes, lists->nodes_len, node_id, found, at, place);
}

YND_NODISCARD static inline uint32_t ynd_lists_junction_of(
    const ynd_cell *ynd, const ynd_lists *lists, uint16_t area_id, uint16_t node_id, bool *found, size_t *at,
    size_t *place)
{
    return ynd_junction_of(
        ynd, lists->nodes, lists->nodes_len, lists->refs, lists->refs_len, area_id, node_id, found, at, place);
}

YND_NODISCARD static inline uint32_t ynd_lists_area_of_cell(
    const ynd_cell *ynd, const ynd_lists *lists, bool *found, uint32_t *area, size_t *place)
{
    return ynd_area_of_cell(
        ynd, lists->nodes, lists->nodes_len, found, area, place);
}

/* ---- Nodes within reach of a point ---- */

YND_NODISCARD static inline uint32_t ynd_lists_within(
    const ynd_cell *ynd, const ynd_lists *lists, int16_t x, int16_t y, uint16_t radius, uint32_t *places,
    size_t places_len, size_t *count, size_t *place)
{
    return ynd_within(
        ynd, lists->nodes, lists->nodes_len, x, y, radius, places, places_len, count, place);
}

YND_NODISCARD static inline uint32_t ynd_lists_nearest(
    const ynd_cell *ynd, const ynd_lists *lists, int16_t x, int16_t y, bool *found, size_t *at, uint64_t *square,
    size_t *place)
{
    return ynd_nearest(
        ynd, lists->nodes, lists->nodes_len, x, y, found, at, square, place);
}

/* ---- Round files ---- */

YND_NODISCARD static inline uint32_t ynd_lists_follow_round(
    const ynd_cell *ynd, const ynd_lists *lists, uint16_t start, const uint8_t *choices, size_t choices_len,
    uint32_t *visited, size_t visited_len, ynd_walk_end *end, size_t *count, size_t *place)
{
    return ynd_follow_round(
        ynd, lists->nodes, lists->nodes_len, lists->links, lists->links_len, start, choices, choices_len, visited,
        visited_len, end, count, place);
}

YND_NODISCARD static inline uint32_t ynd_lists_follow_round_indexed(
    const ynd_cell *ynd, const ynd_lists *lists, uint16_t start, const uint8_t *choices, size_t choices_len,
    uint32_t *visited, size_t visited_len, uint32_t *scratch, size_t scratch_len, ynd_walk_end *end, size_t *count,
    size_t *place)
{
    return ynd_follow_round_indexed(
        ynd, lists->nodes, lists->nodes_len, lists->links, lists->links_len, start, choices, choices_len, visited,
        visited_len, scratch, scratch_len, end, count, place);
}

/* ---- Rounds that say which cell they are of ---- */

YND_NODISCARD static inline uint32_t ynd_lists_follow_round_versioned(
    const ynd_cell *ynd, const ynd_lists *lists, uint16_t version, uint16_t area, uint16_t start,
    const uint8_t *choices, size_t choices_len, uint32_t *visited, size_t visited_len, ynd_walk_end *end,
    size_t *count, size_t *place)
{
    return ynd_follow_round_versioned(
        ynd, lists->nodes, lists->nodes_len, lists->links, lists->links_len, version, area, start, choices,
        choices_len, visited, visited_len, end, count, place);
}

/* ---- Sets of cells ---- */

YND_NODISCARD static inline uint32_t ynd_lists_set_join(
    size_t *count, ynd_member *members, size_t members_len, const ynd_lists *lists, const ynd_cell *ynd,
    const ynd_lists *joining, const ynd_counts *sizes, size_t *place)
{
    return ynd_set_join(
        count, members, members_len, lists->nodes, lists->nodes_len, lists->links, lists->links_len, lists->junctions,
        lists->junctions_len, lists->heights, lists->heights_len, lists->refs, lists->refs_len, ynd, joining->nodes,
        joining->nodes_len, joining->links, joining->links_len, joining->junctions, joining->junctions_len,
        joining->heights, joining->heights_len, joining->refs, joining->refs_len, sizes, place);
}

YND_NODISCARD static inline uint32_t ynd_lists_set_leave(
    ynd_member *members, size_t members_len, const ynd_lists *lists, uint16_t area, size_t *count, size_t *place)
{
    return ynd_set_leave(
        members, members_len, lists->nodes, lists->nodes_len, lists->links, lists->links_len, lists->junctions,
        lists->junctions_len, lists->heights, lists->heights_len, lists->refs, lists->refs_len, area, count, place);
}

YND_NODISCARD static inline uint32_t ynd_lists_set_hand_back(
    const ynd_member *members, size_t members_len, const ynd_lists *lists, uint16_t area, ynd_cell *ynd,
    const ynd_lists *to, size_t *place)
{
    return ynd_set_hand_back(
        members, members_len, lists->nodes, lists->nodes_len, lists->links, lists->links_len, lists->junctions,
        lists->junctions_len, lists->heights, lists->heights_len, lists->refs, lists->refs_len, area, ynd, to->nodes,
        to->nodes_len, to->links, to->links_len, to->junctions, to->junctions_len, to->heights, to->heights_len,
        to->refs, to->refs_len, place);
}

YND_NODISCARD static inline uint32_t ynd_lists_set_renumber(
    ynd_member *members, size_t members_len, const ynd_lists *lists, uint32_t *scratch, size_t scratch_len,
    uint32_t *places, size_t places_len, size_t member, size_t *place)
{
    return ynd_set_renumber(
        members, members_len, lists->nodes, lists->nodes_len, lists->links, lists->links_len, lists->junctions,
        lists->junctions_len, lists->heights, lists->heights_len, lists->refs, lists->refs_len, scratch, scratch_len,
        places, places_len, member, place);
}

YND_NODISCARD static inline uint32_t ynd_lists_set_crossing_walk(
    const ynd_member *members, size_t members_len, const ynd_lists *lists, size_t member, size_t start,
    const uint8_t *choices, size_t choices_len, ynd_location *visited, size_t visited_len, ynd_walk_end *end,
    size_t *count, size_t *place)
{
    return ynd_set_crossing_walk(
        members, members_len, lists->nodes, lists->nodes_len, lists->links, lists->links_len, member, start, choices,
        choices_len, visited, visited_len, end, count, place);
}

YND_NODISCARD static inline uint32_t ynd_lists_set_sound(
    const ynd_member *members, size_t members_len, const ynd_lists *lists, uint32_t *scratch, size_t scratch_len,
    bool *sound, size_t *place)
{
    return ynd_set_sound(
        members, members_len, lists->nodes, lists->nodes_len, lists->links, lists->links_len, lists->refs,
        lists->refs_len, scratch, scratch_len, sound, place);
}

static inline void ynd_lists_set_member_of_area(
    const ynd_member *members, size_t members_len, const ynd_lists *lists, uint16_t area, bool *found, size_t *member)
{
    ynd_set_member_of_area(
        members, members_len, lists->nodes, lists->nodes_len, area, found, member);
}

YND_NODISCARD static inline uint32_t ynd_lists_set_follow_round(
    const ynd_member *members, size_t members_len, const ynd_lists *lists, uint16_t version, uint16_t area,
    size_t member, uint16_t start, const uint8_t *choices, size_t choices_len, ynd_location *visited,
    size_t visited_len, ynd_walk_end *end, size_t *count, size_t *place)
{
    return ynd_set_follow_round(
        members, members_len, lists->nodes, lists->nodes_len, lists->links, lists->links_len, version, area, member,
        start, choices, choices_len, visited, visited_len, end, count, place);
}

/* ---- Calls on one member of a set ---- */

YND_NODISCARD static inline uint32_t ynd_lists_member_write(
    const ynd_member *members, size_t members_len, const ynd_lists *lists, size_t member, uint8_t *section,
    size_t section_len, size_t *length, size_t *place)
{
    return ynd_member_write(
        members, members_len, lists->nodes, lists->nodes_len, lists->links, lists->links_len, lists->junctions,
        lists->junctions_len, lists->heights, lists->heights_len, lists->refs, lists->refs_len, member, section,
        section_len, length, place);
}

YND_NODISCARD static inline uint32_t ynd_lists_member_write_then_read(
    ynd_member *members, size_t members_len, const ynd_lists *lists, size_t member, uint8_t *section,
    size_t section_len, size_t *length, size_t *place)
{
    return ynd_member_write_then_read(
        members, members_len, lists->nodes, lists->nodes_len, lists->links, lists->links_len, lists->junctions,
        lists->junctions_len, lists->heights, lists->heights_len, lists->refs, lists->refs_len, member, section,
        section_len, length, place);
}

YND_NODISCARD static inline uint32_t ynd_lists_member_shown_node(
    const ynd_member *members, size_t members_len, const ynd_lists *lists, size_t member, size_t at,
    ynd_seen_node *shown, size_t *place)
{
    return ynd_member_shown_node(
        members, members_len, lists->nodes, lists->nodes_len, lists->links, lists->links_len, lists->junctions,
        lists->junctions_len, lists->refs, lists->refs_len, member, at, shown, place);
}

YND_NODISCARD static inline uint32_t ynd_lists_member_shown_junction(
    const ynd_member *members, size_t members_len, const ynd_lists *lists, size_t member, size_t at,
    ynd_seen_junction *shown, size_t *place)
{
    return ynd_member_shown_junction(
        members, members_len, lists->junctions, lists->junctions_len, member, at, shown, place);
}

YND_NODISCARD static inline uint32_t ynd_lists_member_shown_values(
    const ynd_member *members, size_t members_len, const ynd_lists *lists, size_t member, size_t at, uint8_t *values,
    size_t values_len, size_t *count, size_t *place)
{
    return ynd_member_shown_values(
        members, members_len, lists->junctions, lists->junctions_len, lists->heights, lists->heights_len, member, at,
        values, values_len, count, place);
}

YND_NODISCARD static inline uint32_t ynd_lists_member_shown_link(
    const ynd_member *members, size_t members_len, const ynd_lists *lists, size_t member, size_t at, uint8_t choice,
    ynd_seen_link *shown, size_t *place)
{
    return ynd_member_shown_link(
        members, members_len, lists->nodes, lists->nodes_len, lists->links, lists->links_len, member, at, choice,
        shown, place);
}

YND_NODISCARD static inline uint32_t ynd_lists_member_node(
    const ynd_member *members, size_t members_len, const ynd_lists *lists, size_t member, uint16_t node_id,
    bool *found, size_t *at, size_t *place)
{
    return ynd_member_node(
        members, members_len, lists->nodes, lists->nodes_len, member, node_id, found, at, place);
}

YND_NODISCARD static inline uint32_t ynd_lists_member_junction_of(
    const ynd_member *members, size_t members_len, const ynd_lists *lists, size_t member, uint16_t area_id,
    uint16_t node_id, bool *found, size_t *at, size_t *place)
{
    return ynd_member_junction_of(
        members, members_len, lists->nodes, lists->nodes_len, lists->refs, lists->refs_len, member, area_id, node_id,
        found, at, place);
}

YND_NODISCARD static inline uint32_t ynd_lists_member_area(
    const ynd_member *members, size_t members_len, const ynd_lists *lists, size_t member, bool *found, uint32_t *area,
    size_t *place)
{
    return ynd_member_area(
        members, members_len, lists->nodes, lists->nodes_len, member, found, area, place);
}

YND_NODISCARD static inline uint32_t ynd_lists_member_add_node(
    ynd_member *members, size_t members_len, const ynd_lists *lists, size_t member, uint16_t area_id, float x, float y,
    float z, size_t *place)
{
    return ynd_member_add_node(
        members, members_len, lists->nodes, lists->nodes_len, member, area_id, x, y, z, place);
}

YND_NODISCARD static inline uint32_t ynd_lists_member_add_link(
    ynd_member *members, size_t members_len, const ynd_lists *lists, size_t member, size_t at,
    const ynd_link_entry *link, size_t *place)
{
    return ynd_member_add_link(
        members, members_len, lists->nodes, lists->nodes_len, lists->links, lists->links_len, member, at, link, place);
}

YND_NODISCARD static inline uint32_t ynd_lists_member_add_ref(
    ynd_member *members, size_t members_len, const ynd_lists *lists, size_t member, const ynd_ref_entry *added,
    size_t *place)
{
    return ynd_member_add_ref(
        members, members_len, lists->refs, lists->refs_len, member, added, place);
}

YND_NODISCARD static inline uint32_t ynd_lists_member_add_junction(
    ynd_member *members, size_t members_len, const ynd_lists *lists, size_t member, const ynd_junction_entry *junction,
    const uint8_t *values, size_t values_len, size_t *place)
{
    return ynd_member_add_junction(
        members, members_len, lists->junctions, lists->junctions_len, lists->heights, lists->heights_len, member,
        junction, values, values_len, place);
}

YND_NODISCARD static inline uint32_t ynd_lists_member_get_node(
    const ynd_member *members, size_t members_len, const ynd_lists *lists, size_t member, size_t at,
    ynd_node_entry *node, size_t *place)
{
    return ynd_member_get_node(
        members, members_len, lists->nodes, lists->nodes_len, member, at, node, place);
}

YND_NODISCARD static inline uint32_t ynd_lists_member_get_link(
    const ynd_member *members, size_t members_len, const ynd_lists *lists, size_t member, size_t at, size_t k,
    ynd_link_entry *link, size_t *place)
{
    return ynd_member_get_link(
        members, members_len, lists->nodes, lists->nodes_len, lists->links, lists->links_len, member, at, k, link,
        place);
}

YND_NODISCARD static inline uint32_t ynd_lists_member_get_ref(
    const ynd_member *members, size_t members_len, const ynd_lists *lists, size_t member, size_t at,
    ynd_ref_entry *taken, size_t *place)
{
    return ynd_member_get_ref(
        members, members_len, lists->refs, lists->refs_len, member, at, taken, place);
}

YND_NODISCARD static inline uint32_t ynd_lists_member_get_junction(
    const ynd_member *members, size_t members_len, const ynd_lists *lists, size_t member, size_t at,
    ynd_junction_entry *junction, size_t *place)
{
    return ynd_member_get_junction(
        members, members_len, lists->junctions, lists->junctions_len, member, at, junction, place);
}

YND_NODISCARD static inline uint32_t ynd_lists_member_get_height(
    const ynd_member *members, size_t members_len, const ynd_lists *lists, size_t member, size_t at, size_t k,
    uint8_t *value, size_t *place)
{
    return ynd_member_get_height(
        members, members_len, lists->junctions, lists->junctions_len, lists->heights, lists->heights_len, member, at,
        k, value, place);
}

YND_NODISCARD static inline uint32_t ynd_lists_member_put_node(
    const ynd_member *members, size_t members_len, const ynd_lists *lists, size_t member, size_t at,
    const ynd_node_entry *node, size_t *place)
{
    return ynd_member_put_node(
        members, members_len, lists->nodes, lists->nodes_len, member, at, node, place);
}

YND_NODISCARD static inline uint32_t ynd_lists_member_set_position(
    const ynd_member *members, size_t members_len, const ynd_lists *lists, size_t member, size_t at, float x, float y,
    float z, size_t *place)
{
    return ynd_member_set_position(
        members, members_len, lists->nodes, lists->nodes_len, member, at, x, y, z, place);
}

YND_NODISCARD static inline uint32_t ynd_lists_member_put_link(
    const ynd_member *members, size_t members_len, const ynd_lists *lists, size_t member, size_t at, size_t k,
    const ynd_link_entry *link, size_t *place)
{
    return ynd_member_put_link(
        members, members_len, lists->nodes, lists->nodes_len, lists->links, lists->links_len, member, at, k, link,
        place);
}

YND_NODISCARD static inline uint32_t ynd_lists_member_put_ref(
    const ynd_member *members, size_t members_len, const ynd_lists *lists, size_t member, size_t at,
    const ynd_ref_entry *put, size_t *place)
{
    return ynd_member_put_ref(
        members, members_len, lists->refs, lists->refs_len, member, at, put, place);
}

YND_NODISCARD static inline uint32_t ynd_lists_member_put_junction(
    const ynd_member *members, size_t members_len, const ynd_lists *lists, size_t member, size_t at,
    const ynd_junction_entry *junction, size_t *place)
{
    return ynd_member_put_junction(
        members, members_len, lists->junctions, lists->junctions_len, member, at, junction, place);
}

YND_NODISCARD static inline uint32_t ynd_lists_member_put_height(
    const ynd_member *members, size_t members_len, const ynd_lists *lists, size_t member, size_t at, size_t k,
    uint8_t value, size_t *place)
{
    return ynd_member_put_height(
        members, members_len, lists->junctions, lists->junctions_len, lists->heights, lists->heights_len, member, at,
        k, value, place);
}

YND_NODISCARD static inline uint32_t ynd_lists_member_put_links(
    ynd_member *members, size_t members_len, const ynd_lists *lists, size_t member, size_t at,
    const ynd_link_entry *given, size_t given_len, size_t *place)
{
    return ynd_member_put_links(
        members, members_len, lists->nodes, lists->nodes_len, lists->links, lists->links_len, member, at, given,
        given_len, place);
}

YND_NODISCARD static inline uint32_t ynd_lists_member_put_heightmap(
    ynd_member *members, size_t members_len, const ynd_lists *lists, size_t member, size_t at, uint8_t width,
    uint8_t height, const uint8_t *values, size_t values_len, size_t *place)
{
    return ynd_member_put_heightmap(
        members, members_len, lists->junctions, lists->junctions_len, lists->heights, lists->heights_len, member, at,
        width, height, values, values_len, place);
}

/* ---- Shortest paths ---- */

YND_NODISCARD static inline uint32_t ynd_lists_shortest_path(
    const ynd_cell *ynd, const ynd_lists *lists, size_t from, size_t to, uint32_t *scratch, size_t scratch_len,
    uint8_t *choices, size_t choices_len, uint32_t *places, size_t places_len, uint32_t *distance, size_t *count,
    size_t *place)
{
    return ynd_shortest_path(
        ynd, lists->nodes, lists->nodes_len, lists->links, lists->links_len, from, to, scratch, scratch_len, choices,
        choices_len, places, places_len, distance, count, place);
}

/* ---- Entries added ---- */

YND_NODISCARD static inline uint32_t ynd_lists_add_node(
    ynd_cell *ynd, const ynd_lists *lists, uint16_t area_id, float x, float y, float z, size_t *place)
{
    return ynd_add_node(
        ynd, lists->nodes, lists->nodes_len, area_id, x, y, z, place);
}

YND_NODISCARD static inline uint32_t ynd_lists_add_link(
    ynd_cell *ynd, const ynd_lists *lists, size_t at, const ynd_link_entry *link, size_t *place)
{
    return ynd_add_link(
        ynd, lists->nodes, lists->nodes_len, lists->links, lists->links_len, at, link, place);
}

YND_NODISCARD static inline uint32_t ynd_lists_add_ref(
    ynd_cell *ynd, const ynd_lists *lists, const ynd_ref_entry *added, size_t *place)
{
    return ynd_add_ref(
        ynd, lists->refs, lists->refs_len, added, place);
}

YND_NODISCARD static inline uint32_t ynd_lists_add_junction(
    ynd_cell *ynd, const ynd_lists *lists, const ynd_junction_entry *junction, const uint8_t *values,
    size_t values_len, size_t *place)
{
    return ynd_add_junction(
        ynd, lists->junctions, lists->junctions_len, lists->heights, lists->heights_len, junction, values, values_len,
        place);
}

/* ---- Entries taken out and stored ---- */

YND_NODISCARD static inline uint32_t ynd_lists_get_node(
    const ynd_cell *ynd, const ynd_lists *lists, size_t at, ynd_node_entry *node, size_t *place)
{
    return ynd_get_node(
        ynd, lists->nodes, lists->nodes_len, at, node, place);
}

YND_NODISCARD static inline uint32_t ynd_lists_get_link(
    const ynd_cell *ynd, const ynd_lists *lists, size_t at, size_t k, ynd_link_entry *link, size_t *place)
{
    return ynd_get_link(
        ynd, lists->nodes, lists->nodes_len, lists->links, lists->links_len, at, k, link, place);
}

YND_NODISCARD static inline uint32_t ynd_lists_get_ref(
    const ynd_cell *ynd, const ynd_lists *lists, size_t at, ynd_ref_entry *taken, size_t *place)
{
    return ynd_get_ref(
        ynd, lists->refs, lists->refs_len, at, taken, place);
}

YND_NODISCARD static inline uint32_t ynd_lists_get_junction(
    const ynd_cell *ynd, const ynd_lists *lists, size_t at, ynd_junction_entry *junction, size_t *place)
{
    return ynd_get_junction(
        ynd, lists->junctions, lists->junctions_len, at, junction, place);
}

YND_NODISCARD static inline uint32_t ynd_lists_get_height(
    const ynd_cell *ynd, const ynd_lists *lists, size_t at, size_t k, uint8_t *value, size_t *place)
{
    return ynd_get_height(
        ynd, lists->junctions, lists->junctions_len, lists->heights, lists->heights_len, at, k, value, place);
}

YND_NODISCARD static inline uint32_t ynd_lists_put_node(
    const ynd_cell *ynd, const ynd_lists *lists, size_t at, const ynd_node_entry *node, size_t *place)
{
    return ynd_put_node(
        ynd, lists->nodes, lists->nodes_len, at, node, place);
}

YND_NODISCARD static inline uint32_t ynd_lists_set_position(
    const ynd_cell *ynd, const ynd_lists *lists, size_t at, float x, float y, float z, size_t *place)
{
    return ynd_set_position(
        ynd, lists->nodes, lists->nodes_len, at, x, y, z, place);
}

YND_NODISCARD static inline uint32_t ynd_lists_put_link(
    const ynd_cell *ynd, const ynd_lists *lists, size_t at, size_t k, const ynd_link_entry *link, size_t *place)
{
    return ynd_put_link(
        ynd, lists->nodes, lists->nodes_len, lists->links, lists->links_len, at, k, link, place);
}

YND_NODISCARD static inline uint32_t ynd_lists_put_ref(
    const ynd_cell *ynd, const ynd_lists *lists, size_t at, const ynd_ref_entry *put, size_t *place)
{
    return ynd_put_ref(
        ynd, lists->refs, lists->refs_len, at, put, place);
}

YND_NODISCARD static inline uint32_t ynd_lists_put_junction(
    const ynd_cell *ynd, const ynd_lists *lists, size_t at, const ynd_junction_entry *junction, size_t *place)
{
    return ynd_put_junction(
        ynd, lists->junctions, lists->junctions_len, at, junction, place);
}

YND_NODISCARD static inline uint32_t ynd_lists_put_height(
    const ynd_cell *ynd, const ynd_lists *lists, size_t at, size_t k, uint8_t value, size_t *place)
{
    return ynd_put_height(
        ynd, lists->junctions, lists->junctions_len, lists->heights, lists->heights_len, at, k, value, place);
}

/* ---- Words ---- */

YND_NODISCARD static inline uint32_t ynd_lists_put_links(
    ynd_cell *ynd, const ynd_lists *lists, size_t at, const ynd_link_entry *given, size_t given_len, size_t *place)
{
    return ynd_put_links(
        ynd, lists->nodes, lists->nodes_len, lists->links, lists->links_len, at, given, given_len, place);
}

YND_NODISCARD static inline uint32_t ynd_lists_put_heightmap(
    ynd_cell *ynd, const ynd_lists *lists, size_t at, uint8_t width, uint8_t height, const uint8_t *values,
    size_t values_len, size_t *place)
{
    return ynd_put_heightmap(
        ynd, lists->junctions, lists->junctions_len, lists->heights, lists->heights_len, at, width, height, values,
        values_len, place);
}

#ifdef __cplusplus
}
#endif
#endif
