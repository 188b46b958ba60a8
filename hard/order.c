/* Which cause is answered for structs and sets made by hand, where the header's words for a call settle it. */
#include "drive.h"

enum { OWN = 5, PED = 10 << 3, MANY = 32 };

static ynd_node_entry node_of(uint16_t area, uint16_t number)
{
    ynd_node_entry node;
    ynd_node_new(area, number, 0, 0, 0, &node);
    return node;
}

/* 14 where a count of links would pass 32 bits, before 7 for a list that is far shorter. */
static void links_past_32_bits(void)
{
    ynd_cell ynd;
    ynd_node_entry node = node_of(OWN, 0);
    ynd_link_entry links[1], link;
    size_t place = 9;
    ynd_link_to(OWN, 0, &link);
    ynd_link_to(OWN, 0, links);
    ynd_new(&ynd);
    ynd.node_count = 1;
    ynd.link_count = UINT32_MAX;
    CHECK(ynd_add_link(&ynd, &node, 1, links, 1, 0, &link, &place) == YND_AT_LIMIT && place == 0);
    ynd.link_count = UINT32_MAX - 1;
    CHECK(ynd_add_link(&ynd, &node, 1, links, 1, 0, &link, &place) == YND_LENT_TOO_SHORT && place == YND_LINKS);
}

/* 8 is asked of the links that are lent: of 32 links 31 are no cause for it, and the list is too short. */
static void links_lent(void)
{
    ynd_cell ynd;
    ynd_node_entry node = node_of(OWN, 0);
    ynd_link_entry links[MANY];
    uint8_t section[2048];
    size_t length, place;
    for (size_t k = 0; k < MANY; k++)
        ynd_link_to(OWN, 0, &links[k]);
    ynd_new(&ynd);
    ynd.node_count = 1;
    ynd.link_count = node.link_count = MANY;
    CHECK(ynd_write(&ynd, &node, 1, links, MANY, NULL, 0, NULL, 0, NULL, 0, section, sizeof section, &length,
                    &place) == YND_OVER_31_LINKS);
    CHECK(ynd_write(&ynd, &node, 1, links, MANY - 1, NULL, 0, NULL, 0, NULL, 0, section, sizeof section, &length,
                    &place) == YND_LENT_TOO_SHORT && place == YND_LINKS);
}

/* A member's part of the values is shorter than its count: 7 at 3 in calls that are lent no values, but in a crossing
 * walk, which goes by nodes and links alone. */
static void part_of_no_list(void)
{
    ynd_member member;
    ynd_node_entry node = node_of(OWN, 0), copy;
    ynd_location visited[1];
    ynd_walk_end end;
    size_t count, place;
    ynd_new(&member.ynd);
    member.ynd.node_count = member.nodes = 1;
    member.links = member.junctions = member.heights = member.refs = 0;
    member.ynd.heightmap_count = 1;
    CHECK(ynd_member_get_node(&member, 1, &node, 1, 0, 0, &copy, &place) == YND_LENT_TOO_SHORT
          && place == YND_HEIGHTS);
    CHECK(ynd_set_follow_round(&member, 1, &node, 1, NULL, 0, 1, 0, 0, 0, NULL, 0, visited, 1, &end, &count, &place)
          == YND_LENT_TOO_SHORT && place == YND_HEIGHTS);
    CHECK(ynd_set_crossing_walk(&member, 1, &node, 1, NULL, 0, 0, 0, NULL, 0, visited, 1, &end, &count, &place)
          == YND_ACCEPTED && count == 1);
}

/* An unsound cell of two areas: renumbering puts the other area's node first, and a round of the old area is 19. */
static void own_area_moves(void)
{
    static uint32_t scratch[YND_SCRATCH];
    ynd_cell ynd;
    ynd_node_entry nodes[2] = { node_of(OWN, 0), node_of(OWN + 1, 1) };
    uint32_t places[2], visited[1];
    ynd_walk_end end;
    size_t count, place;
    nodes[0].flags1 = PED;
    ynd_new(&ynd);
    ynd.node_count = 2;
    CHECK(ynd_follow_round_versioned(&ynd, nodes, 2, NULL, 0, 2, OWN, 0, NULL, 0, visited, 1, &end, &count, &place)
          == YND_ACCEPTED);
    CHECK(ynd_renumber(&ynd, nodes, 2, NULL, 0, NULL, 0, NULL, 0, NULL, 0, scratch, YND_SCRATCH, places, 2, &place)
          == YND_ACCEPTED);
    CHECK(ynd_follow_round_versioned(&ynd, nodes, 2, NULL, 0, 2, OWN, 1, NULL, 0, visited, 1, &end, &count, &place)
          == YND_OTHER_AREA);
}

void orders_of_causes(void)
{
    links_past_32_bits();
    links_lent();
    part_of_no_list();
    own_area_moves();
}
