/* The calls that the other checks leave out: fields of nodes and links, records, texts, and empty lists as NULL. */
#include "drive.h"

typedef bool node_bit(const ynd_node_entry *);
typedef void set_node_bit(ynd_node_entry *, bool);
typedef uint8_t node_number(const ynd_node_entry *);
typedef void set_node_number(ynd_node_entry *, uint8_t);

static const struct { node_bit *get; set_node_bit *set; size_t byte; unsigned bit; } NODE_BITS[] = {
    { ynd_node_off_road, ynd_node_set_off_road, 0, 3 },
    { ynd_node_no_big_vehicles, ynd_node_set_no_big_vehicles, 0, 5 },
    { ynd_node_cannot_go_left, ynd_node_set_cannot_go_left, 0, 7 },
    { ynd_node_slip_road, ynd_node_set_slip_road, 1, 0 },
    { ynd_node_indicate_keep_left, ynd_node_set_indicate_keep_left, 1, 1 },
    { ynd_node_indicate_keep_right, ynd_node_set_indicate_keep_right, 1, 2 },
    { ynd_node_left_turns_only, ynd_node_set_left_turns_only, 1, 7 },
    { ynd_node_no_gps, ynd_node_set_no_gps, 2, 0 },
    { ynd_node_is_junction, ynd_node_set_is_junction, 2, 2 },
    { ynd_node_highway, ynd_node_set_highway, 2, 6 },
    { ynd_node_tunnel, ynd_node_set_tunnel, 3, 0 },
};

static const struct { node_number *get; set_node_number *set; size_t byte; unsigned shift, bits; } NODE_NUMBERS[] = {
    { ynd_node_special, ynd_node_set_special, 1, 3, 5 },
    { ynd_node_heuristic_value, ynd_node_set_heuristic_value, 3, 1, 7 },
    { ynd_node_density, ynd_node_set_density, 4, 0, 4 },
    { ynd_node_speed, ynd_node_set_speed, 5, 1, 2 },
};

static unsigned field(uint8_t byte, unsigned shift, unsigned bits)
{
    return byte >> shift & ((1u << bits) - 1);
}

static void node_fields(ynd_node_entry *v, uint8_t value)
{
    uint8_t *flags = &v->flags0;
    for (size_t i = 0; i < sizeof NODE_BITS / sizeof *NODE_BITS; i++) {
        memset(flags, value, 6);
        NODE_BITS[i].set(v, value % 3 == 0);
        CHECK(NODE_BITS[i].get(v) == (value % 3 == 0) && field(flags[NODE_BITS[i].byte], NODE_BITS[i].bit, 1) == (value % 3 == 0));
        CHECK(((flags[NODE_BITS[i].byte] ^ value) & ~(1u << NODE_BITS[i].bit)) == 0);
    }
    for (size_t i = 0; i < sizeof NODE_NUMBERS / sizeof *NODE_NUMBERS; i++) {
        memset(flags, (uint8_t)~value, 6);
        NODE_NUMBERS[i].set(v, value);
        unsigned want = i == 3 && value > 3 ? 3 : field(value, 0, NODE_NUMBERS[i].bits);
        CHECK(NODE_NUMBERS[i].get(v) == want && field(flags[NODE_NUMBERS[i].byte], NODE_NUMBERS[i].shift, NODE_NUMBERS[i].bits) == want);
    }
    memset(flags, value, 6);
    CHECK(ynd_node_dead_endness(v) == field(value, 4, 3) * 16);
    CHECK(ynd_node_is_disabled_unk1(v) == field(value, 4, 1) && ynd_node_is_disabled_unk0(v) == field(value, 7, 1));
    CHECK(ynd_node_is_disabled(v) == (field(value, 4, 1) || field(value, 7, 1)));
    CHECK(ynd_node_is_ped_node(v) == ynd_special_is_ped(value >> 3));
    CHECK(ynd_special_is_ped(value) == (value == 10 || value == 14 || value == 18));
}

static void link_fields(ynd_link_entry *l, uint8_t value)
{
    memset(&l->flags0, value, 3);
    CHECK(ynd_link_gps_both_ways(l) == field(value, 0, 1) && ynd_link_narrow_road(l) == field(value, 1, 1));
    CHECK(ynd_link_offset_value(l) == field(value, 4, 3) && ynd_link_negative_offset(l) == field(value, 7, 1));
    CHECK(ynd_link_lane_offset(l) == ynd_lane_offset(ynd_link_offset_value(l), ynd_link_negative_offset(l)));
    CHECK(ynd_link_dont_use_for_navigation(l) == field(value, 0, 1) && ynd_link_shortcut(l) == field(value, 1, 1));
    CHECK(ynd_link_lane_count_backward(l) == field(value, 2, 3) && ynd_link_lane_count_forward(l) == field(value, 5, 3));
    CHECK(ynd_link_is_two_way(l) == (field(value, 2, 3) > 0 && field(value, 5, 3) > 0));
    ynd_link_set_shortcut(l, value % 3 == 0);
    ynd_link_set_lane_count_backward(l, value);
    ynd_link_set_lane_count_forward(l, (uint8_t)(value / 2));
    CHECK(ynd_link_shortcut(l) == (value % 3 == 0) && ynd_link_lane_count_backward(l) == field(value, 0, 3));
    CHECK(ynd_link_lane_count_forward(l) == field((uint8_t)(value / 2), 0, 3) && ynd_link_dont_use_for_navigation(l) == field(value, 0, 1));
}

static void new_entries(ynd_node_entry *v, ynd_link_entry *l)
{
    float *stored = block(3 * sizeof *stored);
    ynd_node_new(489, 7, -0.3f, 8192, -1024, v);
    CHECK(v->area_id == 489 && v->node_id == 7 && v->x == -0.25f && v->y == 8191.75f && v->z == -1024 && v->link_count == 0);
    CHECK((v->unused0 | v->unused1 | v->unused2 | v->unused3 | v->unused4) == 0);
    ynd_node_set_position(v, 1.1f, 2.2f, 3.3f);
    ynd_stored_position(1.1f, 2.2f, 3.3f, stored);
    CHECK(v->x == stored[0] && v->y == stored[1] && v->z == stored[2] && v->node_id == 7);
    ynd_link_to(1, 2, l);
    CHECK(l->area_id == 1 && l->node_id == 2 && l->flags0 == 0 && l->length == 0);
    unblock(stored, 3 * sizeof *stored);
}

/* A record of so many bytes at an offset: its bytes, or 3 at its array's place, and nothing is changed. */
static void record_at(const uint8_t *section, size_t n, uint32_t at, uint32_t number, size_t place, size_t array,
    const uint8_t *bytes, size_t width)
{
    bool inside = at + width <= n;
    CHECK(number == (inside ? 0 : YND_BAD_ARRAY) && place == (inside ? 0 : array));
    for (size_t k = 0; k < width; k++)
        CHECK(bytes[k] == (inside ? section[at + k] : KEPT));
}

/* Records at every offset of a short section, past its end too. */
static void records(void)
{
    enum { N = 130 };
    uint8_t *section = block(N);
    uint32_t *words = block(YND_ROOT_WORDS * sizeof *words);
    size_t *place = block(sizeof *place);
    for (unsigned i = 0; i < N; i++)
        section[i] = (uint8_t)(i * 37 + 11);
    for (uint32_t at = 0; at < N + 50; at++) {
        uint8_t *node = block(40), *link = block(8), *junction = block(12), *ref = block(8);
        uint32_t number = ynd_node_record(section, N, at, node, place);
        record_at(section, N, at, number, *place, YND_NODES, node, 40);
        number = ynd_link_record(section, N, at, link, place);
        record_at(section, N, at, number, *place, YND_LINKS, link, 8);
        number = ynd_junction_record(section, N, at, junction, place);
        record_at(section, N, at, number, *place, YND_JUNCTIONS, junction, 12);
        number = ynd_ref_record(section, N, at, ref, place);
        record_at(section, N, at, number, *place, YND_REFS, ref, 8);
        unblock(ref, 8);
        unblock(junction, 12);
        unblock(link, 8);
        unblock(node, 40);
    }
    CHECK(ynd_root(section, N, words, place) == 0 && *place == 0);
    CHECK(words[0] == number_at(section, 0, 4) && words[1] == 1 && words[6] == number_at(section, 24, 4));
    CHECK(ynd_root(section, 111, words, place) == YND_FEW_SYSTEM_BYTES && words[1] == 1);
    CHECK(ynd_root(section, 0, words, place) == 0 && words[0] == 0x4061E3B0 && words[6] == 0);
    unblock(place, sizeof *place);
    unblock(words, YND_ROOT_WORDS * sizeof *words);
    unblock(section, N);
}

/* No system bytes are the cell of ynd_new, in any lists and with any graphics; 1 to 111 are refused with 1. */
static void undrawn(void)
{
    uint8_t *zeros = block(YND_ROOT_BYTES), *graphics = block(YND_SECTION_MOST + 1), *heights = block(1);
    size_t *place = block(sizeof *place);
    ynd_cell *ynd = block(sizeof *ynd), *fresh = block(sizeof *fresh), *before = block(sizeof *before);
    ynd_counts *counts = block(sizeof *counts);
    memset(zeros, 0, YND_ROOT_BYTES);
    memset(graphics, 0xA5, YND_SECTION_MOST + 1);
    memset(ynd, 0xA5, sizeof *ynd);
    memcpy(before, ynd, sizeof *ynd);
    *heights = 7;
    ynd_new(fresh);
    for (size_t n = 1; n < YND_ROOT_BYTES; n++)
        CHECK(ynd_read(ynd, zeros, n, NULL, 0, NULL, 0, NULL, 0, NULL, 0, NULL, 0, NULL, 0, place)
            == YND_FEW_SYSTEM_BYTES && *place == 0 && memcmp(ynd, before, sizeof *ynd) == 0);
    uint32_t number =
        ynd_read(ynd, NULL, 0, graphics, YND_SECTION_MOST + 1, NULL, 0, NULL, 0, NULL, 0, NULL, 0, NULL, 0, place);
    CHECK(number == YND_SECTION_TOO_LONG && *place == 1 && memcmp(ynd, before, sizeof *ynd) == 0);
    CHECK(ynd_count(NULL, 0, graphics, 3, counts, place) == 0 && counts->nodes == 0 && counts->refs == 0);
    number = ynd_read(ynd, NULL, 0, graphics, YND_SECTION_MOST, NULL, 0, NULL, 0, NULL, 0, heights, 1, NULL, 0, place);
    CHECK(number == 0 && memcmp(ynd, fresh, sizeof *ynd) == 0 && *heights == 7);
    unblock(counts, sizeof *counts);
    unblock(before, sizeof *before);
    unblock(fresh, sizeof *fresh);
    unblock(ynd, sizeof *ynd);
    unblock(place, sizeof *place);
    unblock(heights, 1);
    unblock(graphics, YND_SECTION_MOST + 1);
    unblock(zeros, YND_ROOT_BYTES);
}

/* Rounds of version 2 likewise. A cell with no node has area 0. */
static void no_round_lists(const ynd_cell *ynd, uint8_t *file, ynd_walk_end *end, size_t *n, size_t *place)
{
    enum { LONG = YND_AREA_ROUND_BYTES };
    uint16_t version = 7, area = 7, start = 7;
    CHECK(ynd_read_round_versioned(NULL, 0, NULL, 0, &version, &area, &start, n, place) == YND_NO_ROUND_FILE);
    CHECK(version == 7 && area == 7 && start == 7);
    CHECK(ynd_write_round_versioned(2, 1027, 9, NULL, 0, file, LONG, n, place) == 0 && *n == LONG);
    CHECK(ynd_read_round_versioned(file, LONG, NULL, 0, &version, &area, &start, n, place) == 0 && *n == 0);
    CHECK(version == 2 && area == 1027 && start == 9);
    CHECK(ynd_write_round_versioned(2, 1027, 9, NULL, 0, NULL, 0, n, place) == YND_LENT_TOO_SHORT);
    CHECK(ynd_write_round_versioned(0, 1027, 9, NULL, 0, NULL, 0, n, place) == YND_NO_ROUND_FILE);
    CHECK(ynd_follow_round_versioned(ynd, NULL, 0, NULL, 0, 2, 0, 0, NULL, 0, NULL, 0, end, n, place)
        == YND_NO_SUCH_PLACE);
    CHECK(ynd_follow_round_versioned(ynd, NULL, 0, NULL, 0, 2, 1, 0, NULL, 0, NULL, 0, end, n, place)
        == YND_OTHER_AREA);
}

/* An empty list may be NULL: a cell of 112 zero bytes, with nothing lent. */
static void empty_lists(void)
{
    uint8_t *zeros = block(YND_ROOT_BYTES), *section = block(1152);
    size_t *place = block(sizeof *place), *n = block(sizeof *n), *at = block(sizeof *at);
    uint32_t *scratch = block(YND_SCRATCH * sizeof *scratch), *area = block(sizeof *area);
    bool *yes = block(sizeof *yes);
    uint64_t square = 7;
    uint16_t start = 7;
    ynd_cell *ynd = block(sizeof *ynd);
    ynd_counts *counts = block(sizeof *counts);
    ynd_walk_end *end = block(sizeof *end);
    memset(zeros, 0, YND_ROOT_BYTES);
    *yes = false;
    CHECK(ynd_count(NULL, 0, NULL, 0, counts, place) == 0 && counts->nodes == 0 && counts->refs == 0);
    CHECK(ynd_count(zeros, YND_ROOT_BYTES, NULL, 0, counts, place) == 0 && counts->nodes == 0 && counts->refs == 0);
    CHECK(ynd_read(ynd, zeros, YND_ROOT_BYTES, NULL, 0, NULL, 0, NULL, 0, NULL, 0, NULL, 0, NULL, 0, place) == 0 && ynd->node_count == 0);
    CHECK(ynd_sound(ynd, NULL, 0, NULL, 0, NULL, 0, scratch, YND_SCRATCH, yes, place) == 0 && *yes);
    CHECK(ynd_sound(ynd, NULL, 0, NULL, 0, NULL, 0, NULL, 0, yes, place) == YND_LENT_TOO_SHORT && *place == YND_SCRATCH_LIST);
    CHECK(ynd_renumber(ynd, NULL, 0, NULL, 0, NULL, 0, NULL, 0, NULL, 0, scratch, YND_SCRATCH, NULL, 0, place) == 0);
    CHECK(ynd_write(ynd, NULL, 0, NULL, 0, NULL, 0, NULL, 0, NULL, 0, section, 1152, n, place) == 0 && *n == 1152);
    CHECK(ynd_write(ynd, NULL, 0, NULL, 0, NULL, 0, NULL, 0, NULL, 0, NULL, 0, n, place) == YND_LENT_TOO_SHORT && *place == YND_SECTION);
    CHECK(ynd_write_then_read(ynd, NULL, 0, NULL, 0, NULL, 0, NULL, 0, NULL, 0, section, 1152, n, place) == 0 && *n == 1152);
    CHECK(ynd_walk(ynd, NULL, 0, NULL, 0, 0, NULL, 0, NULL, 0, end, n, place) == YND_NO_SUCH_PLACE);
    CHECK(ynd_walk_indexed(ynd, NULL, 0, NULL, 0, 0, NULL, 0, NULL, 0, NULL, 0, end, n, place) == YND_NO_SUCH_PLACE);
    CHECK(ynd_node(ynd, NULL, 0, 3, yes, at, place) == 0 && !*yes && *at == KEPT_SIZE);
    CHECK(ynd_junction_of(ynd, NULL, 0, NULL, 0, 1, 2, yes, at, place) == 0 && !*yes);
    CHECK(ynd_area_of_cell(ynd, NULL, 0, yes, area, place) == 0 && !*yes);
    CHECK(ynd_within(ynd, NULL, 0, 0, 0, 65535, NULL, 0, n, place) == 0 && *n == 0);
    CHECK(ynd_nearest(ynd, NULL, 0, 0, 0, yes, at, &square, place) == 0 && !*yes && *at == KEPT_SIZE && square == 7);
    CHECK(ynd_follow_round(ynd, NULL, 0, NULL, 0, 0, NULL, 0, NULL, 0, end, n, place) == YND_NO_SUCH_PLACE);
    CHECK(ynd_follow_round_indexed(ynd, NULL, 0, NULL, 0, 0, NULL, 0, NULL, 0, NULL, 0, end, n, place)
        == YND_NO_SUCH_PLACE);
    CHECK(ynd_read_round(NULL, 0, NULL, 0, &start, n, place) == YND_NO_ROUND_FILE && start == 7);
    CHECK(ynd_write_round(7, NULL, 0, section, YND_ROUND_BYTES, n, place) == 0 && *n == YND_ROUND_BYTES);
    CHECK(ynd_read_round(section, YND_ROUND_BYTES, NULL, 0, &start, n, place) == 0 && *n == 0 && start == 7);
    CHECK(ynd_write_round(7, NULL, 0, NULL, 0, n, place) == YND_LENT_TOO_SHORT && *place == YND_VISITED);
    no_round_lists(ynd, section, end, n, place);
    CHECK(ynd_shown_values(ynd, NULL, 0, NULL, 0, 0, NULL, 0, n, place) == YND_NO_SUCH_PLACE);
    CHECK(ynd_add_node(ynd, NULL, 0, 1, 0, 0, 0, place) == YND_LENT_TOO_SHORT && *place == YND_NODES);
    CHECK(!ynd_area_id_from_file_name(NULL, 0, area));
    unblock(end, sizeof *end);
    unblock(counts, sizeof *counts);
    unblock(ynd, sizeof *ynd);
    unblock(yes, sizeof *yes);
    unblock(area, sizeof *area);
    unblock(scratch, YND_SCRATCH * sizeof *scratch);
    unblock(at, sizeof *at);
    unblock(n, sizeof *n);
    unblock(place, sizeof *place);
    unblock(section, 1152);
    unblock(zeros, YND_ROOT_BYTES);
}

/* A refusal's text in every length of memory: what fits, a zero, and the later bytes as they were. */
static void text(uint32_t number, const char *whole)
{
    size_t n = strlen(whole);
    CHECK(n < YND_TEXT_MOST && ynd_refusal_text(number, NULL, 0) == n);
    for (size_t room = 1; room < n + 4; room++) {
        char *bytes = block(room);
        size_t kept = n < room - 1 ? n : room - 1;
        CHECK(ynd_refusal_text(number, bytes, room) == n);
        CHECK(memcmp(bytes, whole, kept) == 0 && bytes[kept] == 0);
        for (size_t i = kept + 1; i < room; i++)
            CHECK((uint8_t)bytes[i] == KEPT);
        unblock(bytes, room);
    }
}

/* Each number has a text of its own, and those that no refusal has have one. */
static void texts(void)
{
    static char known[YND_OTHER_AREA + 2][YND_TEXT_MOST];
    for (uint32_t k = 0; k < YND_OTHER_AREA + 2; k++) {
        ynd_refusal_text(k, known[k], YND_TEXT_MOST);
        text(k, known[k]);
        for (uint32_t i = 0; i < k; i++)
            CHECK(strcmp(known[i], known[k]) != 0);
    }
    CHECK(strcmp(known[YND_ACCEPTED], "accepted") == 0);
    CHECK(strcmp(known[YND_LENT_TOO_SHORT], "lent memory too short") == 0);
    text(UINT32_MAX, known[YND_OTHER_AREA + 1]);
    CHECK(ynd_version() == BOFRASHEM_VERSION_NUMBER);
}

void every_call(void)
{
    ynd_node_entry *v = block(sizeof *v);
    ynd_link_entry *l = block(sizeof *l);
    for (unsigned value = 0; value < 256; value++) {
        node_fields(v, (uint8_t)value);
        link_fields(l, (uint8_t)value);
    }
    new_entries(v, l);
    unblock(l, sizeof *l);
    unblock(v, sizeof *v);
    records();
    undrawn();
    texts();
    empty_lists();
    most_choices();
    most_choices_of_area();
    every_version();
    two_members();
    orders_of_causes();
}
