//! What include/bofrashem.h declares, in Rust: declarations only. The crate `bofrashem` has safe calls over them.
//!
//! Made from the header by `from_header`; docs/LINKING.md is the guide. A list is pointer and length, counted in
//! entries; what is lent for changing overlaps nothing else lent to the same call. The library is the archive that
//! YND_ARCHIVE names, or the repository's own, or what `pkg-config bofrashem` finds. Build scripts of dependents get
//! `DEP_BOFRASHEM_ARCHIVE` or `DEP_BOFRASHEM_LIBDIR`, and `DEP_BOFRASHEM_INCLUDE`.
#![no_std]
#![allow(non_camel_case_types)]
#![cfg_attr(rustfmt, rustfmt_skip)]

pub const YND_ACCEPTED: u32 = 0;
pub const YND_FEW_SYSTEM_BYTES: u32 = 1;
pub const YND_SECTION_TOO_LONG: u32 = 2;
pub const YND_BAD_ARRAY: u32 = 3;
pub const YND_BAD_LINK_RANGE: u32 = 4;
pub const YND_BAD_HEIGHTMAP_RANGE: u32 = 5;
pub const YND_TOO_MANY: u32 = 6;
pub const YND_LENT_TOO_SHORT: u32 = 7;
pub const YND_OVER_31_LINKS: u32 = 8;
pub const YND_LINKS_BEFORE_NODE: u32 = 9;
pub const YND_HEIGHTS_BEFORE_JUNCTION: u32 = 10;
pub const YND_TOO_MANY_REFS: u32 = 11;
pub const YND_VALUES_NOT_SIZE: u32 = 12;
pub const YND_NO_SUCH_PLACE: u32 = 13;
pub const YND_AT_LIMIT: u32 = 14;
pub const YND_NO_ROUND_FILE: u32 = 15;
pub const YND_BAD_ROUND_LENGTH: u32 = 16;
pub const YND_UNREACHABLE: u32 = 17;
pub const YND_AREA_IN_SET: u32 = 18;
pub const YND_OTHER_AREA: u32 = 19;

pub const YND_NODES: usize = 0;
pub const YND_LINKS: usize = 1;
pub const YND_JUNCTIONS: usize = 2;
pub const YND_HEIGHTS: usize = 3;
pub const YND_REFS: usize = 4;
pub const YND_SECTION: usize = 5;
pub const YND_SCRATCH_LIST: usize = 6;
pub const YND_NEW_PLACES: usize = 7;
pub const YND_VISITED: usize = 8;
pub const YND_PATH_SCRATCH_LIST: usize = 9;
pub const YND_MEMBERS: usize = 10;

pub const YND_ROOT_BYTES: usize = 112;
pub const YND_PAGE_BLOCK_BYTES: usize = 1040;
pub const YND_NODE_RECORD_BYTES: usize = 40;
pub const YND_LINK_RECORD_BYTES: usize = 8;
pub const YND_JUNCTION_RECORD_BYTES: usize = 12;
pub const YND_REF_RECORD_BYTES: usize = 8;
pub const YND_SECTION_MOST: usize = 16777216;
pub const YND_NODES_MOST: usize = 65536;
pub const YND_JUNCTIONS_MOST: usize = 4096;
pub const YND_NODE_LINKS_MOST: usize = 255;
pub const YND_CHOICES_MOST: usize = 65535;
pub const YND_ROUND_BYTES: usize = 9;
pub const YND_AREA_ROUND_BYTES: usize = 11;
pub const YND_NODE_LINKS_WRITTEN: usize = 31;
pub const YND_SCRATCH: usize = 65536;
pub const YND_PATH_SCRATCH: usize = 4;
pub const YND_MEMBERS_MOST: usize = 9;
pub const YND_GRID: usize = 32;
pub const YND_FILE_NAME_BYTES: usize = 13;
pub const YND_ROOT_WORDS: usize = 28;
pub const YND_TEXT_MOST: usize = 128;

pub const YND_DONE: u32 = 0;
pub const YND_NO_LINK: u32 = 1;
pub const YND_LEFT: u32 = 2;
pub const YND_NO_NODE: u32 = 3;

/// A cell: the words of the root, and how many entries the five lists hold.
#[repr(C)]
#[derive(Clone, Copy, Debug, Default, PartialEq)]
pub struct ynd_cell {
    pub vft: u32,
    pub vehicle_node_count: u32,
    pub ped_node_count: u32,
    pub unknowns: [u32; 7],
    pub node_count: u32,
    pub link_count: u32,
    pub junction_count: u32,
    pub heightmap_count: u32,
    pub ref_count: u32,
}

/// A node. Its links are link_count entries of the links, from link_start on. The five unused fields of the file's
/// record are the caller's: they stay with the node and are written.
#[repr(C)]
#[derive(Clone, Copy, Debug, Default, PartialEq)]
pub struct ynd_node_entry {
    pub area_id: u16,
    pub node_id: u16,
    pub street_name: u32,
    pub x: f32,
    pub y: f32,
    pub z: f32,
    pub flags0: u8,
    pub flags1: u8,
    pub flags2: u8,
    pub flags3: u8,
    pub flags4: u8,
    pub flags5: u8,
    pub link_count: u8,
    pub zero: u8,
    pub link_start: u32,
    pub unused0: u32,
    pub unused1: u32,
    pub unused2: u32,
    pub unused3: u32,
    pub unused4: u16,
    pub zeros: u16,
}

/// A link to the node that has this area and number.
#[repr(C)]
#[derive(Clone, Copy, Debug, Default, PartialEq)]
pub struct ynd_link_entry {
    pub area_id: u16,
    pub node_id: u16,
    pub flags0: u8,
    pub flags1: u8,
    pub flags2: u8,
    pub length: u8,
}

/// A junction. Its heightmap is width * height entries of the heights, from heightmap_start on.
#[repr(C)]
#[derive(Clone, Copy, Debug, Default, PartialEq)]
pub struct ynd_junction_entry {
    pub x: f32,
    pub y: f32,
    pub min_z: f32,
    pub max_z: f32,
    pub width: u8,
    pub height: u8,
    pub zero: u16,
    pub heightmap_start: u32,
}

/// A ref: the junction (by place) of the node that has this area and number.
#[repr(C)]
#[derive(Clone, Copy, Debug, Default, PartialEq)]
pub struct ynd_ref_entry {
    pub area_id: u16,
    pub node_id: u16,
    pub junction_id: u16,
    pub unk0: u16,
}

/// How many entries a file holds, in the order of the lists.
#[repr(C)]
#[derive(Clone, Copy, Debug, Default, PartialEq)]
pub struct ynd_counts {
    pub nodes: usize,
    pub links: usize,
    pub junctions: usize,
    pub heights: usize,
    pub refs: usize,
}

/// How a walk ended; for YND_LEFT the area and number that the link names, else 0.
#[repr(C)]
#[derive(Clone, Copy, Debug, Default, PartialEq)]
pub struct ynd_walk_end {
    pub how: u32,
    pub area_id: u32,
    pub node_id: u32,
}

/// What a walk shows: of a node (position by its bits; junction by its place, if has_junction is 1), ..
#[repr(C)]
#[derive(Clone, Copy, Debug, Default, PartialEq)]
pub struct ynd_seen_node {
    pub area_id: usize,
    pub street_name: usize,
    pub x_bits: usize,
    pub y_bits: usize,
    pub z_bits: usize,
    pub flags: [usize; 6],
    pub unused: [usize; 5],
    pub link_count: usize,
    pub has_junction: usize,
    pub junction: usize,
}

/// .. of a junction (corner and heights by their bits), ..
#[repr(C)]
#[derive(Clone, Copy, Debug, Default, PartialEq)]
pub struct ynd_seen_junction {
    pub x_bits: u32,
    pub y_bits: u32,
    pub min_z_bits: u32,
    pub max_z_bits: u32,
    pub width: u32,
    pub height: u32,
}

/// .. and of the link chosen.
#[repr(C)]
#[derive(Clone, Copy, Debug, Default, PartialEq)]
pub struct ynd_seen_link {
    pub found: u8,
    pub flags0: u8,
    pub flags1: u8,
    pub flags2: u8,
    pub length: u8,
}

/// A member's entry in the list of a set's members: the cell's own words, and how many entries its parts of the set's
/// five lists have.
#[repr(C)]
#[derive(Clone, Copy, Debug, Default, PartialEq)]
pub struct ynd_member {
    pub ynd: ynd_cell,
    pub nodes: u32,
    pub links: u32,
    pub junctions: u32,
    pub heights: u32,
    pub refs: u32,
}

/// A node that a crossing walk visits: its member, by its place in the list of members, and its place there.
#[repr(C)]
#[derive(Clone, Copy, Debug, Default, PartialEq)]
pub struct ynd_location {
    pub member: u32,
    pub place: u32,
}

/// A part of a section: 0 system, 1 graphics.
#[repr(C)]
#[derive(Clone, Copy, Debug, Default, PartialEq)]
pub struct ynd_part {
    pub section: usize,
    pub offset: usize,
    pub length: usize,
}

/// The addresses of the five blocks of a written section.
#[repr(C)]
#[derive(Clone, Copy, Debug, Default, PartialEq)]
pub struct ynd_addresses {
    pub refs: u64,
    pub heightmap: u64,
    pub junctions: u64,
    pub links: u64,
    pub nodes: u64,
}

// The library sees words where these structs have fields: their layouts have to be these.
const _: () = {
    assert!(cfg!(all(target_pointer_width = "64", target_endian = "little")));
    assert!(cfg!(any(target_arch = "x86_64", target_arch = "aarch64")));
    assert!(core::mem::size_of::<ynd_cell>() == 60);
    assert!(core::mem::size_of::<ynd_node_entry>() == 52);
    assert!(core::mem::size_of::<ynd_link_entry>() == 8);
    assert!(core::mem::size_of::<ynd_junction_entry>() == 24);
    assert!(core::mem::size_of::<ynd_ref_entry>() == 8);
    assert!(core::mem::size_of::<ynd_member>() == 80);
    assert!(core::mem::size_of::<ynd_location>() == 8);
    assert!(core::mem::size_of::<ynd_counts>() == 40);
    assert!(core::mem::size_of::<ynd_walk_end>() == 12);
    assert!(core::mem::size_of::<ynd_seen_node>() == 152);
    assert!(core::mem::size_of::<ynd_seen_junction>() == 24);
    assert!(core::mem::size_of::<ynd_seen_link>() == 5);
    assert!(core::mem::size_of::<ynd_part>() == 24);
    assert!(core::mem::size_of::<ynd_addresses>() == 40);
};

extern "C" {
    /// The version of the library, made of its three parts as BOFRASHEM_VERSION_NUMBER is. Never refused.
    pub fn ynd_version() -> u32;

    /// What a refusal's number says in words: "accepted" for 0, the cause of the table above for 1 to 19 ("times" for
    /// its sign), "no refusal has this number" for all others. As much of it as leaves room for a zero goes to the
    /// front of `text` as bytes of ASCII, with the zero behind it; later bytes stay, and of none nothing is stored.
    /// Returns the length of the whole text, the zero aside: as snprintf does. YND_TEXT_MOST bytes always do. Never
    /// refused.
    pub fn ynd_refusal_text(number: u32, text: *mut core::ffi::c_char, text_len: usize) -> usize;

    /// How many entries of each kind a file holds: what ynd_read has to be lent. Stores nothing but `counts`. A
    /// system section of no bytes is a yard not drawn yet: it holds nothing. Time: linear in the nodes and junctions
    /// of the file. Ranges may overlap, so that a small file can count far more than its bytes hold: hold the counts
    /// to a limit of your own before memory is asked for (docs/LINKING.md, "Files that nobody vouches for"). Refused,
    /// in this order: 2, 1, 3, 6, 4, 5.
    pub fn ynd_count(
        system: *const u8, system_len: usize, graphics: *const u8, graphics_len: usize, counts: *mut ynd_counts,
        place: *mut usize,
    ) -> u32;

    /// A cell that holds nothing. Fills `ynd`. Never refused.
    pub fn ynd_new(ynd: *mut ynd_cell);

    /// Reads a cell from its two sections into the lent lists, from their front on; later entries stay. `ynd` gets
    /// the counts and the words of the root; what it held before does not matter. A system section of no bytes gives
    /// the cell of ynd_new and leaves the lists. The sections may be given back after the call. Time: linear in what
    /// ynd_count says. Refused, in this order: 2, 1, 3, 6, 4, 5, then 7 at 0 to 4 where a list is shorter than
    /// ynd_count says.
    pub fn ynd_read(
        ynd: *mut ynd_cell, system: *const u8, system_len: usize, graphics: *const u8, graphics_len: usize,
        nodes: *mut ynd_node_entry, nodes_len: usize, links: *mut ynd_link_entry, links_len: usize,
        junctions: *mut ynd_junction_entry, junctions_len: usize, heights: *mut u8, heights_len: usize,
        refs: *mut ynd_ref_entry, refs_len: usize, place: *mut usize,
    ) -> u32;

    /// Renumbers: nodes that are no ped nodes come first, then ped nodes, each in their old order, numbered by place.
    /// Links and refs of the own area follow; both node counts of `ynd` are set. `places` gets the new place of the
    /// node at each old place. The scratch holds anything after an accepted call. Time: linear in n, l and r.
    /// Refused, in this order: 14 over a limit; 7 at 0 to 4 where a list is shorter than its count, 7 at 6 where the
    /// scratch has under YND_SCRATCH entries, 7 at 7 where `places` has fewer entries than there are nodes.
    pub fn ynd_renumber(
        ynd: *mut ynd_cell, nodes: *mut ynd_node_entry, nodes_len: usize, links: *mut ynd_link_entry,
        links_len: usize, junctions: *const ynd_junction_entry, junctions_len: usize, heights: *const u8,
        heights_len: usize, refs: *mut ynd_ref_entry, refs_len: usize, scratch: *mut u32, scratch_len: usize,
        places: *mut u32, places_len: usize, place: *mut usize,
    ) -> u32;

    /// Writes the cell into `section`, from its first byte on; later bytes stay. `length` gets how many bytes were
    /// written. Time: linear in what is written. Refused, in this order: 14 over a limit, 12 where a junction made by
    /// hand has fewer than width × height of the values that the struct counts, 8 and 9 node by node, 10, 11, 7 at 0
    /// to 4 where a list is shorter than its count, 7 at 5 where the section is too short. Of a list that is shorter
    /// than its count 12 and 8 to 10 are asked of the entries that are lent: a node of 32 links, of which 31 are
    /// lent, is 7 at 1. What is written is never refused on reading, but for memory (7).
    pub fn ynd_write(
        ynd: *const ynd_cell, nodes: *const ynd_node_entry, nodes_len: usize, links: *const ynd_link_entry,
        links_len: usize, junctions: *const ynd_junction_entry, junctions_len: usize, heights: *const u8,
        heights_len: usize, refs: *const ynd_ref_entry, refs_len: usize, section: *mut u8, section_len: usize,
        length: *mut usize, place: *mut usize,
    ) -> u32;

    /// Writes the cell into `section` and reads just those bytes back into the cell's own lists. `length` gets how
    /// many bytes were written. Time: linear in what is written. Refused as ynd_write is; a cell made by hand is also
    /// refused with 7 at 0 to 4 where a list is too short for copies of ranges that overlap. A refusal leaves cell,
    /// lists and section as they were.
    pub fn ynd_write_then_read(
        ynd: *mut ynd_cell, nodes: *mut ynd_node_entry, nodes_len: usize, links: *mut ynd_link_entry,
        links_len: usize, junctions: *mut ynd_junction_entry, junctions_len: usize, heights: *mut u8,
        heights_len: usize, refs: *mut ynd_ref_entry, refs_len: usize, section: *mut u8, section_len: usize,
        length: *mut usize, place: *mut usize,
    ) -> u32;

    /// Walks from the node at place `start`, by a byte a choice: each byte chooses a link by its place among the
    /// node's links. `end` gets how the walk ended, `visited` the places from its front on (later entries stay),
    /// `count` how many they are: one more than the links followed. Time: a node is found by its number for each
    /// choice, so that where numbers are not places each may look at n nodes: renumber a cell that was read before
    /// long walks, or bound the choices. Refused, in this order: 13 no such place; 14 over a limit; 7 at 0 and 1
    /// where a list is shorter than its count; 7 at 8 where `visited` is too short (choices_len + 1 entries always
    /// do).
    pub fn ynd_walk(
        ynd: *const ynd_cell, nodes: *const ynd_node_entry, nodes_len: usize, links: *const ynd_link_entry,
        links_len: usize, start: usize, choices: *const u8, choices_len: usize, visited: *mut u32,
        visited_len: usize, end: *mut ynd_walk_end, count: *mut usize, place: *mut usize,
    ) -> u32;

    /// As ynd_walk, with a scratch by which the node with a number is found at once: for long walks in a cell that
    /// isn't renumbered. The scratch then holds at each number the first place that has it, its other entries stay; a
    /// refusal leaves it as it was. Time: linear in n and in the choices, whatever the numbers, but that of ynd_walk
    /// where `visited` has no more entries than there are choices. Refused, in this order: 13 no such place; 14 over
    /// a limit; 7 at 0 and 1 where a list is shorter than its count; 7 at 6 where the scratch has under YND_SCRATCH
    /// entries; 7 at 8 where `visited` is too short (choices_len + 1 entries always do, and spare that).
    pub fn ynd_walk_indexed(
        ynd: *const ynd_cell, nodes: *const ynd_node_entry, nodes_len: usize, links: *const ynd_link_entry,
        links_len: usize, start: usize, choices: *const u8, choices_len: usize, visited: *mut u32,
        visited_len: usize, scratch: *mut u32, scratch_len: usize, end: *mut ynd_walk_end, count: *mut usize,
        place: *mut usize,
    ) -> u32;

    /// Whether the cell is sound: all nodes have one area, their numbers differ, and each link and ref of the own
    /// area names a node of the cell. The scratch then holds at each number the last place that has it. Time: linear
    /// in n, the nodes' links and r. Refused, in this order: 14 over a limit; 7 at 0, 1 and 4 where a list is shorter
    /// than its count; 7 at 6 where the scratch has under YND_SCRATCH entries.
    pub fn ynd_sound(
        ynd: *const ynd_cell, nodes: *const ynd_node_entry, nodes_len: usize, links: *const ynd_link_entry,
        links_len: usize, refs: *const ynd_ref_entry, refs_len: usize, scratch: *mut u32, scratch_len: usize,
        sound: *mut bool, place: *mut usize,
    ) -> u32;

    /// What a walk shows of the node at place `at`. Fills `shown`. Time: linear in r. Refused, in this order: 13 no
    /// such place; 14 over a limit; 7 at 0, 1, 2 and 4 where a list is shorter than its count.
    pub fn ynd_shown_node(
        ynd: *const ynd_cell, nodes: *const ynd_node_entry, nodes_len: usize, links: *const ynd_link_entry,
        links_len: usize, junctions: *const ynd_junction_entry, junctions_len: usize, refs: *const ynd_ref_entry,
        refs_len: usize, at: usize, shown: *mut ynd_seen_node, place: *mut usize,
    ) -> u32;

    /// What a walk shows of the junction at place `at`, its values aside (ynd_shown_values). Fills `shown`. Refused,
    /// in this order: 13 no such place; 14 over a limit; 7 at 2 where a list is shorter than its count.
    pub fn ynd_shown_junction(
        ynd: *const ynd_cell, junctions: *const ynd_junction_entry, junctions_len: usize, at: usize,
        shown: *mut ynd_seen_junction, place: *mut usize,
    ) -> u32;

    /// Copies the heightmap values of the junction at place `at` to the front of `values` (later entries stay) and
    /// how many they are into `count`: 65,025 entries always do. Time: linear in the values. Refused, in this order:
    /// 13 no such place; 14 over a limit; 7 at 2 and 3 where a list is shorter than its count; 7 at 3 where `values`
    /// is too short.
    pub fn ynd_shown_values(
        ynd: *const ynd_cell, junctions: *const ynd_junction_entry, junctions_len: usize, heights: *const u8,
        heights_len: usize, at: usize, values: *mut u8, values_len: usize, count: *mut usize, place: *mut usize,
    ) -> u32;

    /// What a walk shows of the link that a byte chooses at place `at`: `shown` gets found = 1 and the link's flags
    /// and length, or five zeros where there is no such link. Refused, in this order: 13 no such place; 14 over a
    /// limit; 7 at 0 and 1 where a list is shorter than its count.
    pub fn ynd_shown_link(
        ynd: *const ynd_cell, nodes: *const ynd_node_entry, nodes_len: usize, links: *const ynd_link_entry,
        links_len: usize, at: usize, choice: u8, shown: *mut ynd_seen_link, place: *mut usize,
    ) -> u32;

    /// The place of the node that has a number: `found` says whether there is one, `at` gets its place (else `at`
    /// stays). Time: at once where the node at the place of that number has it, else linear in n. Refused: 14 over a
    /// limit; 7 at 0 where a list is shorter than its count.
    pub fn ynd_node(
        ynd: *const ynd_cell, nodes: *const ynd_node_entry, nodes_len: usize, node_id: u16, found: *mut bool,
        at: *mut usize, place: *mut usize,
    ) -> u32;

    /// The place of the junction that the refs give to a node, by area and number: `found`, and then `at` (else `at`
    /// stays). A ref of the own area counts as naming the first node's area, with the island's bit. Time: linear in
    /// r. Refused: 14 over a limit; 7 at 0 and 4 where a list is shorter than its count.
    pub fn ynd_junction_of(
        ynd: *const ynd_cell, nodes: *const ynd_node_entry, nodes_len: usize, refs: *const ynd_ref_entry,
        refs_len: usize, area_id: u16, node_id: u16, found: *mut bool, at: *mut usize, place: *mut usize,
    ) -> u32;

    /// The cell's own area, the first node's: `found` is false in a cell with no node, and `area` stays. Refused: 14
    /// over a limit; 7 at 0 where a list is shorter than its count.
    pub fn ynd_area_of_cell(
        ynd: *const ynd_cell, nodes: *const ynd_node_entry, nodes_len: usize, found: *mut bool, area: *mut u32,
        place: *mut usize,
    ) -> u32;

    /// The places of all nodes whose stored x and y (as writing stores them) lie at most `radius` from the point,
    /// each once and no other: `count` gets how many they are, the first entries of `places` their places, later
    /// entries stay. The nearest comes first: they ascend by squared distance, equal distances by place. Radius 0
    /// lists the nodes exactly there. Time: linear in n, with k log k for k places listed; n are gone through once
    /// more where `places` is shorter than n. Refused, in this order: 14 a struct over a limit; 7 at 0 where a list
    /// is shorter than its count; 7 at 8 where `places` has fewer entries than there are such nodes (node_count
    /// entries always do, and spare a count).
    pub fn ynd_within(
        ynd: *const ynd_cell, nodes: *const ynd_node_entry, nodes_len: usize, x: i16, y: i16, radius: u16,
        places: *mut u32, places_len: usize, count: *mut usize, place: *mut usize,
    ) -> u32;

    /// The node nearest to the point, the lowest place where distances are equal: `found` is false in a cell with no
    /// node; else `at` gets its place and `square` its squared distance (else they stay). Time: linear in n. Refused,
    /// in this order: 14 a struct over a limit; 7 at 0 where a list is shorter than its count.
    pub fn ynd_nearest(
        ynd: *const ynd_cell, nodes: *const ynd_node_entry, nodes_len: usize, x: i16, y: i16, found: *mut bool,
        at: *mut usize, square: *mut u64, place: *mut usize,
    ) -> u32;

    /// Reads a round file: `start` gets the number, `count` how many choices there are, the first entries of
    /// `choices` the choices, later entries stay (YND_CHOICES_MOST entries always do). Time: linear in the choices.
    /// Refused, in this order: 15 the first five bytes aren't the mark and version 1; 16 under 9 bytes, or another
    /// length than 9 plus the count; 7 at 8 where `choices` has fewer entries than the count.
    pub fn ynd_read_round(
        file: *const u8, file_len: usize, choices: *mut u8, choices_len: usize, start: *mut u16, count: *mut usize,
        place: *mut usize,
    ) -> u32;

    /// Writes a round file of 9 + choices_len bytes: `length` gets how many they are, later bytes of `file` stay.
    /// Time: linear in the choices. Refused, in this order: 16 over 65,535 choices; 7 at 8 where `file` is shorter.
    pub fn ynd_write_round(
        start: u16, choices: *const u8, choices_len: usize, file: *mut u8, file_len: usize, length: *mut usize,
        place: *mut usize,
    ) -> u32;

    /// Follows a round: the walk from the place that ynd_node finds for the number `start`, with all that ynd_walk
    /// leaves. Renumbering gives nodes new numbers: a file from before it starts at whichever node then has its
    /// number, so write it again with the node's new number. Time: that of ynd_node and of ynd_walk. Refused, in this
    /// order: 14 over a limit; 7 at 0 where the nodes are fewer than their count; 13 no node has the number; 7 at 1
    /// where the links are fewer than their count; 7 at 8 where `visited` is too short (choices_len + 1 entries
    /// always do).
    pub fn ynd_follow_round(
        ynd: *const ynd_cell, nodes: *const ynd_node_entry, nodes_len: usize, links: *const ynd_link_entry,
        links_len: usize, start: u16, choices: *const u8, choices_len: usize, visited: *mut u32, visited_len: usize,
        end: *mut ynd_walk_end, count: *mut usize, place: *mut usize,
    ) -> u32;

    /// As ynd_follow_round, with a scratch as ynd_walk_indexed has it: for long rounds in a cell that isn't
    /// renumbered. What is said there of the scratch and of time holds here. Refused, in this order: 14 over a limit;
    /// 7 at 0 where the nodes are fewer than their count; 13 no node has the number; 7 at 1 where the links are fewer
    /// than their count; 7 at 6 where the scratch has under YND_SCRATCH entries; 7 at 8 where `visited` is too short
    /// (choices_len + 1 entries always do).
    pub fn ynd_follow_round_indexed(
        ynd: *const ynd_cell, nodes: *const ynd_node_entry, nodes_len: usize, links: *const ynd_link_entry,
        links_len: usize, start: u16, choices: *const u8, choices_len: usize, visited: *mut u32, visited_len: usize,
        scratch: *mut u32, scratch_len: usize, end: *mut ynd_walk_end, count: *mut usize, place: *mut usize,
    ) -> u32;

    /// Reads a round file of version 1 or 2: `version` gets which (1 or 2), `area` the area of version 2, or 0 for
    /// version 1; all else is as for ynd_read_round. Write a round back in the version that it was read in. Time:
    /// linear in the choices. Refused, in this order: 15 the first five bytes aren't the mark and version 1 or 2; 16
    /// under 9 bytes, or another length than 9 plus the count (in version 2: 11); 7 at 8 where `choices` has fewer
    /// entries than the count.
    pub fn ynd_read_round_versioned(
        file: *const u8, file_len: usize, choices: *mut u8, choices_len: usize, version: *mut u16, area: *mut u16,
        start: *mut u16, count: *mut usize, place: *mut usize,
    ) -> u32;

    /// Writes a round file of this version: 9 + choices_len bytes in version 1, which has no area (`area` is not
    /// looked at), 11 + choices_len in version 2; `length` gets how many they are, later bytes of `file` stay. Time:
    /// linear in the choices. Refused, in this order: 15 a version that is neither 1 nor 2; 16 over 65,535 choices; 7
    /// at 8 where `file` is shorter.
    pub fn ynd_write_round_versioned(
        version: u16, area: u16, start: u16, choices: *const u8, choices_len: usize, file: *mut u8, file_len: usize,
        length: *mut usize, place: *mut usize,
    ) -> u32;

    /// Follows a round of this version, as ynd_follow_round follows one of version 1: of version 2 only in the cell
    /// whose own area (the first node's, with the island's bit; 0 in a cell with no node) is `area`. In version 1
    /// `area` is not looked at. Time: that of ynd_node and of ynd_walk. Refused, in this order: 15 a version that is
    /// neither 1 nor 2; 19 a version 2 round whose area isn't the cell's, asked of the nodes that are lent; 14 over a
    /// limit; 7 at 0 where the nodes are fewer than their count; 13 no node has the number; 7 at 1 where the links
    /// are fewer than their count; 7 at 8 where `visited` is too short (choices_len + 1 entries always do).
    pub fn ynd_follow_round_versioned(
        ynd: *const ynd_cell, nodes: *const ynd_node_entry, nodes_len: usize, links: *const ynd_link_entry,
        links_len: usize, version: u16, area: u16, start: u16, choices: *const u8, choices_len: usize,
        visited: *mut u32, visited_len: usize, end: *mut ynd_walk_end, count: *mut usize, place: *mut usize,
    ) -> u32;

    /// A cell joins: what `ynd` says of its lists is copied behind the other members' parts, and its own parts get
    /// `sizes` entries, at least as many as the cell holds. The set's members are the first `count` of `members`;
    /// `count` then is one more. Time: linear in what is copied. Refused, in this order: 18 a member has the cell's
    /// area; 14 a tenth member, more than 65,536 nodes together, or over a limit; 7 at 0 to 4 where the set's list
    /// has no room for `sizes` entries more, the cell's list is shorter than its count, or `sizes` is less than that
    /// or passes 32 bits; 7 at 10 where `members` has no free entry.
    pub fn ynd_set_join(
        count: *mut usize, members: *mut ynd_member, members_len: usize, nodes: *mut ynd_node_entry,
        nodes_len: usize, links: *mut ynd_link_entry, links_len: usize, junctions: *mut ynd_junction_entry,
        junctions_len: usize, heights: *mut u8, heights_len: usize, refs: *mut ynd_ref_entry, refs_len: usize,
        ynd: *const ynd_cell, new_nodes: *const ynd_node_entry, new_nodes_len: usize,
        new_links: *const ynd_link_entry, new_links_len: usize, new_junctions: *const ynd_junction_entry,
        new_junctions_len: usize, new_heights: *const u8, new_heights_len: usize, new_refs: *const ynd_ref_entry,
        new_refs_len: usize, sizes: *const ynd_counts, place: *mut usize,
    ) -> u32;

    /// The member of this area leaves, the first joined of several; the parts behind its own move up. `members` are
    /// the set's and no more; `count` gets how many are left, the first of `members`. Time: linear in the parts that
    /// move up. Refused, in this order: 13 no member has the area; 14 over a limit; 7 at 0 to 4.
    pub fn ynd_set_leave(
        members: *mut ynd_member, members_len: usize, nodes: *mut ynd_node_entry, nodes_len: usize,
        links: *mut ynd_link_entry, links_len: usize, junctions: *mut ynd_junction_entry, junctions_len: usize,
        heights: *mut u8, heights_len: usize, refs: *mut ynd_ref_entry, refs_len: usize, area: u16,
        count: *mut usize, place: *mut usize,
    ) -> u32;

    /// The cell that ynd_set_leave would take out by this area, copied into lists of the caller's own; the set stays
    /// as it is, and ynd_set_leave follows where it is to leave. `ynd` gets its words (what it held before does not
    /// matter), the five lists its entries from their front on; later entries stay. `members` are the set's and no
    /// more. Time: linear in what is copied. Refused, in this order: 13 no member has the area; 14 over a limit; 7 at
    /// 0 to 4; 7 at 0 to 4 where the caller's own list is shorter than the cell's count.
    pub fn ynd_set_hand_back(
        members: *const ynd_member, members_len: usize, nodes: *const ynd_node_entry, nodes_len: usize,
        links: *const ynd_link_entry, links_len: usize, junctions: *const ynd_junction_entry, junctions_len: usize,
        heights: *const u8, heights_len: usize, refs: *const ynd_ref_entry, refs_len: usize, area: u16,
        ynd: *mut ynd_cell, to_nodes: *mut ynd_node_entry, to_nodes_len: usize, to_links: *mut ynd_link_entry,
        to_links_len: usize, to_junctions: *mut ynd_junction_entry, to_junctions_len: usize, to_heights: *mut u8,
        to_heights_len: usize, to_refs: *mut ynd_ref_entry, to_refs_len: usize, place: *mut usize,
    ) -> u32;

    /// Renumbers the member at a place of `members` (the set's and no more), as ynd_renumber does a cell. Links of
    /// the others that name its area, and that aren't of their own, follow where it is the first of its area; their
    /// refs don't. `places` gets the new place of each of its nodes. The scratch holds anything after an accepted
    /// call. A plain ynd_walk in another member may show its YND_LEFT with another number afterwards; a crossing walk
    /// from the same node goes the same way in a sound set. Time: linear in the member's n, l and r, in YND_SCRATCH
    /// and in the links of the others. Refused, in this order: 13 no such member; 14 over a limit; 7 at 0 to 4; 7 at
    /// 6 where the scratch has under YND_SCRATCH entries; 7 at 7 where `places` has fewer entries than the member has
    /// nodes.
    pub fn ynd_set_renumber(
        members: *mut ynd_member, members_len: usize, nodes: *mut ynd_node_entry, nodes_len: usize,
        links: *mut ynd_link_entry, links_len: usize, junctions: *const ynd_junction_entry, junctions_len: usize,
        heights: *const u8, heights_len: usize, refs: *mut ynd_ref_entry, refs_len: usize, scratch: *mut u32,
        scratch_len: usize, places: *mut u32, places_len: usize, member: usize, place: *mut usize,
    ) -> u32;

    /// Walks from the node at place `start` of a member, as ynd_walk does, and goes on in the first member of the
    /// area that a link names where it leaves its cell: YND_LEFT if no member has it, YND_NO_NODE if that one hasn't
    /// the number. `visited` gets member and place of each node. `members` are the set's and no more. Time: that of
    /// ynd_walk, in each member by its own numbers. Refused, in this order: 13 no such member or place; 14 over a
    /// limit; 7 at 0 and 1; 7 at 8 where `visited` is too short (choices_len + 1 entries always do).
    pub fn ynd_set_crossing_walk(
        members: *const ynd_member, members_len: usize, nodes: *const ynd_node_entry, nodes_len: usize,
        links: *const ynd_link_entry, links_len: usize, member: usize, start: usize, choices: *const u8,
        choices_len: usize, visited: *mut ynd_location, visited_len: usize, end: *mut ynd_walk_end,
        count: *mut usize, place: *mut usize,
    ) -> u32;

    /// Whether the set is sound: each member is as ynd_sound asks it of a cell, and each link that leads into a
    /// member names a node there. `members` are the set's and no more. The scratch then holds each member's numbers,
    /// one member after the other, each with its last place. Time: linear in all nodes, their links and refs for each
    /// member: at most nine times the whole set. Refused, in this order: 14 over a limit; 7 at 0, 1 and 4; 7 at 6
    /// where the scratch has under YND_SCRATCH entries.
    pub fn ynd_set_sound(
        members: *const ynd_member, members_len: usize, nodes: *const ynd_node_entry, nodes_len: usize,
        links: *const ynd_link_entry, links_len: usize, refs: *const ynd_ref_entry, refs_len: usize,
        scratch: *mut u32, scratch_len: usize, sound: *mut bool, place: *mut usize,
    ) -> u32;

    /// The member of this area, the first joined of several: `found` says whether there is one, `member` gets it, or
    /// stays. An empty member's area is 0. `members` are the set's and no more; parts are cut where the nodes end.
    /// Never refused.
    pub fn ynd_set_member_of_area(
        members: *const ynd_member, members_len: usize, nodes: *const ynd_node_entry, nodes_len: usize, area: u16,
        found: *mut bool, member: *mut usize,
    );

    /// Follows a round of this version across the set, as ynd_set_crossing_walk walks: from the node that has the
    /// number `start` in the member of `area` (version 2, `member` is not looked at) or in the member named (version
    /// 1, `area` is not looked at). `members` are the set's and no more. Time: that of ynd_member_node and of
    /// ynd_set_crossing_walk. Refused, in this order: 15 a version that is neither 1 nor 2; 19 a version 2 round
    /// whose area is no member's; 13 no such member; 14 over a limit; 7 at 0 to 4, at 2 to 4 for a member's part
    /// alone, since those lists aren't lent; 13 no node of the member has the number; 7 at 8 where `visited` is too
    /// short (choices_len + 1 entries always do).
    pub fn ynd_set_follow_round(
        members: *const ynd_member, members_len: usize, nodes: *const ynd_node_entry, nodes_len: usize,
        links: *const ynd_link_entry, links_len: usize, version: u16, area: u16, member: usize, start: u16,
        choices: *const u8, choices_len: usize, visited: *mut ynd_location, visited_len: usize,
        end: *mut ynd_walk_end, count: *mut usize, place: *mut usize,
    ) -> u32;

    /// Writes the member as ynd_write does a cell: into `section` from its first byte on; `length` gets how many
    /// bytes were written. Refused, in this order: the set's; 12, 8 and 9 node by node, 10 and 11 as ynd_write is; 7
    /// at 5 where the section is too short.
    pub fn ynd_member_write(
        members: *const ynd_member, members_len: usize, nodes: *const ynd_node_entry, nodes_len: usize,
        links: *const ynd_link_entry, links_len: usize, junctions: *const ynd_junction_entry, junctions_len: usize,
        heights: *const u8, heights_len: usize, refs: *const ynd_ref_entry, refs_len: usize, member: usize,
        section: *mut u8, section_len: usize, length: *mut usize, place: *mut usize,
    ) -> u32;

    /// Writes the member and reads just those bytes back into its own parts, as ynd_write_then_read does a cell.
    /// Refused as ynd_member_write is; a member made by hand is also refused with 7 at 0 to 4 where its part is too
    /// short for copies of ranges that overlap. A refusal leaves all members and the section as they were.
    pub fn ynd_member_write_then_read(
        members: *mut ynd_member, members_len: usize, nodes: *mut ynd_node_entry, nodes_len: usize,
        links: *mut ynd_link_entry, links_len: usize, junctions: *mut ynd_junction_entry, junctions_len: usize,
        heights: *mut u8, heights_len: usize, refs: *mut ynd_ref_entry, refs_len: usize, member: usize,
        section: *mut u8, section_len: usize, length: *mut usize, place: *mut usize,
    ) -> u32;

    /// What a walk shows of the member's node at place `at`, as ynd_shown_node. Refused, in this order: the set's; 13
    /// no such place.
    pub fn ynd_member_shown_node(
        members: *const ynd_member, members_len: usize, nodes: *const ynd_node_entry, nodes_len: usize,
        links: *const ynd_link_entry, links_len: usize, junctions: *const ynd_junction_entry, junctions_len: usize,
        refs: *const ynd_ref_entry, refs_len: usize, member: usize, at: usize, shown: *mut ynd_seen_node,
        place: *mut usize,
    ) -> u32;

    /// What a walk shows of the member's junction at place `at`, as ynd_shown_junction. Refused, in this order: the
    /// set's; 13 no such place.
    pub fn ynd_member_shown_junction(
        members: *const ynd_member, members_len: usize, junctions: *const ynd_junction_entry, junctions_len: usize,
        member: usize, at: usize, shown: *mut ynd_seen_junction, place: *mut usize,
    ) -> u32;

    /// Copies the heightmap values of the member's junction at place `at` to the front of `values`, as
    /// ynd_shown_values. Refused, in this order: the set's; 13 no such place; 7 at 3 where `values` is too short.
    pub fn ynd_member_shown_values(
        members: *const ynd_member, members_len: usize, junctions: *const ynd_junction_entry, junctions_len: usize,
        heights: *const u8, heights_len: usize, member: usize, at: usize, values: *mut u8, values_len: usize,
        count: *mut usize, place: *mut usize,
    ) -> u32;

    /// What a walk shows of the link that a byte chooses at place `at` of the member, as ynd_shown_link. Refused, in
    /// this order: the set's; 13 no such place.
    pub fn ynd_member_shown_link(
        members: *const ynd_member, members_len: usize, nodes: *const ynd_node_entry, nodes_len: usize,
        links: *const ynd_link_entry, links_len: usize, member: usize, at: usize, choice: u8,
        shown: *mut ynd_seen_link, place: *mut usize,
    ) -> u32;

    /// The place of the member's node that has a number, as ynd_node. Refused: the set's.
    pub fn ynd_member_node(
        members: *const ynd_member, members_len: usize, nodes: *const ynd_node_entry, nodes_len: usize,
        member: usize, node_id: u16, found: *mut bool, at: *mut usize, place: *mut usize,
    ) -> u32;

    /// The place of the junction that the member's refs give to a node, as ynd_junction_of. Refused: the set's.
    pub fn ynd_member_junction_of(
        members: *const ynd_member, members_len: usize, nodes: *const ynd_node_entry, nodes_len: usize,
        refs: *const ynd_ref_entry, refs_len: usize, member: usize, area_id: u16, node_id: u16, found: *mut bool,
        at: *mut usize, place: *mut usize,
    ) -> u32;

    /// The member's own area, as ynd_area_of_cell: `found` is false in a member with no node, whose area in the set
    /// is 0. Refused: the set's.
    pub fn ynd_member_area(
        members: *const ynd_member, members_len: usize, nodes: *const ynd_node_entry, nodes_len: usize,
        member: usize, found: *mut bool, area: *mut u32, place: *mut usize,
    ) -> u32;

    /// Adds a node behind all others of the member, as ynd_add_node. Refused, in this order: the set's, 14 also where
    /// the set has 65,536 nodes together; 7 at 0 where the member's part has no free entry.
    pub fn ynd_member_add_node(
        members: *mut ynd_member, members_len: usize, nodes: *mut ynd_node_entry, nodes_len: usize, member: usize,
        area_id: u16, x: f32, y: f32, z: f32, place: *mut usize,
    ) -> u32;

    /// Adds a link as the last one of the member's node at place `at`, as ynd_add_link. Refused, in this order: the
    /// set's; 13 no such place; 14 where link_count would pass 32 bits, or at 255 links of the node; 7 at 1 where the
    /// member's part has no free entry.
    pub fn ynd_member_add_link(
        members: *mut ynd_member, members_len: usize, nodes: *mut ynd_node_entry, nodes_len: usize,
        links: *mut ynd_link_entry, links_len: usize, member: usize, at: usize, link: *const ynd_link_entry,
        place: *mut usize,
    ) -> u32;

    /// Adds a ref behind all others of the member, as ynd_add_ref. Refused, in this order: the set's; 14 where the
    /// count would pass 32 bits; 7 at 4 where the member's part has no free entry.
    pub fn ynd_member_add_ref(
        members: *mut ynd_member, members_len: usize, refs: *mut ynd_ref_entry, refs_len: usize, member: usize,
        added: *const ynd_ref_entry, place: *mut usize,
    ) -> u32;

    /// Adds a junction behind all others of the member, with its heightmap values, as ynd_add_junction. Refused, in
    /// this order: the set's; 14 at 4,096 junctions, or where the count of values would pass 32 bits; 12 where the
    /// values are not width times height; 7 at 2 and 3 where the member's part has no room.
    pub fn ynd_member_add_junction(
        members: *mut ynd_member, members_len: usize, junctions: *mut ynd_junction_entry, junctions_len: usize,
        heights: *mut u8, heights_len: usize, member: usize, junction: *const ynd_junction_entry, values: *const u8,
        values_len: usize, place: *mut usize,
    ) -> u32;

    /// Copies the member's own words, and how many entries it holds. Fills `ynd`. Refused: the set's.
    pub fn ynd_member_get_cell(
        members: *const ynd_member, members_len: usize, member: usize, ynd: *mut ynd_cell, place: *mut usize,
    ) -> u32;

    /// Copies the member's node at place `at`, as ynd_get_node. Refused, in this order: the set's; 13 no such place.
    pub fn ynd_member_get_node(
        members: *const ynd_member, members_len: usize, nodes: *const ynd_node_entry, nodes_len: usize,
        member: usize, at: usize, node: *mut ynd_node_entry, place: *mut usize,
    ) -> u32;

    /// Copies link k of the member's node at place `at`, as ynd_get_link. Refused, in this order: the set's; 13 no
    /// such node or link.
    pub fn ynd_member_get_link(
        members: *const ynd_member, members_len: usize, nodes: *const ynd_node_entry, nodes_len: usize,
        links: *const ynd_link_entry, links_len: usize, member: usize, at: usize, k: usize,
        link: *mut ynd_link_entry, place: *mut usize,
    ) -> u32;

    /// Copies the member's ref at place `at`, as ynd_get_ref. Refused, in this order: the set's; 13 no such place.
    pub fn ynd_member_get_ref(
        members: *const ynd_member, members_len: usize, refs: *const ynd_ref_entry, refs_len: usize, member: usize,
        at: usize, taken: *mut ynd_ref_entry, place: *mut usize,
    ) -> u32;

    /// Copies the member's junction at place `at`, as ynd_get_junction. Refused, in this order: the set's; 13 no such
    /// place.
    pub fn ynd_member_get_junction(
        members: *const ynd_member, members_len: usize, junctions: *const ynd_junction_entry, junctions_len: usize,
        member: usize, at: usize, junction: *mut ynd_junction_entry, place: *mut usize,
    ) -> u32;

    /// Copies heightmap value k of the member's junction at place `at`, as ynd_get_height. Refused, in this order:
    /// the set's; 13 no such junction or value.
    pub fn ynd_member_get_height(
        members: *const ynd_member, members_len: usize, junctions: *const ynd_junction_entry, junctions_len: usize,
        heights: *const u8, heights_len: usize, member: usize, at: usize, k: usize, value: *mut u8,
        place: *mut usize,
    ) -> u32;

    /// Stores every field of the member's node at place `at` but where its links are, as ynd_put_node. Refused, in
    /// this order: the set's; 13 no such place.
    pub fn ynd_member_put_node(
        members: *const ynd_member, members_len: usize, nodes: *mut ynd_node_entry, nodes_len: usize, member: usize,
        at: usize, node: *const ynd_node_entry, place: *mut usize,
    ) -> u32;

    /// Stores a position, in whole steps, of the member's node at place `at`, as ynd_set_position. Refused, in this
    /// order: the set's; 13 no such place.
    pub fn ynd_member_set_position(
        members: *const ynd_member, members_len: usize, nodes: *mut ynd_node_entry, nodes_len: usize, member: usize,
        at: usize, x: f32, y: f32, z: f32, place: *mut usize,
    ) -> u32;

    /// Stores link k of the member's node at place `at`, as ynd_put_link. Refused, in this order: the set's; 13 no
    /// such node or link.
    pub fn ynd_member_put_link(
        members: *const ynd_member, members_len: usize, nodes: *const ynd_node_entry, nodes_len: usize,
        links: *mut ynd_link_entry, links_len: usize, member: usize, at: usize, k: usize,
        link: *const ynd_link_entry, place: *mut usize,
    ) -> u32;

    /// Stores the member's ref at place `at`, as ynd_put_ref. Refused, in this order: the set's; 13 no such place.
    pub fn ynd_member_put_ref(
        members: *const ynd_member, members_len: usize, refs: *mut ynd_ref_entry, refs_len: usize, member: usize,
        at: usize, put: *const ynd_ref_entry, place: *mut usize,
    ) -> u32;

    /// Stores every field of the member's junction at place `at` but where its heightmap starts, as ynd_put_junction.
    /// Refused, in this order: the set's; 13 no such place; 12 where width times height is not what it was.
    pub fn ynd_member_put_junction(
        members: *const ynd_member, members_len: usize, junctions: *mut ynd_junction_entry, junctions_len: usize,
        member: usize, at: usize, junction: *const ynd_junction_entry, place: *mut usize,
    ) -> u32;

    /// Stores heightmap value k of the member's junction at place `at`, as ynd_put_height. Refused, in this order:
    /// the set's; 13 no such junction or value.
    pub fn ynd_member_put_height(
        members: *const ynd_member, members_len: usize, junctions: *const ynd_junction_entry, junctions_len: usize,
        heights: *mut u8, heights_len: usize, member: usize, at: usize, k: usize, value: u8, place: *mut usize,
    ) -> u32;

    /// Stores the member's own words: vft, the counts of nodes that are no ped nodes and of ped nodes, and unk24,
    /// unk34, unk48, unk4c, unk5c, unk68 and unk6c. How many entries it holds stays. Refused: the set's.
    pub fn ynd_member_put_words(
        members: *mut ynd_member, members_len: usize, member: usize, vft: u32, vehicle_node_count: u32,
        ped_node_count: u32, unknowns: *const [u32; 7], place: *mut usize,
    ) -> u32;

    /// The first `count` nodes of the member stay, as ynd_truncate_nodes; its part stays as long. Refused, in this
    /// order: the set's; 13 where there are fewer.
    pub fn ynd_member_truncate_nodes(
        members: *mut ynd_member, members_len: usize, member: usize, count: usize, place: *mut usize,
    ) -> u32;

    /// The first `count` junctions of the member stay, as ynd_truncate_junctions. Refused, in this order: the set's;
    /// 13 where there are fewer.
    pub fn ynd_member_truncate_junctions(
        members: *mut ynd_member, members_len: usize, member: usize, count: usize, place: *mut usize,
    ) -> u32;

    /// The first `count` refs of the member stay, as ynd_truncate_refs. Refused, in this order: the set's; 13 where
    /// there are fewer.
    pub fn ynd_member_truncate_refs(
        members: *mut ynd_member, members_len: usize, member: usize, count: usize, place: *mut usize,
    ) -> u32;

    /// The links of the member's node at place `at` are the given ones, as ynd_put_links. Refused, in this order: the
    /// set's; 13 no such place; 14 over 255 given links, or where link_count would pass 32 bits; 7 at 1 where the
    /// member's part is shorter than its count afterwards (link_count + given_len entries always do).
    pub fn ynd_member_put_links(
        members: *mut ynd_member, members_len: usize, nodes: *mut ynd_node_entry, nodes_len: usize,
        links: *mut ynd_link_entry, links_len: usize, member: usize, at: usize, given: *const ynd_link_entry,
        given_len: usize, place: *mut usize,
    ) -> u32;

    /// The heightmap of the member's junction at place `at` is width times height of the given values, as
    /// ynd_put_heightmap. Refused, in this order: the set's; 13 no such place; 14 where heightmap_count would pass 32
    /// bits; 12 where the values are not width times height; 7 at 3 where the member's part is shorter than its count
    /// afterwards (heightmap_count + values_len entries always do).
    pub fn ynd_member_put_heightmap(
        members: *mut ynd_member, members_len: usize, junctions: *mut ynd_junction_entry, junctions_len: usize,
        heights: *mut u8, heights_len: usize, member: usize, at: usize, width: u8, height: u8, values: *const u8,
        values_len: usize, place: *mut usize,
    ) -> u32;

    /// A walk from the node at `from` to the node at `to` by the cell's own links whose lengths add up to least:
    /// every other walk between them has a sum at least as large. `distance` gets the sum in metres, `count` the
    /// number of links, the first `count` bytes of `choices` the choices, the first `count + 1` entries of `places`
    /// the places, none of them twice; later entries stay. ynd_walk by these choices visits these places and ends
    /// *done*. From a place to itself: no choices, distance 0. Time: n log n and l log n steps, for all nodes that a
    /// walk reaches, however near `to` is; where numbers are not places, a link looks at up to 256 nodes more.
    /// Refused, in this order: 13 no such place, either of them; 14 a struct over a limit; 7 at 0 and 1 where a list
    /// is shorter than its count; 7 at 9 where the scratch has under YND_PATH_SCRATCH * node_count entries; 17 where
    /// no walk joins the two places; 7 at 8 where `choices` or `places` has under node_count entries. From 17 on, and
    /// where the call is accepted, the scratch may hold anything; all else that was lent stays on a refusal.
    pub fn ynd_shortest_path(
        ynd: *const ynd_cell, nodes: *const ynd_node_entry, nodes_len: usize, links: *const ynd_link_entry,
        links_len: usize, from: usize, to: usize, scratch: *mut u32, scratch_len: usize, choices: *mut u8,
        choices_len: usize, places: *mut u32, places_len: usize, distance: *mut u32, count: *mut usize,
        place: *mut usize,
    ) -> u32;

    /// Adds a node behind all others, with no flags and no links; its number is its place, its position is stored in
    /// whole steps. Refused: 14 over a limit, or at 65,536 nodes; 7 at 0 where `nodes` has no free entry.
    pub fn ynd_add_node(
        ynd: *mut ynd_cell, nodes: *mut ynd_node_entry, nodes_len: usize, area_id: u16, x: f32, y: f32, z: f32,
        place: *mut usize,
    ) -> u32;

    /// Adds a link as the last one of the node at place `at`; the links behind it move up by one, and so do the
    /// ranges there. Time: linear in n and in the links that move: to draw many links, store each node's at once by
    /// ynd_put_links. Refused, in this order: 13 no such place; 14 over a limit, where link_count would pass 32 bits,
    /// or at 255 links of the node; 7 at 0 where `nodes` is shorter than its count, 7 at 1 where `links` has no free
    /// entry.
    pub fn ynd_add_link(
        ynd: *mut ynd_cell, nodes: *mut ynd_node_entry, nodes_len: usize, links: *mut ynd_link_entry,
        links_len: usize, at: usize, link: *const ynd_link_entry, place: *mut usize,
    ) -> u32;

    /// Adds a ref behind all others. Refused: 14 over a limit, or where the count would pass 32 bits; 7 at 4 where
    /// `refs` has no free entry.
    pub fn ynd_add_ref(
        ynd: *mut ynd_cell, refs: *mut ynd_ref_entry, refs_len: usize, added: *const ynd_ref_entry,
        place: *mut usize,
    ) -> u32;

    /// Adds a junction behind all others, and its heightmap values behind all others; `junction` says width and
    /// height, its heightmap_start is not looked at. Time: linear in the values. Refused, in this order: 14 over a
    /// limit, at 4,096 junctions, or where the count of values would pass 32 bits; 12 where the values are not width
    /// times height; 7 at 2 and 3 where `junctions` or `heights` have no room.
    pub fn ynd_add_junction(
        ynd: *mut ynd_cell, junctions: *mut ynd_junction_entry, junctions_len: usize, heights: *mut u8,
        heights_len: usize, junction: *const ynd_junction_entry, values: *const u8, values_len: usize,
        place: *mut usize,
    ) -> u32;

    /// Copies the node at place `at`. Refused: 13 no such place; 14 over a limit; 7 at 0 where a list is shorter than
    /// its count.
    pub fn ynd_get_node(
        ynd: *const ynd_cell, nodes: *const ynd_node_entry, nodes_len: usize, at: usize, node: *mut ynd_node_entry,
        place: *mut usize,
    ) -> u32;

    /// Copies link k of the node at place `at`. Refused: 13 no such node or link; 14 over a limit; 7 at 0 and 1 where
    /// a list is shorter than its count.
    pub fn ynd_get_link(
        ynd: *const ynd_cell, nodes: *const ynd_node_entry, nodes_len: usize, links: *const ynd_link_entry,
        links_len: usize, at: usize, k: usize, link: *mut ynd_link_entry, place: *mut usize,
    ) -> u32;

    /// Copies the ref at place `at`. Refused: 13 no such place; 14 over a limit; 7 at 4 where a list is shorter than
    /// its count.
    pub fn ynd_get_ref(
        ynd: *const ynd_cell, refs: *const ynd_ref_entry, refs_len: usize, at: usize, taken: *mut ynd_ref_entry,
        place: *mut usize,
    ) -> u32;

    /// Copies the junction at place `at`. Refused: 13 no such place; 14 over a limit; 7 at 2 where a list is shorter
    /// than its count.
    pub fn ynd_get_junction(
        ynd: *const ynd_cell, junctions: *const ynd_junction_entry, junctions_len: usize, at: usize,
        junction: *mut ynd_junction_entry, place: *mut usize,
    ) -> u32;

    /// Copies heightmap value k of the junction at place `at`. Refused: 13 no such junction or value; 14 over a
    /// limit; 7 at 2 and 3 where a list is shorter than its count.
    pub fn ynd_get_height(
        ynd: *const ynd_cell, junctions: *const ynd_junction_entry, junctions_len: usize, heights: *const u8,
        heights_len: usize, at: usize, k: usize, value: *mut u8, place: *mut usize,
    ) -> u32;

    /// Stores every field of the node at place `at` but where its links are (link_start, link_count); the position is
    /// taken as it is. Refused: 13 no such place; 14 over a limit; 7 at 0 where a list is shorter than its count.
    pub fn ynd_put_node(
        ynd: *const ynd_cell, nodes: *mut ynd_node_entry, nodes_len: usize, at: usize, node: *const ynd_node_entry,
        place: *mut usize,
    ) -> u32;

    /// Stores a position, in whole steps, of the node at place `at`. Refused: 13 no such place; 14 over a limit; 7 at
    /// 0 where a list is shorter than its count.
    pub fn ynd_set_position(
        ynd: *const ynd_cell, nodes: *mut ynd_node_entry, nodes_len: usize, at: usize, x: f32, y: f32, z: f32,
        place: *mut usize,
    ) -> u32;

    /// Stores link k of the node at place `at`. Refused: 13 no such node or link; 14 over a limit; 7 at 0 and 1 where
    /// a list is shorter than its count.
    pub fn ynd_put_link(
        ynd: *const ynd_cell, nodes: *const ynd_node_entry, nodes_len: usize, links: *mut ynd_link_entry,
        links_len: usize, at: usize, k: usize, link: *const ynd_link_entry, place: *mut usize,
    ) -> u32;

    /// Stores the ref at place `at`. Refused: 13 no such place; 14 over a limit; 7 at 4 where a list is shorter than
    /// its count.
    pub fn ynd_put_ref(
        ynd: *const ynd_cell, refs: *mut ynd_ref_entry, refs_len: usize, at: usize, put: *const ynd_ref_entry,
        place: *mut usize,
    ) -> u32;

    /// Stores every field of the junction at place `at` but where its heightmap starts. Refused, in this order: 13 no
    /// such place; 14 over a limit; 12 where width times height is not what it was; 7 at 2 where a list is shorter
    /// than its count.
    pub fn ynd_put_junction(
        ynd: *const ynd_cell, junctions: *mut ynd_junction_entry, junctions_len: usize, at: usize,
        junction: *const ynd_junction_entry, place: *mut usize,
    ) -> u32;

    /// Stores heightmap value k of the junction at place `at`. Refused: 13 no such junction or value; 14 over a
    /// limit; 7 at 2 and 3 where a list is shorter than its count.
    pub fn ynd_put_height(
        ynd: *const ynd_cell, junctions: *const ynd_junction_entry, junctions_len: usize, heights: *mut u8,
        heights_len: usize, at: usize, k: usize, value: u8, place: *mut usize,
    ) -> u32;

    /// Stores the cell's vft. Never refused. (Each of the four is as storing the field of `ynd` by hand.)
    pub fn ynd_set_vft(ynd: *mut ynd_cell, vft: u32);

    /// Stores the count of nodes that are no ped nodes; renumbering sets it by the nodes. Never refused.
    pub fn ynd_set_vehicle_node_count(ynd: *mut ynd_cell, count: u32);

    /// Stores the count of ped nodes; renumbering sets it by the nodes. Never refused.
    pub fn ynd_set_ped_node_count(ynd: *mut ynd_cell, count: u32);

    /// Stores the root's words unk24, unk34, unk48, unk4c, unk5c, unk68 and unk6c. Never refused.
    pub fn ynd_set_unknowns(ynd: *mut ynd_cell, unknowns: *const [u32; 7]);

    /// The first `count` nodes stay; only node_count changes. Refused, in this order: 13 where there are fewer; 14
    /// over 65,536 nodes or 4,096 junctions.
    pub fn ynd_truncate_nodes(ynd: *mut ynd_cell, count: usize, place: *mut usize) -> u32;

    /// The first `count` junctions stay; only junction_count changes. Refused, in this order: 13 where there are
    /// fewer; 14 over 65,536 nodes or 4,096 junctions.
    pub fn ynd_truncate_junctions(ynd: *mut ynd_cell, count: usize, place: *mut usize) -> u32;

    /// The first `count` refs stay; only ref_count changes. Refused, in this order: 13 where there are fewer; 14 over
    /// 65,536 nodes or 4,096 junctions.
    pub fn ynd_truncate_refs(ynd: *mut ynd_cell, count: usize, place: *mut usize) -> u32;

    /// The links of the node at place `at` are the given ones, in their order; none clear it. No more than the node
    /// has stand where these stood, more stand behind all links, and link_count grows by them; the node's old ones
    /// then stay in the list, and no node has them. Time: linear in the given links. Refused, in this order: 13 no
    /// such place; 14 over 65,536 nodes or 4,096 junctions, over 255 given links, or where link_count would pass 32
    /// bits; 7 at 0 where `nodes` is shorter than its count, 7 at 1 where `links` is shorter than its count
    /// afterwards (link_count + given_len entries always do).
    pub fn ynd_put_links(
        ynd: *mut ynd_cell, nodes: *mut ynd_node_entry, nodes_len: usize, links: *mut ynd_link_entry,
        links_len: usize, at: usize, given: *const ynd_link_entry, given_len: usize, place: *mut usize,
    ) -> u32;

    /// The heightmap of the junction at place `at` is width times height of the given values; other fields stay.
    /// Where they stand is as for ynd_put_links. Time: linear in the values. Refused, in this order: 13 no such
    /// place; 14 over 65,536 nodes or 4,096 junctions, or where heightmap_count would pass 32 bits; 12 where the
    /// values are not width times height; 7 at 2 where `junctions` is shorter than its count, 7 at 3 where `heights`
    /// is shorter than its count afterwards (heightmap_count + values_len entries always do).
    pub fn ynd_put_heightmap(
        ynd: *mut ynd_cell, junctions: *mut ynd_junction_entry, junctions_len: usize, heights: *mut u8,
        heights_len: usize, at: usize, width: u8, height: u8, values: *const u8, values_len: usize,
        place: *mut usize,
    ) -> u32;

    /// The bit off_road: flags0, bit 3. Never refused.
    pub fn ynd_node_off_road(node: *const ynd_node_entry) -> bool;

    /// The bit no_big_vehicles: flags0, bit 5. Never refused.
    pub fn ynd_node_no_big_vehicles(node: *const ynd_node_entry) -> bool;

    /// The bit cannot_go_left: flags0, bit 7. Never refused.
    pub fn ynd_node_cannot_go_left(node: *const ynd_node_entry) -> bool;

    /// The bit slip_road: flags1, bit 0. Never refused.
    pub fn ynd_node_slip_road(node: *const ynd_node_entry) -> bool;

    /// The bit indicate_keep_left: flags1, bit 1. Never refused.
    pub fn ynd_node_indicate_keep_left(node: *const ynd_node_entry) -> bool;

    /// The bit indicate_keep_right: flags1, bit 2. Never refused.
    pub fn ynd_node_indicate_keep_right(node: *const ynd_node_entry) -> bool;

    /// The bit left_turns_only: flags1, bit 7. Never refused.
    pub fn ynd_node_left_turns_only(node: *const ynd_node_entry) -> bool;

    /// Whether renumbering takes it for a ped node: flags1 shifted right by 3 is 10, 14 or 18. Never refused.
    pub fn ynd_node_is_ped_node(node: *const ynd_node_entry) -> bool;

    /// The bit no_gps: flags2, bit 0. Never refused.
    pub fn ynd_node_no_gps(node: *const ynd_node_entry) -> bool;

    /// The bit is_junction: flags2, bit 2. Never refused.
    pub fn ynd_node_is_junction(node: *const ynd_node_entry) -> bool;

    /// The bit is_disabled_unk1: flags2, bit 4. Never refused.
    pub fn ynd_node_is_disabled_unk1(node: *const ynd_node_entry) -> bool;

    /// The bit highway: flags2, bit 6. Never refused.
    pub fn ynd_node_highway(node: *const ynd_node_entry) -> bool;

    /// The bit is_disabled_unk0: flags2, bit 7. Never refused.
    pub fn ynd_node_is_disabled_unk0(node: *const ynd_node_entry) -> bool;

    /// Whether either bit of is_disabled is set. Never refused.
    pub fn ynd_node_is_disabled(node: *const ynd_node_entry) -> bool;

    /// The bit tunnel: flags3, bit 0. Never refused.
    pub fn ynd_node_tunnel(node: *const ynd_node_entry) -> bool;

    /// The heuristic value: the upper seven bits of flags3. Never refused.
    pub fn ynd_node_heuristic_value(node: *const ynd_node_entry) -> u8;

    /// The density: the low four bits of flags4. Never refused.
    pub fn ynd_node_density(node: *const ynd_node_entry) -> u8;

    /// The dead-endness: flags4, bits 4 to 6, times 16. Never refused.
    pub fn ynd_node_dead_endness(node: *const ynd_node_entry) -> u8;

    /// Sets the bit off_road: flags0, bit 3. Never refused.
    pub fn ynd_node_set_off_road(node: *mut ynd_node_entry, on: bool);

    /// Sets the bit no_big_vehicles: flags0, bit 5. Never refused.
    pub fn ynd_node_set_no_big_vehicles(node: *mut ynd_node_entry, on: bool);

    /// Sets the bit cannot_go_left: flags0, bit 7. Never refused.
    pub fn ynd_node_set_cannot_go_left(node: *mut ynd_node_entry, on: bool);

    /// Sets the bit slip_road: flags1, bit 0. Never refused.
    pub fn ynd_node_set_slip_road(node: *mut ynd_node_entry, on: bool);

    /// Sets the bit indicate_keep_left: flags1, bit 1. Never refused.
    pub fn ynd_node_set_indicate_keep_left(node: *mut ynd_node_entry, on: bool);

    /// Sets the bit indicate_keep_right: flags1, bit 2. Never refused.
    pub fn ynd_node_set_indicate_keep_right(node: *mut ynd_node_entry, on: bool);

    /// Sets the bit left_turns_only: flags1, bit 7. Never refused.
    pub fn ynd_node_set_left_turns_only(node: *mut ynd_node_entry, on: bool);

    /// Sets the bit no_gps: flags2, bit 0. Never refused.
    pub fn ynd_node_set_no_gps(node: *mut ynd_node_entry, on: bool);

    /// Sets the bit is_junction: flags2, bit 2. Never refused.
    pub fn ynd_node_set_is_junction(node: *mut ynd_node_entry, on: bool);

    /// Sets the bit highway: flags2, bit 6. Never refused.
    pub fn ynd_node_set_highway(node: *mut ynd_node_entry, on: bool);

    /// Sets the bit tunnel: flags3, bit 0. Never refused.
    pub fn ynd_node_set_tunnel(node: *mut ynd_node_entry, on: bool);

    /// Sets the heuristic value; of a value over 127 the low seven bits are stored. Never refused.
    pub fn ynd_node_set_heuristic_value(node: *mut ynd_node_entry, v: u8);

    /// Sets the density; of a value over 15 the low four bits are stored. Never refused.
    pub fn ynd_node_set_density(node: *mut ynd_node_entry, v: u8);

    /// The kind of node: the upper five bits of flags1. Never refused.
    pub fn ynd_node_special(node: *const ynd_node_entry) -> u8;

    /// Sets the kind of node; of a value over 31 the low five bits are stored. Never refused.
    pub fn ynd_node_set_special(node: *mut ynd_node_entry, v: u8);

    /// The speed: 0 slow, 1 normal, 2 fast, 3 faster (flags5, bits 1 and 2). Never refused.
    pub fn ynd_node_speed(node: *const ynd_node_entry) -> u8;

    /// Sets the speed; a value over 3 is 3. Never refused.
    pub fn ynd_node_set_speed(node: *mut ynd_node_entry, v: u8);

    /// Whether a kind (ynd_node_special) is one of the three kinds of ped node: 10, 14, 18. Never refused.
    pub fn ynd_special_is_ped(v: u8) -> bool;

    /// A node at a position, stored in whole steps, with no flags and no links. Fills `node`. Never refused.
    pub fn ynd_node_new(area_id: u16, node_id: u16, x: f32, y: f32, z: f32, node: *mut ynd_node_entry);

    /// Stores a position, in whole steps. Never refused.
    pub fn ynd_node_set_position(node: *mut ynd_node_entry, x: f32, y: f32, z: f32);

    /// The bit gps_both_ways: flags0, bit 0. Never refused.
    pub fn ynd_link_gps_both_ways(link: *const ynd_link_entry) -> bool;

    /// The bit narrow_road: flags1, bit 1. Never refused.
    pub fn ynd_link_narrow_road(link: *const ynd_link_entry) -> bool;

    /// The offset value: flags1, bits 4 to 6. Never refused.
    pub fn ynd_link_offset_value(link: *const ynd_link_entry) -> u8;

    /// The bit negative_offset: flags1, bit 7. Never refused.
    pub fn ynd_link_negative_offset(link: *const ynd_link_entry) -> bool;

    /// The lane offset: offset_value / 7 times a half, below zero where negative_offset. Never refused.
    pub fn ynd_link_lane_offset(link: *const ynd_link_entry) -> f32;

    /// The bit dont_use_for_navigation: flags2, bit 0. Never refused.
    pub fn ynd_link_dont_use_for_navigation(link: *const ynd_link_entry) -> bool;

    /// The bit shortcut: flags2, bit 1. Never refused.
    pub fn ynd_link_shortcut(link: *const ynd_link_entry) -> bool;

    /// How many lanes lead back: flags2, bits 2 to 4. Never refused.
    pub fn ynd_link_lane_count_backward(link: *const ynd_link_entry) -> u8;

    /// How many lanes lead forward: the upper three bits of flags2. Never refused.
    pub fn ynd_link_lane_count_forward(link: *const ynd_link_entry) -> u8;

    /// Whether lanes lead both ways. Never refused.
    pub fn ynd_link_is_two_way(link: *const ynd_link_entry) -> bool;

    /// Sets the bit shortcut: flags2, bit 1. Never refused.
    pub fn ynd_link_set_shortcut(link: *mut ynd_link_entry, on: bool);

    /// Sets how many lanes lead back; of a value over 7 the low three bits are stored. Never refused.
    pub fn ynd_link_set_lane_count_backward(link: *mut ynd_link_entry, n: u8);

    /// Sets how many lanes lead forward; of a value over 7 the low three bits are stored. Never refused.
    pub fn ynd_link_set_lane_count_forward(link: *mut ynd_link_entry, n: u8);

    /// A link to a node, with no flags and length 0. Fills `link`. Never refused.
    pub fn ynd_link_to(area_id: u16, node_id: u16, link: *mut ynd_link_entry);

    /// The steps in which a coordinate x or y is stored: x times 4, cut towards zero, limited to -32768..32767; NaN
    /// gives 0. Never refused.
    pub fn ynd_steps_xy(x: f32) -> i16;

    /// The steps in which a coordinate z is stored: z times 32, cut and limited likewise. Never refused.
    pub fn ynd_steps_z(x: f32) -> i16;

    /// ynd_steps_xy of the float that has these bits. Never refused.
    pub fn ynd_steps_xy_of_bits(bits: u32) -> i16;

    /// ynd_steps_z of the float that has these bits. Never refused.
    pub fn ynd_steps_z_of_bits(bits: u32) -> i16;

    /// What n stored steps stand for along x and y: n divided by 4, exactly. Never refused.
    pub fn ynd_metres_xy(n: i16) -> f32;

    /// What n stored steps stand for along z: n divided by 32, exactly. Never refused.
    pub fn ynd_metres_z(n: i16) -> f32;

    /// The bits of a float; every NaN gives 0x7fc00000. Never refused.
    pub fn ynd_bits_of(x: f32) -> u32;

    /// The float that has these bits; there is one NaN. Never refused.
    pub fn ynd_float_of(bits: u32) -> f32;

    /// The position x, y, z as it comes back once it was stored in steps. Fills `stored`. Never refused.
    pub fn ynd_stored_position(x: f32, y: f32, z: f32, stored: *mut [f32; 3]);

    /// The stored steps of the position x, y, z. Fills `steps`. Never refused.
    pub fn ynd_quantise(x: f32, y: f32, z: f32, steps: *mut [i16; 3]);

    /// The position that stored steps stand for. Fills `position`. Never refused.
    pub fn ynd_dequantise(x: i16, y: i16, z: i16, position: *mut [f32; 3]);

    /// The length of a link from a to b in whole metres: the correctly rounded root, cut, at most 255; NaN gives 255.
    /// Never refused.
    pub fn ynd_length_between(ax: f32, ay: f32, az: f32, bx: f32, by: f32, bz: f32) -> u8;

    /// The lane offset of a link from its two fields: value / 7 times a half, below zero where `negative`. Never
    /// refused.
    pub fn ynd_lane_offset(offset_value: u8, negative: bool) -> f32;

    /// The grid cell that holds a position: its numbers along x and y, each 0 to 31. Fills `cell`. Never refused.
    pub fn ynd_cell_for_position(x: f32, y: f32, cell: *mut [u32; 2]);

    /// The area number of a grid cell, 32 cy + cx, into `area`. Refused: 13 at 0 where cx or cy is over 31.
    pub fn ynd_area_id(cx: u32, cy: u32, area: *mut u32, place: *mut usize) -> u32;

    /// The grid cell that an area names, the island's bit (1024) left aside. Fills `cell`. Never refused.
    pub fn ynd_cell_of_area(area: u32, cell: *mut [u32; 2]);

    /// Whether an area carries the island's bit (1024). Never refused.
    pub fn ynd_is_island_area(area: u32) -> bool;

    /// Whether two areas name the same grid cell, the island's bit left aside. Never refused.
    pub fn ynd_same_cell(a: u32, b: u32) -> bool;

    /// The corners of a grid cell in metres: x0, y0, x1, y1. Fills `bounds`. Refused: 13 at 0 where cx or cy is over
    /// 31.
    pub fn ynd_cell_bounds(cx: u32, cy: u32, bounds: *mut [f32; 4], place: *mut usize) -> u32;

    /// The file name of a grid cell: its bytes into `name`, zero behind them, and how many they are into `count`.
    /// Refused: 13 at 0 where cx or cy is over 31.
    pub fn ynd_cell_file_name(cx: u32, cy: u32, name: *mut [u8; 13], count: *mut usize, place: *mut usize) -> u32;

    /// Whether a file name names an area, which then goes into `area` (else `area` stays). Only what follows the last
    /// / or \ counts. The name is bytes, with no zero behind them. Time: linear in the name. Never refused.
    pub fn ynd_area_id_from_file_name(name: *const u8, name_len: usize, area: *mut u32) -> bool;

    /// Where an array of `count` entries of `width` bytes lies, in sections of so many bytes. True where the address
    /// is good, and then section, offset and length are in `part`; false, with `part` as it was, where not. Address 0
    /// or count 0 is an empty array. Never refused.
    pub fn ynd_locate(
        address: u64, count: u32, width: u8, system: usize, graphics: usize, part: *mut ynd_part,
    ) -> bool;

    /// The root that reading goes by, as it is written (28 words; word 1 is 1); of no bytes that of ynd_new. Fills
    /// `words`. Refused, in this order: 2 at 0 over YND_SECTION_MOST bytes; 1 from 1 to 111 bytes.
    pub fn ynd_root(section: *const u8, section_len: usize, words: *mut [u32; 28], place: *mut usize) -> u32;

    /// The node record at an offset of a section, as it is written. Fills `bytes`. Refused: 3 at 0 where it does not
    /// end inside the section.
    pub fn ynd_node_record(
        section: *const u8, section_len: usize, at: u32, bytes: *mut [u8; 40], place: *mut usize,
    ) -> u32;

    /// The link record at an offset of a section, as it is written. Fills `bytes`. Refused: 3 at 1 likewise.
    pub fn ynd_link_record(
        section: *const u8, section_len: usize, at: u32, bytes: *mut [u8; 8], place: *mut usize,
    ) -> u32;

    /// The junction record at an offset of a section, as it is written. Fills `bytes`. Refused: 3 at 2 likewise.
    pub fn ynd_junction_record(
        section: *const u8, section_len: usize, at: u32, bytes: *mut [u8; 12], place: *mut usize,
    ) -> u32;

    /// The ref record at an offset of a section, as it is written. Fills `bytes`. Refused: 3 at 4 likewise.
    pub fn ynd_ref_record(
        section: *const u8, section_len: usize, at: u32, bytes: *mut [u8; 8], place: *mut usize,
    ) -> u32;

    /// Where the five blocks of a written section lie, by their counts: each address (0 for an empty one) into
    /// `addresses`, the length of the whole into `total`. ynd_write needs that many bytes. Refused, in this order: 14
    /// over 65,536 nodes or 4,096 junctions; 2 at 0 where the whole is over YND_SECTION_MOST bytes.
    pub fn ynd_lay_out(
        refs: u32, heightmap: u32, junctions: u32, links: u32, nodes: u32, addresses: *mut ynd_addresses,
        total: *mut usize, place: *mut usize,
    ) -> u32;
}
