//! The families of inputs, and what each has to meet in a default run: kinds of answer and edges, each at least so
//! often. A run in which one was met less often fails. judge/README.md has this table; `judge families` prints it.
use super::seen::Call::*;
use super::seen::Kind::{self, At, Edge, No, Yes};
use super::seen::Met::*;

/// What is counted together: number patterns, names and pairs; files, cells, memories and scripts; runs of programs.
#[derive(Clone, Copy, PartialEq, Eq)]
pub enum Domain { Numbers, Cells, Programs }

pub const DOMAINS: [&str; 3] = ["numbers", "cells", "runs of programs"];

pub struct Family {
    pub name: &'static str,
    pub domain: Domain,
    /// What a default run takes.
    pub inputs: &'static str,
    pub must: Must,
}

type Must = &'static [(Kind, u64)];

const fn numbers(name: &'static str, inputs: &'static str, must: Must) -> Family {
    Family { name, domain: Domain::Numbers, inputs, must }
}
const fn cells(name: &'static str, inputs: &'static str, must: Must) -> Family {
    Family { name, domain: Domain::Cells, inputs, must }
}
const fn programs(name: &'static str, inputs: &'static str, must: Must) -> Family {
    Family { name, domain: Domain::Programs, inputs, must }
}

pub const FAMILIES: &[Family] = &[
    numbers("steps", "every 61st f32 pattern from the seed on, in both scales", &[
        (Edge(Nan), 100_000), (Edge(Low), 1_000_000), (Edge(High), 1_000_000), (Edge(Cut), 1_000_000),
    ]),
    numbers("grid", "every 61st f32 pattern as x, another as y", &[
        (Edge(Nan), 100_000), (Edge(Low), 1_000_000), (Edge(High), 1_000_000), (Edge(FirstSum), 1_000_000),
    ]),
    numbers("lengths along an axis", "every 401st f32 from 2^-24 up as a difference", &[
        (Edge(Nan), 1_000), (Edge(High), 1_000_000), (Edge(Cut), 100_000),
    ]),
    numbers("lengths next to squares", "400 pairs for each threshold and each of the three patterns on both sides", &[
        (Edge(Before), 250_000), (Edge(Exactly), 80_000), (Edge(After), 250_000), (Edge(Axis), 50_000),
        (Edge(Split), 200_000), (Edge(Difference), 100_000), (Edge(Square), 200_000), (Edge(FirstSum), 100_000),
        (Edge(LastSum), 100_000),
    ]),
    numbers("metres", "every stored step", &[]),
    numbers("lane offsets", "every flags1", &[]),
    numbers("areas", "every 65,537th of 32 bits", &[]),
    numbers("areas of 16 bits", "every one", &[]),
    numbers("accessors", "every value of each byte, with every value set", &[]),
    numbers("new ones", "every 257th of 16 bits: the empty cell, a new link", &[]),
    numbers("grid cells", "40 × 40 cells, 32 × 32 of them on the grid", &[
        (Yes(Grid), 1_024), (At(Grid, 13, 0), 576),
    ]),
    numbers("names with a middle", "every 7th middle of up to 7 of 10 letters", &[
        (Edge(Named), 1_000), (Edge(Unnamed), 1_000_000),
    ]),
    numbers("names of parts", "every row of up to 5 of 15 parts", &[(Edge(Named), 500), (Edge(Unnamed), 100_000)]),
    numbers("names of four letters", "every 61st name of up to 12 of four letters", &[
        (Edge(Named), 100), (Edge(Unnamed), 100_000),
    ]),
    numbers("positions", "random positions: stored, read, nodes at them", &[
        (Edge(Nan), 1_000), (Edge(Low), 1_000), (Edge(High), 1_000), (Edge(Cut), 10_000),
    ]),
    numbers("lengths", "random pairs, most near each other", &[
        (Edge(Nan), 1_000), (Edge(High), 10_000), (Edge(Cut), 100_000),
    ]),
    numbers("names", "random bytes, most a name with a letter changed", &[
        (Edge(Named), 10_000), (Edge(Unnamed), 10_000),
    ]),
    cells("files around limits", "each limit of reading, with its neighbours", &[
        (At(Read, 2, 0), 2), (At(Read, 2, 1), 7), (No(Read, 1), 100), (At(Read, 6, 0), 2), (At(Read, 6, 1), 1),
        (Yes(Read), 10), (Edge(Undrawn), 6),
    ]),
    cells("cells around limits", "each limit of writing, with its neighbours", &[
        (No(Write, 8), 15), (No(Write, 9), 10), (No(Write, 10), 2), (No(Write, 11), 1), (Yes(Write), 10),
        (Edge(LatePost), 8), (Edge(AllPosts), 2),
    ]),
    cells("scripts around limits", "edits up to 65,536 nodes, 4,096 junctions, 255 links", &[
        (No(Edit, 14), 5), (No(Edit, 7), 2), (No(Edit, 8), 1), (Yes(Edit), 200),
    ]),
    cells("sections and records", "random files: parts, root, records, layout", &[
        (Edge(Found), 100_000), (Edge(NotFound), 100_000), (Edge(Watched), 100_000),
    ]),
    cells("drop-in", "files, half of them damaged: the wrapper's module `ynd` beside the Rust, field by field", &[
        (Yes(Read), 1_000), (No(Read, 3), 200), (Yes(Renumber), 500), (Yes(Write), 1_000), (Edge(Found), 1_000),
        (Edge(NotFound), 1_000),
    ]),
    cells("files", "random files, half of them damaged: every call on what is read", &[
        (Yes(Read), 10_000), (No(Read, 1), 500), (At(Read, 3, 0), 500), (At(Read, 3, 1), 500), (At(Read, 3, 2), 500),
        (At(Read, 3, 3), 500), (At(Read, 3, 4), 500), (No(Read, 4), 200), (No(Read, 5), 200), (At(Read, 7, 0), 100),
        (At(Read, 7, 1), 100), (At(Read, 7, 2), 100), (At(Read, 7, 3), 100), (At(Read, 7, 4), 100),
        (Yes(Renumber), 5_000), (At(Renumber, 7, 6), 1_000), (At(Renumber, 7, 7), 1_000), (Yes(Write), 5_000),
        (At(Write, 7, 0), 50), (At(Write, 7, 1), 50), (At(Write, 7, 2), 50), (At(Write, 7, 3), 50),
        (At(Write, 7, 4), 50), (At(Write, 7, 5), 1_000), (Yes(WriteRead), 5_000), (At(WriteRead, 7, 5), 1_000),
        (Yes(Lookup), 10_000), (Edge(Found), 5_000), (Edge(NotFound), 1_000), (Yes(Entry), 10_000),
        (No(Entry, 13), 5_000), (Edge(Done), 1_000), (Edge(NoLink), 1_000), (Edge(Left), 1_000), (Edge(NoNode), 100),
        (No(Walk, 13), 100), (At(Walk, 7, 8), 500), (Edge(Sound), 1_000), (Edge(Unsound), 1_000),
        (At(Soundness, 7, 6), 500), (Edge(Equal), 1_000), (Edge(Copies), 1_000), (Edge(Watched), 1_000_000),
        (No(Lookup, 7), 100), (No(Entry, 7), 100), (Yes(Shown), 1_000), (No(Shown, 13), 1_000), (No(Shown, 7), 100),
        (Edge(Undrawn), 100), (Edge(Island), 2_000), (Edge(Claimed), 1_000),
    ]),
    cells("any memory", "structs and lists made by hand: every call", &[
        (Yes(Renumber), 1_000), (Yes(Write), 200), (No(Write, 8), 100), (Yes(WriteRead), 50), (No(Write, 12), 100),
        (No(WriteRead, 12), 100), (No(WriteRead, 7), 100), (At(Renumber, 7, 0), 100), (No(Renumber, 14), 500), (No(Write, 14), 500),
        (No(Write, 11), 100), (Edge(Sound), 100), (Edge(Unsound), 1_000),
    ]),
    cells("far ranges", "pools of over 65,536 entries, starts past 65,535: every call", &[
        (Edge(FarLinks), 1_000), (Edge(FarValues), 500), (Edge(UpperHalf), 400), (Yes(Renumber), 200),
        (Yes(Write), 200), (Yes(WriteRead), 50), (Edge(Followed), 500), (Yes(Entry), 2_000), (Edge(Watched), 50_000),
    ]),
    cells("edits of far ranges", "edits of cells with over 65,535 links and values", &[
        (Edge(FarLinks), 100), (Edge(FarValues), 100), (Yes(Edit), 200), (At(Edit, 13, 0), 20), (No(Edit, 14), 5),
    ]),
    cells("large cells", "2,000 to 65,536 nodes: written, read, renumbered, written", &[
        (Yes(Write), 48), (Edge(Many), 24), (Edge(MostNodes), 6), (Edge(MostLinks), 6), (Edge(MostJunctions), 6),
        (Edge(MostRefs), 6), (Edge(RustBytes), 50_000_000), (Yes(WriteRead), 24), (Yes(Renumber), 24),
    ]),
    cells("nodes without links", "posts behind 65,534 to 65,565 links: every call, then lists of calls", &[
        (Edge(LatePost), 5), (Edge(PostsFirst), 5), (Edge(PostsBetween), 5), (Edge(PostsLast), 5), (Yes(Write), 20),
        (Yes(WriteRead), 20), (Edge(Moved), 20), (Edge(NoLink), 100), (Edge(Followed), 500),
    ]),
    cells("reach", "points and radii over nodes anywhere, also raw: T-01's two calls, T-08's order", &[
        (Yes(Near), 100_000), (At(Near, 7, 0), 1_000), (At(Near, 7, 8), 10_000), (At(Near, 14, 0), 1_000),
        (Edge(FarApart), 5_000), (Edge(Radius0), 5_000), (Edge(Radius1), 5_000), (Edge(RadiusMost), 5_000),
        (Edge(OnCircle), 5_000), (Edge(StepBeyond), 5_000), (Edge(EqualNear), 5_000), (Edge(Nan), 5_000),
        (Edge(Infinite), 5_000), (Edge(Third), 5_000), (Edge(Empty), 5_000), (Edge(JustLong), 50_000),
        (Edge(OneShort), 50_000), (Edge(MostNodes), 20), (Edge(Tied), 5_000), (Edge(Backwards), 500),
        (Edge(MostListed), 20),
    ]),
    cells("round files of few bytes", "every file of up to 6 of 7 bytes, alone and behind the mark and version 1", &[
        (No(Round, 15), 250_000), (No(Round, 16), 500_000), (At(Round, 7, 8), 5_000), (Yes(Round), 10_000),
        (Edge(WrittenBack), 5_000),
    ]),
    cells("round files", "good files, each byte of them changed, and every length", &[
        (No(Round, 15), 500_000), (No(Round, 16), 1_000_000), (At(Round, 7, 8), 300_000), (Yes(Round), 300_000),
        (Edge(Damaged), 1_000_000), (Edge(WrittenBack), 300_000), (Edge(JustLong), 30_000), (Edge(OneShort), 25_000),
    ]),
    cells("round files at their limit", "65,534 to 65,537 choices, memory around what is needed", &[
        (No(Round, 16), 10), (At(Round, 7, 8), 4), (Yes(Round), 12), (Edge(MostChoices), 4), (Edge(OverChoices), 4),
    ]),
    cells("rounds followed", "numbers that no node, one and two nodes have, in small cells, also made by hand", &[
        (Yes(Follow), 200_000), (At(Follow, 13, 0), 50_000), (At(Follow, 7, 0), 1_000), (At(Follow, 7, 1), 1_000),
        (At(Follow, 7, 8), 20_000), (At(Follow, 14, 0), 1_000), (Edge(Done), 15_000), (Edge(NoLink), 20_000),
        (Edge(Left), 5_000), (Edge(NoNode), 2_000), (Edge(NotItsPlace), 20_000), (Edge(TwoNumbers), 10_000),
        (Edge(JustLong), 20_000), (Edge(OneShort), 20_000), (Edge(Empty), 1_000),
    ]),
    cells("versions of round files", "files of nine and eleven bytes with each version number, by both readers", &[
        (No(Round, 15), 131_000), (Yes(Round), 1), (No(Round, 16), 1),
    ]),
    cells("round files of both versions", "good files of versions 1 and 2, each byte of them changed, and every length", &[
        (No(Round, 15), 100_000), (No(Round, 16), 200_000), (At(Round, 7, 8), 20_000), (Yes(Round), 50_000),
        (Edge(Damaged), 200_000), (Edge(WrittenBack), 50_000), (Edge(OneShort), 10_000),
    ]),
    cells("rounds of both versions followed", "areas equal, with the island's bit turned and other, as rounds followed", &[
        (Yes(Follow), 50_000), (No(Follow, 19), 30_000), (At(Follow, 13, 0), 10_000), (At(Follow, 7, 0), 300),
        (At(Follow, 7, 1), 200), (At(Follow, 7, 8), 10_000), (At(Follow, 14, 0), 300), (Edge(Empty), 500),
    ]),
    cells("sets of cells", "up to nine small cells that name one another: every call on the set and on a member, rounds", &[
        (Yes(Set), 50_000), (No(Set, 13), 5_000), (At(Set, 14, 0), 200), (No(Set, 15), 20_000), (No(Set, 18), 2_000),
        (No(Set, 19), 5_000), (At(Set, 7, 0), 200), (At(Set, 7, 1), 200), (At(Set, 7, 6), 200), (At(Set, 7, 7), 200),
        (At(Set, 7, 8), 2_000), (At(Set, 7, 10), 100),
        (Edge(Sound), 2_000), (Edge(Unsound), 2_000), (Edge(Done), 5_000), (Edge(NoLink), 5_000), (Edge(Left), 2_000),
        (Edge(NoNode), 500), (Edge(Followed), 5_000), (Edge(Moved), 5_000), (Edge(Backwards), 2_000),
        (Edge(Watched), 5_000), (Yes(Edit), 20_000), (No(Edit, 12), 1_000), (No(Edit, 13), 20_000),
        (No(Edit, 14), 5_000), (At(Edit, 7, 0), 5_000), (At(Edit, 7, 1), 2_000), (At(Edit, 7, 2), 2_000), (At(Edit, 7, 3), 2_000),
        (At(Edit, 7, 4), 2_000), (Yes(Write), 10_000), (No(Write, 8), 30), (No(Write, 13), 5_000),
        (No(Write, 14), 1_000),
        (At(Write, 7, 5), 2_000), (Yes(WriteRead), 1_500), (No(WriteRead, 8), 3), (No(WriteRead, 14), 200),
        (At(WriteRead, 7, 5), 300), (Yes(Lookup), 10_000), (At(Lookup, 7, 0), 500), (Yes(Entry), 10_000),
        (No(Entry, 13), 20_000), (Yes(Shown), 10_000), (No(Shown, 13), 20_000),
    ]),
    cells("full sets", "65,536 nodes together and just under: what joins, nodes more with room and without", &[
        (Yes(Set), 15), (At(Set, 14, 0), 7), (Yes(Edit), 10), (At(Edit, 14, 0), 30), (At(Edit, 7, 0), 3),
        (Edge(MostNodes), 6),
    ]),
    cells("lists of calls on sound sets", "T-09 as it is stated", &[
        (Edge(Sound), 15_000), (Edge(Moved), 3_000), (Edge(Done), 10_000), (Edge(NoLink), 10_000), (Edge(Left), 100),
        (Edge(Followed), 10_000), (Yes(Renumber), 5_000), (No(Renumber, 13), 500), (At(Renumber, 7, 6), 1_000),
        (At(Renumber, 7, 7), 1_000), (Yes(WriteRead), 5_000), (No(WriteRead, 13), 500), (At(WriteRead, 7, 5), 1_000),
        (Yes(Set), 50_000), (At(Set, 7, 8), 10_000),
    ]),
    cells("bytes that don't count", "files, half of them damaged, with other bytes where none count: T-14's agreement", &[
        (Yes(Read), 20_000), (No(Read, 1), 100), (No(Read, 3), 2_000), (No(Read, 4), 500), (No(Read, 5), 200),
        (No(Read, 7), 1_000), (Yes(Write), 20_000), (Yes(WriteRead), 5_000), (Yes(Renumber), 5_000),
        (Yes(Walk), 20_000), (Edge(RootBytes), 30_000), (Edge(GapBytes), 20_000), (Edge(GraphicsBytes), 5_000),
        (Edge(OtherLinks), 5_000), (Edge(OtherValues), 5_000), (Edge(OverRoot), 500),
        (Edge(OverArray), 500), (Edge(NoArray), 5_000),
    ]),
    cells("paths", "pairs of places in small cells, sound or not, also raw and by hand: T-06's call", &[
        (Yes(Path), 50_000), (At(Path, 13, 0), 2_000), (At(Path, 14, 0), 500), (At(Path, 7, 0), 200),
        (At(Path, 7, 1), 200), (At(Path, 7, 8), 10_000), (At(Path, 7, 9), 10_000), (At(Path, 17, 0), 10_000),
        (Edge(SamePlace), 5_000), (Edge(SeveralLinks), 5_000), (Edge(Length0), 5_000), (Edge(Parallel), 5_000),
        (Edge(Left), 5_000), (Edge(NoNode), 5_000), (Edge(Equal), 5_000), (Edge(Moved), 1_000),
    ]),
    cells("stores", "words, links, heightmaps and list lengths stored as a whole, beside the Rust's fields", &[
        (Yes(Edit), 20_000), (No(Edit, 13), 500), (No(Edit, 14), 100), (No(Edit, 12), 200), (At(Edit, 7, 1), 100),
        (At(Edit, 7, 3), 50),
    ]),
    cells("stores in any memory", "the same into structs and lists made by hand", &[
        (Yes(Edit), 2_000), (No(Edit, 13), 500), (No(Edit, 14), 200), (At(Edit, 7, 0), 20), (At(Edit, 7, 2), 20),
    ]),
    cells("lists of calls on sound cells", "demand 3 as it is stated", &[
        (Edge(Sound), 15_000), (Edge(Moved), 3_000), (Edge(Done), 10_000), (Edge(NoLink), 10_000),
        (Edge(Left), 10_000), (Edge(Followed), 100_000), (At(Renumber, 7, 6), 3_000), (At(Renumber, 7, 7), 1_000),
        (At(WriteRead, 7, 5), 3_000), (At(Walk, 7, 8), 10_000), (Edge(Island), 7_000), (Edge(Claimed), 3_000),
    ]),
    cells("lists of calls on drawn cells", "calls of every kind, each to mean its sentence; then demand 3", &[
        (Yes(Edit), 50_000), (No(Edit, 13), 1_000), (No(Edit, 12), 100), (Edge(Sound), 3_000), (Edge(Undrawn), 1_000),
        (Edge(Moved), 300), (Edge(Followed), 10_000), (Yes(WriteRead), 1_000), (No(WriteRead, 8), 10),
        (Yes(Walk), 10_000),
    ]),
    cells("scripts", "random edits and calls, then written by all sides", &[
        (Yes(Edit), 50_000), (No(Edit, 13), 1_000), (No(Edit, 12), 500), (At(Edit, 7, 0), 200), (At(Edit, 7, 1), 200),
        (At(Edit, 7, 2), 100), (At(Edit, 7, 3), 100), (At(Edit, 7, 4), 100), (At(Edit, 7, 5), 500),
        (At(Edit, 7, 6), 100), (At(Edit, 7, 7), 100), (At(Edit, 7, 8), 100), (Yes(Write), 2_000), (No(Write, 8), 50),
        (Edge(RustBytes), 1_000_000),
    ]),
    programs("cellsum, samples and limits", "samples, zeros, any bytes, around 112 and 65,536", &[
        (Yes(Program), 10), (No(Program, 1), 3), (At(Program, 6, 1), 1), (Edge(Undrawn), 2),
    ]),
    programs("cellsum", "random sections", &[
        (Yes(Program), 300), (No(Program, 1), 60), (No(Program, 3), 500), (No(Program, 4), 5), (No(Program, 5), 4),
    ]),
    programs("pairs", "document 01's pairs", &[]),
    programs("vectors", "the vectors file", &[]),
    programs("printround, frames", "each edge of the frame, and the repository's example", &[
        (Edge(Damaged), 10), (No(Program, 15), 4), (Edge(Done), 1),
    ]),
    programs("printround, limits", "the sizes lent and one entry more, the longest text, refusals that are rare", &[
        (Yes(Program), 3), (No(Program, 4), 1), (No(Program, 5), 1), (At(Program, 6, 1), 1), (At(Program, 7, 0), 1),
        (At(Program, 7, 1), 1), (At(Program, 7, 2), 2), (At(Program, 7, 3), 1), (At(Program, 7, 4), 1),
        (At(Program, 7, 8), 2), (Edge(Done), 3),
    ]),
    programs("printround", "sections with round files of both versions, whole and damaged", &[
        (Yes(Program), 500), (No(Program, 3), 20), (No(Program, 13), 50), (No(Program, 15), 20), (No(Program, 16), 50),
        (No(Program, 19), 100), (Edge(Damaged), 50), (Edge(Done), 200), (Edge(NoLink), 50), (Edge(Left), 20),
        (Edge(NoNode), 20), (Edge(GapBytes), 300),
    ]),
    programs("thresholds", "the length table, by the Rust's root", &[]),
];

pub fn row(name: &str) -> &'static Family {
    FAMILIES.iter().find(|f| f.name == name).unwrap_or_else(|| panic!("no row for the family {name}"))
}
