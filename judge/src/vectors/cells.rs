//! Kind 9: a file read, written, renumbered and written again.
use super::Field::{Bytes, U16, U8};
use super::Records;
use crate::compare::files::generate;
use crate::inputs::files::{self, File, Shape};
use crate::inputs::rng::Rng;
use crate::model::cell::{Cell, Link, Node, Ref};
use crate::model::records::{ADDRESS_AT, ROOT, WIDTHS};
use crate::model::sections::{put_le, SYSTEM};
use crate::model::{read, renumber, write, Answer, Refused};
use crate::rust;
use crate::ynd::Ynd;

const FILE: u8 = 9;

/// What the program has room for: nodes, links, junctions, heightmap values, refs; and the section.
const MOST: [usize; 5] = [64, 256, 16, 512, 64];
const MOST_SECTION: usize = 8_192;
/// No record is longer, and no more are added once the file has so many bytes.
const MOST_RECORD: usize = 1_600;
const ENOUGH: usize = 63_000;

/// What is lent: lists, section, new places, and whether the scratch has 65,536 entries or one less.
#[derive(Clone, Copy)]
struct Lent { lists: [usize; 5], section: usize, places: usize, scratch: bool }

const ALL: Lent = Lent { lists: MOST, section: MOST_SECTION, places: MOST[0], scratch: true };

pub fn add(to: &mut Records) {
    let r = &mut Rng::new(2);
    file(to, &zeros(112), ALL);
    file(to, &zeros(111), ALL);
    file(to, &zeros(0), ALL);
    let pair = alone(&three());
    file(to, &pair, ALL);
    file(to, &alone(&Cell { nodes: vec![Node { area_id: 1, ..Node::default() }], ..Cell::default() }), ALL);
    slips(to);
    islands(to);
    for lists in 0..5 { let f = full(r, lists); file(to, &f, Lent { lists: less(&f, lists), ..ALL }); }
    file(to, &pair, Lent { section: length(&pair) - 1, ..ALL });
    file(to, &pair, Lent { section: length(&pair), ..ALL });
    file(to, &pair, Lent { scratch: false, ..ALL });
    file(to, &pair, Lent { places: 2, ..ALL });
    file(to, &pair, Lent { places: 3, ..ALL });
    refusals(to, r);
    while to.bytes.len() < ENOUGH {
        let f = files::valid(r);
        if fits(&f) { file(to, &f, ALL); }
    }
}

/// T-10: the same with five different tags a node.
pub fn tags(to: &mut Records) {
    let mut cell = three();
    for n in &mut cell.nodes { n.unused = [1, 2, 3, 4, 5].map(|k| 0x1111 * k + u32::from(n.node_id)); }
    file(to, &alone(&cell), ALL);
}

fn zeros(n: usize) -> File { File { system: vec![0; n], graphics: Vec::new(), aux: 0 } }

/// Document 01's numbers 7, 3 (ped), 9, each with a link to 3.
fn three() -> Cell {
    let node = |node_id, flags1| Node {
        area_id: 489, node_id, flags: [0, flags1, 0, 0, 0, 0],
            links: vec![Link { area_id: 489, node_id: 3, ..Link::default() }], ..Node::default()
    };
    Cell { nodes: vec![node(7, 0), node(3, 80), node(9, 0)], ..Cell::default() }
}

/// What document 01 calls believable slips, of reading and renumbering.
fn slips(to: &mut Records) {
    // 0x70000000 names no section, nor does an address with a bit above its low 32.
    let mut f = alone(&three());
    f.graphics = f.system.clone();
    for (at, value) in [(19, 0x70), (19, 0x60), (20, 1)] {
        let mut g = f.clone();
        g.system[at] = value;
        file(to, &g, ALL);
    }
    // A link start over the list's length, of a node with no links.
    let mut bare = three();
    for n in &mut bare.nodes { n.links.clear(); }
    let mut f = alone(&bare);
    f.system[ROOT + 2 * 40 + 26] = 1;
    file(to, &f, ALL);
    // Two nodes with the same number, and links and a ref to it: they go to the last.
    let mut equal = three();
    equal.nodes[2].node_id = 3;
    equal.refs = vec![Ref { area_id: 489, node_id: 3, ..Ref::default() }];
    file(to, &alone(&equal), ALL);
}

/// T-07: an island renumbered, whose links and ref name its area without the bit, or another one.
fn islands(to: &mut Records) {
    for area_id in [489, 489 | 2048] {
        let mut island = three();
        for n in &mut island.nodes { n.area_id |= 1024; n.links[0].area_id = area_id; }
        island.refs = vec![Ref { area_id, node_id: 3, ..Ref::default() }];
        file(to, &alone(&island), ALL);
    }
}

fn alone(cell: &Cell) -> File { File { system: packed(cell), graphics: Vec::new(), aux: 0 } }

/// The root and the arrays, one straight behind the other, with no page block.
pub fn packed(cell: &Cell) -> Vec<u8> {
    let whole = write::written(cell).expect("a cell that is written");
    let (counts, mut out) = (cell.counts(), whole[..ROOT].to_vec());
    let (at, _) = write::layout(counts);
    for i in 0..5 {
        if counts[i] == 0 { continue; }
        let here = out.len() as u64;
        put_le(&mut out, ADDRESS_AT[i], 8, SYSTEM + here);
        out.extend(&whole[at[i]..at[i] + counts[i] * WIDTHS[i] as usize]);
    }
    out
}

/// A small file that has entries in a list.
fn full(r: &mut Rng, list: usize) -> File {
    loop {
        let arrays = files::arrays(r, Shape([2, 3, 2, 6, 2]));
        let f = files::lay(r, arrays);
        if read::read(&f.system, &f.graphics).is_ok_and(|c| c.counts()[list] > 0) { return f; }
    }
}

/// One entry too few in a list.
fn less(f: &File, list: usize) -> [usize; 5] {
    let mut lent = read::read(&f.system, &f.graphics).expect("a valid file").counts();
    lent[list] -= 1;
    lent
}

fn length(f: &File) -> usize {
    write::written(&read::read(&f.system, &f.graphics).expect("a valid file")).expect("a cell that is written").len()
}

/// A few of each refusal of reading: 1; 3, 4 and 5 with each place that comes up.
fn refusals(to: &mut Records, r: &mut Rng) {
    let mut seen: Vec<Refused> = Vec::new();
    for _ in 0..60_000 {
        let f = generate(r);
        let Err(e) = read::read(&f.system, &f.graphics) else { continue };
        let wanted = e.0 != 2 && e.0 != 6 && e.1 < 5
            && seen.iter().filter(|s| **s == e).count() < if e.0 == 3 { 2 } else {
            1
        };
        if wanted && f.system.len() + f.graphics.len() < 240 { seen.push(e); file(to, &f, ALL); }
    }
}

fn fits(f: &File) -> bool {
    let Ok(cell) = read::read(&f.system, &f.graphics) else { return false };
    let Ok(bytes) = write::written(&cell) else { return false };
    let counts = cell.counts();
    (0..5).all(|i| counts[i] <= MOST[i]) && bytes.len() <= MOST_SECTION
        && f.system.len() + f.graphics.len() + 2 * bytes.len() - 2 * 1_040 < MOST_RECORD
}

/// Number and place of a refusal, 0 and 0 if there was none.
pub fn told<T>(a: &Answer<T>) -> [super::Field<'static>; 2] {
    let e = a.as_ref().err().copied().unwrap_or(Refused(0, 0));
    [U8(e.0 as u8), U16(e.1 as u16)]
}

/// What the Rust writes, but for the unused fields (T-10), without the page block, which is always the same.
fn written(cell: &Cell) -> Vec<u8> {
    let bytes = write::written(cell).expect("a cell that is written");
    assert_eq!(Ok(rust::masked_bytes(&bytes)), rust::write(&rust::ynd_of(cell)));
    [&bytes[..ROOT], &bytes[ROOT + 1_040..]].concat()
}

/// The Rust's cell of a file that is read. T-02: no system bytes are its new cell.
fn judged(f: &File) -> Ynd {
    if f.system.is_empty() { return Ynd::new(); }
    rust::read(&f.system, &f.graphics).expect("the Rust reads it too")
}

/// The layout stands at the head of the program's files.rt.
fn file(to: &mut Records, f: &File, lent: Lent) {
    let reading = read::read_into(&f.system, &f.graphics, lent.lists);
    if let Err(Refused(1 | 3 | 4 | 5, _)) = reading { assert!(rust::read(&f.system, &f.graphics).is_err()); }
    let mut cell = reading.clone().unwrap_or_default();
    if reading.is_ok() { assert_eq!(rust::masked(&cell), rust::cell_of(&judged(f))); }
    let mut section = vec![0; lent.section];
    let none = || Err(Refused(0, 0));
    let first = if reading.is_ok() { write::write(&cell, &mut section) } else { none() };
    let a = if first.is_ok() { written(&cell) } else { Vec::new() };
    let renumbering = if reading.is_ok(
        ) { renumber::renumber(&mut cell, 65_535 + lent.scratch as usize, lent.places) } else {
        none().map(|_: usize| Vec::new())
    };
    let again = if reading.is_ok() { write::write(&cell, &mut section) } else { none() };
    let b = if again.is_ok() { written(&cell) } else { Vec::new() };
    let mut fields = vec![U16(f.system.len() as u16), U16(f.graphics.len() as u16)];
    fields.extend(lent.lists.map(|n| U16(n as u16)));
    fields.extend([U16(lent.section as u16), U16(lent.places as u16), U8(lent.scratch as u8)]);
    fields.extend(told(&reading));
    fields.extend(told(&first));
    fields.extend(told(&renumbering));
    fields.extend(told(&again));
    fields.extend([U16(a.len() as u16), U16(b.len() as u16), Bytes(&f.system), Bytes(&f.graphics), Bytes(&a),
        Bytes(&b)]);
    to.add(FILE, &fields);
}
