//! Random scripts: edits, renumberings, writes and walks on one cell in memory of fixed size.
use super::files::{self, File};
use super::floats;
use super::rng::Rng;
use crate::model::cell::{Cell, Junction, Link, Node, Ref};
use crate::model::read;

/// Section memory enough for every small cell.
const SECTION: usize = 60_000;

#[derive(Clone, Debug, PartialEq, Eq)]
pub enum Op {
    AddNode { area_id: u16, position: [u32; 3] },
    SetPosition { place: usize, position: [u32; 3] },
    AddLink { place: usize, link: Link },
    AddRef(Ref),
    AddJunction(Junction),
    /// Each public field's store, raw coordinates included; the links stay.
    PutNode { place: usize, node: Node },
    PutLink { place: usize, index: usize, link: Link },
    PutRef { place: usize, r: Ref },
    /// All but the heightmap's values, which stay and must be width times height.
    PutJunction { place: usize, junction: Junction },
    PutValue { place: usize, index: usize, value: u8 },
    Renumber { scratch: usize, places: usize },
    Write { section: usize },
    WriteRead { section: usize },
    Walk { start: usize, choices: Vec<u8>, visited: usize },
}

#[derive(Clone, Debug, PartialEq, Eq)]
pub struct Script {
    pub file: File,
    /// Entries of the five lists.
    pub lent: [usize; 5],
    pub ops: Vec<Op>,
}

/// A file, memory with a little room to spare, and some calls on what was read.
pub fn script(r: &mut Rng) -> Script {
    let file = files::valid(r);
    let cell = read::read(&file.system, &file.graphics).unwrap_or_default();
    let slack = r.pick(&[2, 20, 400]);
    let lent = cell.counts().map(|n| n + r.below(slack));
    let sizes = cell.counts();
    let many = r.within(1, 40);
    let ops = (0..many).map(|_| op(r, &cell, sizes)).collect();
    Script { file, lent, ops }
}

pub fn op(r: &mut Rng, cell: &Cell, sizes: [usize; 5]) -> Op {
    let place = r.below(sizes[0] + 2);
    match r.below(22) {
        0..=2 => Op::AddNode { area_id: area(r, cell), position: floats::position(r) },
        3 => Op::SetPosition { place, position: floats::position(r) },
        4..=7 => Op::AddLink { place, link: link(r, cell) },
        8 | 9 => Op::AddRef(junction_ref(r, cell)),
        10 | 11 => Op::AddJunction(junction(r)),
        12 => Op::PutNode { place, node: node(r, cell) },
        13 => Op::PutLink { place, index: r.below(4), link: link(r, cell) },
        14 => Op::PutRef { place: r.below(sizes[4] + 2), r: junction_ref(r, cell) },
        15 => Op::PutJunction { place: r.below(sizes[2] + 2), junction: turned(r, cell) },
        16 => Op::PutValue { place: r.below(sizes[2] + 2), index: r.below(10), value: r.u8() },
        17 | 18 => Op::Renumber {
            scratch: r.pick(&[65_536, 65_536, 65_536, 65_537, 65_535, 0]), places: r.below(2 * sizes[0] + 9)
        },
        19 => Op::Write { section: section(r) },
        20 => Op::WriteRead { section: section(r) },
        _ => {
            let n = r.below(12);
            Op::Walk {
                start: place, choices: (0..n).map(|_| r.pick(&[0, 0, 1, 2, 3, 255])).collect(), visited: r.below(14)
            }
        }
    }
}

fn section(r: &mut Rng) -> usize { r.pick(&[SECTION, SECTION, SECTION, 0, 1151, 1152, 1192, 1400]) }

fn area(r: &mut Rng, cell: &Cell) -> u16 {
    let any = r.u16();
    if r.once_in(4) { r.pick(&[any, any, cell.area() ^ 1024]) } else { cell.area() }
}

fn number(r: &mut Rng, cell: &Cell) -> u16 {
    if r.once_in(5) { r.u16() } else { r.below(cell.nodes.len() + 3) as u16 }
}

pub fn link(r: &mut Rng, cell: &Cell) -> Link {
    Link { area_id: area(r, cell), node_id: number(r, cell), flags: [r.u8(), r.u8(), r.u8()], length: r.u8() }
}

fn junction_ref(r: &mut Rng, cell: &Cell) -> Ref {
    let junction_id = r.below(cell.junctions.len() + 3) as u16;
    Ref { area_id: area(r, cell), node_id: number(r, cell), junction_id, unk0: r.u16() }
}

fn node(r: &mut Rng, cell: &Cell) -> Node {
    let mut flags = [0; 6];
    for f in &mut flags { *f = r.u8(); }
    if r.once_in(2) { flags[1] = r.pick(&[80, 112, 144]) + r.u8() % 8; }
    let (area_id, node_id) = (area(r, cell), number(r, cell));
    let unused = [r.u32(), r.u32(), r.u32(), r.u32(), r.u16() as u32];
    Node { area_id, node_id, street_name: r.u32(), position: floats::position(r), flags, unused, links: Vec::new() }
}

/// A junction for one that is there: mostly of its size, width and height exchanged or not.
fn turned(r: &mut Rng, cell: &Cell) -> Junction {
    let j = junction(r);
    if cell.junctions.is_empty() || r.once_in(4) { return j; }
    let old = &cell.junctions[r.below(cell.junctions.len())];
    let (width, height) = if r.once_in(2) { (old.height, old.width) } else { (old.width, old.height) };
    Junction { width, height, ..j }
}

/// Now and then its values are one too few or too many.
pub fn junction(r: &mut Rng) -> Junction {
    let (width, height) = (r.below(5) as u8, r.below(5) as u8);
    let right = width as usize * height as usize;
    let count = r.pick(&[right, right, right, right, right + 1, right.saturating_sub(1)]);
    let [x, y, min_z] = floats::position(r);
    Junction { position: [x, y], min_z, max_z: floats::bits(r), width, height, values: r.bytes(count) }
}

/// Smaller scripts: without one call, and from a smaller file.
pub fn smaller(s: &Script) -> Vec<Script> {
    let mut out = Vec::new();
    let n = s.ops.len();
    for part in [n / 2, n / 4, 1] {
        if part == 0 { continue; }
        for at in (0..n).step_by(part) {
            let mut t = s.clone();
            t.ops.drain(at..(at + part).min(n));
            out.push(t);
        }
    }
    out.extend(super::shrink::smaller_file(&s.file).into_iter().take(60).map(|file| Script { file, ..s.clone() }));
    out
}
