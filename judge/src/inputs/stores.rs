//! Random stores of words, lists and heightmaps, among calls that add to them, move them and write them.
use super::files::{self, File};
use super::memories;
use super::rng::Rng;
use crate::model::cell::{Cell, Junction, Link};
use crate::model::read;
use crate::port::memory::Memory;

#[derive(Clone, Debug, PartialEq, Eq)]
pub enum Store {
    Vft(u32),
    /// Nodes that are no ped nodes, or ped nodes.
    KindCount { peds: bool, count: u32 },
    Unknowns([u32; 7]),
    /// List 0, 2 or 4: nodes, junctions or refs.
    Truncate { list: usize, count: usize },
    Links { place: usize, links: Vec<Link> },
    Heightmap { place: usize, size: [u8; 2], values: Vec<u8> },
    AddNode(u16),
    AddLink { place: usize, link: Link },
    AddJunction(Junction),
    Renumber,
    WriteRead,
}

#[derive(Clone, Debug, PartialEq, Eq)]
pub struct Stores {
    pub file: File,
    /// Entries of the five lists.
    pub lent: [usize; 5],
    pub stores: Vec<Store>,
}

/// A file, memory with room to spare, and some stores into what was read.
pub fn stores(r: &mut Rng) -> Stores {
    let file = files::valid(r);
    let cell = read::read(&file.system, &file.graphics).unwrap_or_default();
    let slack = r.pick(&[2, 20, 400, 2_000]);
    let lent = cell.counts().map(|n| n + r.below(slack));
    let many = r.within(1, 40);
    Stores { file, lent, stores: (0..many).map(|_| store(r, &cell)).collect() }
}

pub fn store(r: &mut Rng, cell: &Cell) -> Store {
    let place = r.below(cell.nodes.len() + 2);
    match r.below(16) {
        0..=4 => { let n = count(r); Store::Links { place, links: (0..n).map(|_| link(r, cell)).collect() } }
        5..=7 => heightmap(r, cell),
        8 => Store::Truncate { list: r.pick(&[0, 2, 4]), count: r.below(cell.nodes.len() + 2) },
        9 => Store::Truncate { list: r.pick(&[2, 4]), count: r.below(4) },
        10 => own(r),
        11 => Store::AddNode(r.u16()),
        12 => Store::AddLink { place, link: link(r, cell) },
        13 => Store::AddJunction(Junction { width: 2, height: 2, values: r.bytes(4), ..Junction::default() }),
        14 => Store::Renumber,
        _ => Store::WriteRead,
    }
}

fn own(r: &mut Rng) -> Store {
    match r.below(3) {
        0 => Store::Vft(r.u32()),
        1 => Store::KindCount { peds: r.once_in(2), count: r.u32() },
        _ => Store::Unknowns([0; 7].map(|_| r.u32())),
    }
}

/// None, few, about as many as a node has, and now and then at the limit.
fn count(r: &mut Rng) -> usize {
    let few = r.below(6);
    r.pick(&[0, few, few, few, few, 31, 255, 256])
}

fn link(r: &mut Rng, cell: &Cell) -> Link {
    let area_id = if r.once_in(4) { r.u16() } else { cell.area() };
    let node_id = r.below(cell.nodes.len() + 3) as u16;
    Link { area_id, node_id, flags: [r.u8(), r.u8(), r.u8()], length: r.u8() }
}

/// Now and then its values are one too few or too many.
fn heightmap(r: &mut Rng, cell: &Cell) -> Store {
    let size = if r.once_in(20) { [r.u8(), r.u8()] } else { [r.below(6) as u8, r.below(6) as u8] };
    let right = size[0] as usize * size[1] as usize;
    let many = r.pick(&[right, right, right, right, right + 1, right.saturating_sub(1)]);
    Store::Heightmap { place: r.below(cell.junctions.len() + 2), size, values: r.bytes(many) }
}

/// A store into any memory: ranges that overlap or leave their lists, lists shorter than their counts.
pub fn any(r: &mut Rng) -> (Memory, Store) {
    let (mut m, _) = memories::any(r);
    if r.once_in(8) { m.ynd[r.pick(&[10, 11, 12, 13])] = r.pick(&[4_096, 4_097, 65_536, 65_537, u32::MAX - 1, u32::MAX]); }
    let cell = Cell::default();
    let places = m.lent().into_iter().chain(m.counts()).max().unwrap_or(0).min(70_000);
    let s = match store(r, &cell) {
        Store::Links { links, .. } => Store::Links { place: r.below(places + 2), links },
        Store::Heightmap { size, values, .. } => Store::Heightmap { place: r.below(places + 2), size, values },
        Store::Truncate { list, .. } => Store::Truncate { list, count: r.below(places + 2) },
        s => s,
    };
    (m, s)
}

/// Smaller ones: without one store, and from a smaller file.
pub fn smaller(s: &Stores) -> Vec<Stores> {
    let without = (0..s.stores.len()).map(|i| {
        let mut t = s.clone();
        t.stores.remove(i);
        t
    });
    let files = super::shrink::smaller_file(&s.file).into_iter().take(60);
    without.chain(files.map(|file| Stores { file, ..s.clone() })).collect()
}
