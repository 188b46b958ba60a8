//! Drawings: a sound file or no bytes at all, and calls of every kind that mostly keep the cell sound. Coordinates are
//! raw now and then, flags5 has all its bits, and some calls are refused.
use super::files::{self, File};
use super::floats;
use super::rng::Rng;
use super::scripts::{self, Op};
use super::stores::Store;
use crate::model::cell::{Cell, Junction, Link, Node, Ref};
use crate::model::read;

#[derive(Clone, Debug, PartialEq, Eq)]
pub enum Change { Op(Op), Store(Store) }

#[derive(Clone, Debug, PartialEq, Eq)]
pub struct Drawing {
    pub file: File,
    /// Entries of the five lists.
    pub lent: [usize; 5],
    pub changes: Vec<Change>,
}

/// The cell as the drawing goes on, as far as the next call needs it.
struct Sheet { area: u16, nodes: usize, sizes: Vec<[u8; 2]>, refs: usize }

pub fn drawing(r: &mut Rng) -> Drawing {
    let mut file = files::sound(r);
    if r.once_in(4) { file.system.clear(); file.graphics.clear(); }
    let cell = read::read(&file.system, &file.graphics).unwrap_or_default();
    let slack = r.pick(&[3, 20, 200, 200]);
    let lent = cell.counts().map(|n| n + r.below(slack));
    let mut sheet = Sheet::of(&cell, r);
    // From here on a number is a place.
    let mut changes = vec![renumbering(lent[0])];
    for _ in 0..r.within(1, 30) { changes.push(sheet.change(r, lent)); }
    Drawing { file, lent, changes }
}

fn renumbering(places: usize) -> Change { Change::Op(Op::Renumber { scratch: 65_536, places }) }

impl Sheet {
    fn of(cell: &Cell, r: &mut Rng) -> Sheet {
        let any = r.u16();
        let area = if cell.nodes.is_empty() { r.pick(&[0, 489, 1177, any]) } else { cell.area() };
        let sizes = cell.junctions.iter().map(|j| [j.width, j.height]).collect();
        Sheet { area, nodes: cell.nodes.len(), sizes, refs: cell.refs.len() }
    }

    fn change(&mut self, r: &mut Rng, lent: [usize; 5]) -> Change {
        let past = r.once_in(10) as usize;
        let place = r.below(self.nodes + past);
        Change::Op(match r.below(28) {
            0..=3 => {
                self.nodes = (self.nodes + 1).min(lent[0]);
                Op::AddNode { area_id: self.area, position: floats::position(r) }
            }
            4..=9 => Op::AddLink { place, link: self.link(r) },
            10 => Op::SetPosition { place, position: floats::position(r) },
            11 | 12 => Op::PutNode { place, node: self.node(r, place) },
            13 => Op::PutLink { place, index: r.below(4), link: self.link(r) },
            14 => { self.refs += 1; Op::AddRef(self.junction_ref(r)) }
            15 => Op::PutRef { place: r.below(self.refs + 1), r: self.junction_ref(r) },
            16 | 17 => {
                let j = scripts::junction(r);
                self.sizes.push([j.width, j.height]);
                Op::AddJunction(j)
            }
            18 => Op::PutJunction { place: r.below(self.sizes.len() + 1), junction: self.turned(r) },
            19 => Op::PutValue { place: r.below(self.sizes.len() + 1), index: r.below(10), value: r.u8() },
            20 | 21 => return renumbering(r.pick(&[lent[0], lent[0], 0])),
            22 => Op::WriteRead { section: r.pick(&[60_000, 60_000, 0, 1_151]) },
            _ => return Change::Store(self.store(r, place)),
        })
    }

    fn store(&mut self, r: &mut Rng, place: usize) -> Store {
        match r.below(8) {
            0..=2 => {
                let few = r.below(5);
                let count = r.pick(&[0, few, few, few, 32]);
                Store::Links { place, links: (0..count).map(|_| self.link(r)).collect() }
            }
            3 | 4 => {
                let size = [r.below(6) as u8, r.below(6) as u8];
                let values = r.bytes(size[0] as usize * size[1] as usize);
                Store::Heightmap { place: r.below(self.sizes.len() + 1), size, values }
            }
            5 => Store::Truncate { list: 2, count: r.below(self.sizes.len() + 2) },
            6 if r.once_in(12) => {
                self.nodes = self.nodes.saturating_sub(1);
                Store::Truncate { list: 0, count: self.nodes }
            }
            6 => Store::Truncate { list: 4, count: r.below(self.refs + 2) },
            _ if r.once_in(2) => Store::KindCount { peds: r.once_in(2), count: r.u32() },
            _ => Store::Vft(r.u32()),
        }
    }

    /// Of its own area to a node that is there, of another one to any.
    fn named(&self, r: &mut Rng) -> (u16, u16) {
        if self.nodes == 0 || r.once_in(6) { return (self.area ^ 1, r.u16()); }
        (self.area, r.below(self.nodes) as u16)
    }

    fn link(&self, r: &mut Rng) -> Link {
        let (area_id, node_id) = self.named(r);
        Link { area_id, node_id, flags: [r.u8(), r.u8(), r.u8()], length: r.u8() }
    }

    fn junction_ref(&self, r: &mut Rng) -> Ref {
        let (area_id, node_id) = self.named(r);
        Ref { area_id, node_id, junction_id: r.below(self.sizes.len() + 1) as u16, unk0: r.u16() }
    }

    /// For the node at a place: its number is the place.
    fn node(&self, r: &mut Rng, place: usize) -> Node {
        let flags = [r.u8(), r.pick(&[80, 112, 144, 0]) + r.u8() % 8, r.u8(), r.u8(), r.u8(), r.u8()];
        let unused = [r.u32(), r.u32(), r.u32(), r.u32(), r.u16() as u32];
        let (area_id, node_id) = (self.area, place as u16);
        Node { area_id, node_id, street_name: r.u32(), position: floats::position(r), flags, unused, links: Vec::new() }
    }

    fn turned(&self, r: &mut Rng) -> Junction {
        let j = scripts::junction(r);
        if self.sizes.is_empty() || r.once_in(4) { return j; }
        let [width, height] = r.pick(&self.sizes);
        Junction { width, height, ..j }
    }
}

/// Smaller drawings: without one call, and from a smaller file.
pub fn smaller(d: &Drawing) -> Vec<Drawing> {
    let without = (0..d.changes.len()).map(|i| {
        let mut t = d.clone();
        t.changes.remove(i);
        t
    });
    let files = super::shrink::smaller_file(&d.file).into_iter().take(60);
    without.chain(files.map(|file| Drawing { file, ..d.clone() })).collect()
}
