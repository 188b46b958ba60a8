//! Cells and pairs of places for T-06, around its edges.
use super::floats;
use super::rng::Rng;
use crate::model::cell::{Cell, Link, Node, Ref};
use crate::port::memory::Memory;

#[derive(Clone, Debug)]
pub struct Trip {
    pub memory: Memory,
    pub from: usize,
    pub to: usize,
    pub aux: u64,
}

const AREA: u16 = 489;

/// A length: none, short, equal ones often, any.
fn length(r: &mut Rng, kind: usize) -> u8 {
    match kind { 0 => 0, 1 => 7, 2 => r.below(3) as u8, 3 => r.pick(&[0, 1, 254, 255]), _ => r.u8() }
}

/// A link to a node of the cell, to another area or to a number that no node has.
fn link(r: &mut Rng, numbers: &[u16], wild: bool, kind: usize) -> Link {
    let stray = wild && r.once_in(4);
    let area_id = if stray && r.once_in(2) { r.pick(&[488, 490, 0, 489 + 1024]) } else { AREA };
    let node_id = if stray && r.once_in(2) { r.u16() } else { r.pick(numbers) };
    Link { area_id, node_id, flags: [r.u8(), r.u8(), r.u8()], length: length(r, kind) }
}

/// Numbers: places, other ones, with repeats.
fn numbers(r: &mut Rng, n: usize) -> Vec<u16> {
    let turn = r.below(3);
    let mut all: Vec<u16> = (0..n).map(|p| if turn == 0 { p as u16 } else { (p * 7 + 3) as u16 }).collect();
    if turn == 2 && n > 1 { let from = r.below(n); let to = r.below(n); all[to] = all[from]; }
    for i in (1..n).rev() { if turn > 0 { all.swap(i, r.below(i + 1)); } }
    all
}

pub fn trip(r: &mut Rng) -> Trip {
    let n = match r.below(8) { 0 => 1, 1 => 2, 2..=4 => r.within(2, 6), 5 => 40, _ => r.within(3, 14) };
    let (ids, wild, kind, most) = (numbers(r, n), r.once_in(2), r.below(6), r.within(1, 4));
    let node = |r: &mut Rng, id: u16| Node {
        area_id: if wild && r.once_in(20) { 490 } else { AREA },
        node_id: id,
        position: [0, 1, 2].map(|_| floats::bits(r)),
        flags: [r.u8(), r.pick(&[0, 80, 112, 144]), r.u8(), r.u8(), r.u8(), r.u8()],
        links: (0..r.below(most + 1)).map(|_| link(r, &ids, wild, kind)).collect(),
        ..Node::default()
    };
    let nodes: Vec<Node> = ids.iter().map(|&id| node(r, id)).collect();
    let refs = if r.once_in(3) { vec![Ref { area_id: AREA, node_id: ids[0], junction_id: 0, unk0: 1 }] } else { vec![] };
    let cell = Cell { nodes, refs, ..Cell::default() };
    let mut lent = cell.counts();
    for k in 0..2 { lent[k] += r.below(3); }
    let mut memory = Memory::of(r, &cell, lent);
    if r.once_in(20) { by_hand(r, &mut memory); }
    Trip { memory, from: r.below(n + n / 8), to: r.below(n + n / 8), aux: r.next() }
}

/// A count over its list, over a limit or under it.
fn by_hand(r: &mut Rng, m: &mut Memory) {
    match r.below(4) {
        0 => m.ynd[10] = r.pick(&[m.nodes.len() as u32 + 1, 65_537, u32::MAX]),
        1 => m.ynd[11] = r.pick(&[m.links.len() as u32 + 1, u32::MAX]),
        2 => m.ynd[12] = r.pick(&[4_097, u32::MAX]),
        _ => m.ynd[11] /= 2,
    }
}

/// The same with a link less.
pub fn smaller(trip: &Trip) -> Vec<Trip> {
    let cell = trip.memory.cell();
    let fewer = |p: usize, k: usize| {
        let mut c = cell.clone();
        c.nodes[p].links.remove(k);
        let r = &mut Rng::new(1);
        Trip { memory: Memory::of(r, &c, c.counts()), ..trip.clone() }
    };
    if trip.memory.counts() != cell.counts() { return Vec::new(); }
    (0..cell.nodes.len()).flat_map(|p| (0..cell.nodes[p].links.len()).map(move |k| (p, k))).map(|(p, k)| fewer(p, k))
        .collect()
}
