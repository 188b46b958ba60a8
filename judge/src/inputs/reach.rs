//! Cells and points for T-01 and T-08, around their edges.
use super::floats;
use super::rng::Rng;
use crate::model::cell::{Cell, Node};
use crate::port::lent::Lent;
use crate::port::memory::Memory;

#[derive(Clone, Debug)]
pub struct Tap {
    pub memory: Memory,
    pub point: [i16; 2],
    pub radius: u16,
}

/// Whole numbers a, b, c with a² + b² = c².
const TRIPLES: [[i32; 3]; 5] = [[3, 4, 5], [5, 12, 13], [8, 15, 17], [20, 21, 29], [0, 7, 7]];

pub fn tap(r: &mut Rng) -> Tap {
    match r.below(9) {
        0 => corners(r),
        1 | 2 => circle(r),
        3 => raw(r),
        4 => by_hand(r),
        5 => crowd(r),
        _ => {
            let places = (0..r.pick(&[0, 1, 2, 5, 40])).map(|_| anywhere(r)).collect();
            seen_from(r, places, None)
        }
    }
}

fn anywhere(r: &mut Rng) -> [i32; 2] {
    let wide = r.pick(&[3, 40, 65_536]);
    [0, 1].map(|_| r.below(wide) as i32 - wide as i32 / 2)
}

/// Steps as they are read: exactly.
fn node(r: &mut Rng, at: [i32; 2]) -> Node {
    let metres = |k: i32| (k.clamp(-32_768, 32_767) as f32 / 4.0).to_bits();
    Node { area_id: 489, position: [metres(at[0]), metres(at[1]), r.u32() & 0x7f00_0000], ..Node::default() }
}

fn radius(r: &mut Rng) -> u16 {
    match r.below(6) { 0 => 0, 1 => 1, 2 => 65_535, 3 => r.u16(), _ => r.below(60) as u16 }
}

/// A cell of nodes at these steps, seen from one of them, from beside one or from anywhere.
fn seen_from(r: &mut Rng, places: Vec<[i32; 2]>, at: Option<([i32; 2], i32)>) -> Tap {
    let beside = places.first().map(|&[x, y]| [x + r.below(3) as i32 - 1, y]).unwrap_or([0, 0]);
    let point = at.map(|a| a.0).unwrap_or(if r.once_in(2) { beside } else { anywhere(r) });
    let nodes: Vec<Node> = places.into_iter().map(|p| node(r, p)).collect();
    let cell = Cell { nodes, ..Cell::default() };
    let mut lent = cell.counts();
    lent[0] += r.below(3);
    let reach = at.map(|a| a.1 as u16).unwrap_or_else(|| radius(r));
    Tap { memory: Memory::of(r, &cell, lent), point: point.map(|k| k.clamp(-32_768, 32_767) as i16), radius: reach }
}

/// From one corner of the range to the others: 65,535 steps along one axis or both.
fn corners(r: &mut Rng) -> Tap {
    let corner = |r: &mut Rng| [0, 1].map(|_| r.pick(&[-32_768, 32_767]));
    let places = (0..r.within(1, 6)).map(|_| corner(r)).collect();
    let from = corner(r);
    let reach = r.pick(&[65_535, 65_534, 0, 46_340, 46_341]);
    seen_from(r, places, Some((from, reach)))
}

/// Nodes on a circle about the point, by every turn and reflection, and one step beyond it.
fn circle(r: &mut Rng) -> Tap {
    let ([a, b, c], k) = (r.pick(&TRIPLES), r.within(1, 400) as i32);
    let [a, b, c] = [a * k, b * k, c * k];
    let from = [0, 1].map(|_| r.below(40_000) as i32 - 20_000);
    let turns = [[a, b], [-a, b], [a, -b], [-a, -b], [b, a], [-b, a], [b, -a], [-b, -a]];
    let places = (0..r.within(2, 9)).map(|_| {
        let [x, y] = r.pick(&turns);
        let beyond = if r.once_in(3) { y.signum() + (y == 0) as i32 } else { 0 };
        [from[0] + x, from[1] + y + beyond]
    }).collect();
    seen_from(r, places, Some((from, c)))
}

/// Many nodes at few distances from the point or at many: in any order, in T-08's or in the reverse of it. Once in a
/// while as many as a cell may have.
fn crowd(r: &mut Rng) -> Tap {
    let n = if r.once_in(500) { 65_536 } else { r.within(20, 60) };
    let few = r.pick(&[1, 2, 5, 40, 30_000]);
    let mut far: Vec<i32> = (0..n).map(|_| r.below(few) as i32).collect();
    match r.below(3) {
        0 => far.sort(),
        1 => far.sort_by(|a, b| b.cmp(a)),
        _ => (),
    }
    let places = far.into_iter().map(|k| r.pick(&[[k, 0], [-k, 0], [0, k], [0, -k]])).collect();
    let reach = r.pick(&[65_535, 30_000, few as i32 / 2]);
    seen_from(r, places, Some(([0, 0], reach)))
}

/// Coordinates as they are, stored by `put_node`: NaN, infinite ones, -0.3, any.
fn raw(r: &mut Rng) -> Tap {
    let n = r.within(1, 6);
    let places = vec![[0, 0]; n];
    let mut tap = seen_from(r, places, None);
    for i in 0..n {
        let bits = |r: &mut Rng| match r.below(3) {
            0 => r.pick(&[0x7fc0_0000, 0x7f80_0000, 0xff80_0000, (-0.3f32).to_bits(), 0x3e99_999a]),
            _ => floats::bits(r),
        };
        let position = [bits(r), bits(r), bits(r)];
        let node = Node { area_id: 489, position, ..Node::default() };
        tap.memory.put_node(i, &node, [r.u32(), r.below(256) as u32]).expect("a place of the cell");
    }
    tap
}

/// A struct that no call returned: a count over its list or over a limit, or at one.
fn by_hand(r: &mut Rng) -> Tap {
    let places = (0..r.below(4)).map(|_| anywhere(r)).collect();
    let mut tap = seen_from(r, places, None);
    let m = &mut tap.memory;
    if r.once_in(2) { m.ynd[12] = r.pick(&[4_096, 4_097, u32::MAX]); }
    if r.once_in(2) { m.ynd[10] = r.pick(&[m.nodes.len() as u32 + 1, 65_536, 65_537, u32::MAX]); }
    if r.once_in(100) {
        m.nodes = Lent::of(&vec![m.nodes.first().copied().unwrap_or([0; 13]); 65_537]);
        m.ynd[10] = r.pick(&[65_536, 65_537]);
    }
    tap
}

/// The same with a node less.
pub fn smaller(tap: &Tap) -> Vec<Tap> {
    let held = tap.memory.held()[0];
    let without = |i: usize| {
        let mut t = tap.clone();
        t.memory.nodes = t.memory.nodes.iter().enumerate().filter(|(k, _)| *k != i).map(|(_, n)| *n).collect();
        t.memory.ynd[10] -= 1;
        t
    };
    if held > 60 { Vec::new() } else { (0..held).map(without).collect() }
}
