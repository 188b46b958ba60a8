//! Kinds 16 and 17: the nodes within reach of a point, and the nearest. The Rust has neither: the answers are T-01's
//! and T-08's.
use super::cells::told;
use super::Field::{self, I16, U16, U32, U8};
use super::Records;
use crate::inputs::reach::{tap, Tap};
use crate::inputs::rng::Rng;
use crate::model::cell::{Cell, Node};
use crate::model::reach::{nearest, refused, within};
use crate::model::room;
use crate::port::memory::Memory;

const WITHIN: u8 = 16;
const NEAREST: u8 = 17;

/// Nodes of a random record, so that the file stays small; the program has room for 64.
const FEW: usize = 3;

/// How far six nodes lie from the point along both axes: nearer and nearer, and neither so nor the other way.
const ORDERS: [[i32; 6]; 2] = [[9_000, 8, 7, 6, 5, 4], [20_000, 5, -5, 70, 2, 5]];

pub fn add(to: &mut Records) {
    let r = &mut Rng::new(5);
    // Places 0, 3 and 4 on the circle of radius 5, place 1 a step beyond; places 2 and 5 nearest.
    let six = at(r, &[[3, 4], [3, 5], [0, 3], [-5, 0], [4, -3], [-3, 0]]);
    for radius in [2, 3, 5] { both(to, &Tap { radius, ..six.clone() }); }
    for shape in ORDERS { both(to, &Tap { radius: 65_535, ..at(r, &shape.map(|k| [k, -k])) }); }
    // 65,535 steps on both axes.
    let corner = at(r, &[[32_767, 32_767], [-32_768, 32_767]]);
    for radius in [65_535, 0] { both(to, &Tap { point: [-32_768, -32_768], radius, ..corner.clone() }); }
    // NaN, infinite, -0.3; an empty cell.
    let mut raw = at(r, &[[0, 0], [0, 0], [0, 0]]);
    let odd = [0x7fc0_0000, 0xff80_0000, (-0.3f32).to_bits()];
    for (w, bits) in raw.memory.nodes.iter_mut().zip(odd) { w[2] = bits; }
    for radius in [0, 1] { both(to, &Tap { radius, ..raw.clone() }); }
    both(to, &at(r, &[]));
    // A struct made by hand: 14 before 7, 7 before all else.
    for (list, count) in [(10, 7), (10, 65_537), (12, 4_097), (12, 4_096)] {
        let mut tap = six.clone();
        tap.memory.ynd[list] = count;
        both(to, &tap);
    }
    for _ in 0..12 {
        let tap = tap(r);
        if tap.memory.nodes.len() <= FEW { both(to, &tap); }
    }
}

fn at(r: &mut Rng, steps: &[[i32; 2]]) -> Tap {
    let bits = |k: i32| (k as f32 / 4.0).to_bits();
    let node = |s: &[i32; 2]| Node { position: [bits(s[0]), bits(s[1]), 0], ..Node::default() };
    let cell = Cell { nodes: steps.iter().map(node).collect(), ..Cell::default() };
    Tap { memory: Memory::of(r, &cell, cell.counts()), point: [0, 0], radius: 5 }
}

/// Both calls; the list just long enough, and one too short.
fn both(to: &mut Records, t: &Tap) {
    let cell = t.memory.cell();
    let near = within(&cell, t.point, t.radius).len();
    for lent in [near].into_iter().chain(near.checked_sub(1)) { listed(to, t, &cell, lent); }
    closest(to, t, &cell);
}

fn nodes(t: &Tap) -> impl Iterator<Item = Field<'static>> + '_ {
    t.memory.nodes.iter().flat_map(|w| [U32(w[2]), U32(w[3])])
}

/// The layouts stand in the program's near.rt.
fn listed(to: &mut Records, t: &Tap, cell: &Cell, lent: usize) {
    let bad = refused(t.memory.counts(), t.memory.lent());
    let near = within(cell, t.point, t.radius);
    let answer = bad.and_then(|_| room(8, &[near.len()], &[lent])).map(|_| near);
    let mut fields = vec![I16(t.point[0]), I16(t.point[1]), U16(t.radius), U16(t.memory.nodes.len() as u16)];
    fields.extend([U32(t.memory.ynd[10]), U32(t.memory.ynd[12]), U16(lent as u16)]);
    fields.extend(told(&answer));
    let places = answer.unwrap_or_default();
    fields.push(U16(places.len() as u16));
    fields.extend(nodes(t));
    fields.extend(places.iter().map(|&p| U16(p as u16)));
    to.add(WITHIN, &fields);
}

fn closest(to: &mut Records, t: &Tap, cell: &Cell) {
    let answer = refused(t.memory.counts(), t.memory.lent()).map(|_| nearest(cell, t.point));
    let mut fields = vec![I16(t.point[0]), I16(t.point[1]), U16(t.memory.nodes.len() as u16)];
    fields.extend([U32(t.memory.ynd[10]), U32(t.memory.ynd[12])]);
    fields.extend(told(&answer));
    let found = answer.unwrap_or(None);
    let (place, square) = found.unwrap_or((0, 0));
    fields.extend([U8(found.is_some() as u8), U16(place as u16), U32(square as u32), U32((square >> 32) as u32)]);
    fields.extend(nodes(t));
    to.add(NEAREST, &fields);
}
