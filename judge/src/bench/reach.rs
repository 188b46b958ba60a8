//! ns a node: the nodes within a radius, and the nearest, beside plain loops over the Rust's own nodes.
use super::{both, timed, Goal, Row, Wanted, SIZES};
use crate::inputs::rng::Rng;
use crate::model::cell::{Cell, Node};
use crate::port::memory::Memory;
use crate::rust;
use crate::ynd::PathNode;

pub const NOTE: &str = "\
within, nearest: nodes anywhere in a cell of 512 m, seen from its middle; the Rust is a plain loop over its own nodes
with the same conversions (`(x * 4.0) as i16`), and for within `sort_unstable_by_key` of what it listed, by squared
distance and place. Counted first: the list is shorter than the nodes, so both count before they fill. All listed, by
shape: nodes anywhere in the range of steps; each further than the one before, or nearer; two by two nearer; all at one
distance.";

const MIDDLE: [i16; 2] = [1_030, 1_015];

/// So far from the corner that 32,768 steps along both axes lie in the range.
const ASIDE: [i16; 2] = [-10_000, -10_000];

fn square(n: &PathNode, [x, y]: [i16; 2]) -> u64 {
    let along = |at: f32, from: i16| ((at * 4.0) as i16 as i64 - from as i64).pow(2) as u64;
    along(n.position.x, x) + along(n.position.y, y)
}

#[inline(never)]
fn within(nodes: &[PathNode], point: [i16; 2], radius: u16, places: &mut [u32]) -> usize {
    let (most, mut count) = ((radius as u64).pow(2), 0);
    for (p, n) in nodes.iter().enumerate() {
        if square(n, point) <= most { places[count] = p as u32; count += 1; }
    }
    places[..count].sort_unstable_by_key(|&p| (square(&nodes[p as usize], point), p));
    count
}

#[inline(never)]
fn counted_within(nodes: &[PathNode], point: [i16; 2], radius: u16, places: &mut [u32]) -> Option<usize> {
    let most = (radius as u64).pow(2);
    let count = nodes.iter().filter(|n| square(n, point) <= most).count();
    (count <= places.len()).then(|| within(nodes, point, radius, places))
}

#[inline(never)]
fn nearest(nodes: &[PathNode], point: [i16; 2]) -> Option<(usize, u64)> {
    let mut best: Option<(usize, u64)> = None;
    for (p, n) in nodes.iter().enumerate() {
        let d = square(n, point);
        if best.is_none_or(|(_, least)| d < least) { best = Some((p, d)); }
    }
    best
}

/// Nodes anywhere in a cell of 512 m.
fn cell(size: usize) -> Cell {
    let mut r = Rng::new(size as u64);
    let mut at = || (r.below(2_048) as f32 / 4.0).to_bits();
    let nodes = (0..size).map(|_| Node { position: [at(), at(), 0], ..Node::default() }).collect();
    Cell { nodes, ..Cell::default() }
}

/// How the nodes of a cell lie about the point, and so how far the list as found is from its order. Steps from it.
const SHAPES: [(&str, fn(usize, usize, &mut Rng) -> [usize; 2]); 5] = [
    ("all listed, anywhere", |_, _, r| [r.below(42_000), r.below(42_000)]),
    ("all listed, outwards", |i, _, _| [i / 2, i.div_ceil(2)]),
    ("all listed, inwards", |i, n, _| [(n - 1 - i) / 2, (n - 1 - i).div_ceil(2)]),
    ("all listed, inwards two by two", |i, n, _| [(n - 1 - i) / 2, 0]),
    ("all listed, at one distance", |_, _, _| [3, 4]),
];

fn shaped(size: usize, shape: fn(usize, usize, &mut Rng) -> [usize; 2]) -> Cell {
    let mut r = Rng::new(size as u64);
    let bits = |k: usize, from: i16| ((k as i32 + from as i32) as f32 / 4.0).to_bits();
    let node = |[x, y]: [usize; 2]| Node { position: [bits(x, ASIDE[0]), bits(y, ASIDE[1]), 0], ..Node::default() };
    Cell { nodes: (0..size).map(|i| node(shape(i, size, &mut r))).collect(), ..Cell::default() }
}

fn listed(cell: &Cell, call: &'static str, point: [i16; 2], radius: u16, few: bool) -> Row {
    let size = cell.nodes.len();
    let (ynd, memory) = (rust::ynd_of(cell), Memory::of(&mut Rng::new(1), cell, cell.counts()));
    let (mut a, mut b) = (vec![0; size], vec![0; size]);
    let n = within(&ynd.nodes, point, radius, &mut a);
    assert_eq!(memory.within_into(point, radius, &mut b).0, Ok(n), "as many places");
    assert_eq!(a[..n], b[..n], "the same places in the same order");
    let room = if few { n } else { size };
    let rust = || match few {
        true => timed(|| counted_within(&ynd.nodes, point, radius, &mut a[..room])),
        false => timed(|| within(&ynd.nodes, point, radius, &mut a)),
    };
    let (rust, port) = both(size, rust, || timed(|| memory.within_into(point, radius, &mut b[..room])));
    Row { call, size, rust: Some(rust), floor: None, port: Some(port), goal: Goal::Ratio(2.0) }
}

pub fn rows(wanted: &Wanted) -> Vec<Row> {
    let mut out = Vec::new();
    for size in SIZES {
        let cell = cell(size);
        let calls = [("within 25 m", 100), ("within 125 m", 500), ("within 125 m, counted first", 500)];
        for (call, radius) in calls {
            let few = call.ends_with("counted first");
            if wanted.has(call) && (!few || size > 100) { out.push(listed(&cell, call, MIDDLE, radius, few)); }
        }
        let call = "nearest";
        if wanted.has(call) {
            let (ynd, memory) = (rust::ynd_of(&cell), Memory::of(&mut Rng::new(1), &cell, cell.counts()));
            assert_eq!(memory.nearest(MIDDLE).0, Ok(nearest(&ynd.nodes, MIDDLE)), "the same node");
            let rust = || timed(|| nearest(&ynd.nodes, MIDDLE));
            let (rust, port) = both(size, rust, || timed(|| memory.nearest(MIDDLE)));
            out.push(Row { call, size, rust: Some(rust), floor: None, port: Some(port), goal: Goal::Ratio(1.0) });
        }
    }
    for (call, shape) in SHAPES {
        for size in [1_000, 65_536] {
            if wanted.has(call) { out.push(listed(&shaped(size, shape), call, ASIDE, 65_535, false)); }
        }
    }
    out.sort_by_key(|r| r.call);
    out
}
