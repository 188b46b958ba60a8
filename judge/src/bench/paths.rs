//! ns a node: all shortest paths from one place, beside Dijkstra's algorithm with a BinaryHeap over the Rust's own nodes.
//! Neither side stops at the goal.
use super::{both, timed, Goal, Row, Wanted, SIZES};
use crate::inputs::rng::Rng;
use crate::model::cell::{Cell, Link, Node};
use crate::port::memory::Memory;
use crate::port::paths::Lists;
use crate::rust;
use crate::ynd::Ynd;
use std::cmp::Reverse;
use std::collections::BinaryHeap;

pub const NOTE: &str = "shortest path: four links a node, from the first place to the last, no early stop on either \
side; the Rust is Dijkstra's\nalgorithm with a BinaryHeap over its own nodes, stale entries skipped, numbers looked up \
as `node` does, the path told too.";

/// The sum and the choices from the first node to the last.
#[inline(never)]
fn dijkstra(ynd: &Ynd) -> Option<(u32, Vec<u8>)> {
    let n = ynd.nodes.len();
    let (mut least, mut from) = (vec![u32::MAX; n], vec![(0u32, 0u8); n]);
    let mut heap = BinaryHeap::from([Reverse((0u32, 0u32))]);
    least[0] = 0;
    let own = ynd.nodes[0].area_id;
    let place = |id: u16| match ynd.nodes.get(id as usize) {
        Some(at) if at.node_id == id => Some(id as usize),
        _ => ynd.nodes.iter().position(|at| at.node_id == id),
    };
    while let Some(Reverse((sum, at))) = heap.pop() {
        if sum > least[at as usize] { continue; }
        for (b, l) in ynd.nodes[at as usize].links.iter().enumerate().filter(|(_, l)| l.area_id == own) {
            let Some(to) = place(l.node_id) else { continue };
            let next = sum + l.length as u32;
            if next < least[to] {
                (least[to], from[to]) = (next, (at, b as u8));
                heap.push(Reverse((next, to as u32)));
            }
        }
    }
    let (mut at, mut choices) = (n - 1, Vec::new());
    if least[at] == u32::MAX { return None; }
    while at != 0 { choices.push(from[at].1); at = from[at].0 as usize; }
    choices.reverse();
    Some((least[n - 1], choices))
}

/// Four links a node: to the neighbours in a square grid, or to any nodes; one of them leads on, so that all are joined.
fn cell(size: usize, grid: bool) -> Cell {
    let (r, side) = (&mut Rng::new(size as u64), (size as f64).sqrt() as usize);
    let link = |r: &mut Rng, to: usize| {
        Link { area_id: 489, node_id: (to % size) as u16, flags: [0; 3], length: r.within(1, 60) as u8 }
    };
    let near = |r: &mut Rng, p: usize| [p + 1, p + size - 1, p + side, p + size - side].map(|q| link(r, q));
    let far = |r: &mut Rng, p: usize| { let to = [0, 1, 2].map(|_| r.below(size)); [p + 1, to[0], to[1], to[2]].map(|q| link(r, q)) };
    let nodes = (0..size).map(|p| {
        let links = if grid { near(r, p) } else { far(r, p) };
        Node { area_id: 489, node_id: p as u16, links: links.to_vec(), ..Node::default() }
    }).collect();
    Cell { nodes, ..Cell::default() }
}

pub fn rows(wanted: &Wanted) -> Vec<Row> {
    let mut out = Vec::new();
    for size in SIZES {
        for (call, grid) in [("shortest path, grid", true), ("shortest path, random", false)] {
            if !wanted.has(call) { continue; }
            let cell = cell(size, grid);
            let (ynd, memory) = (rust::ynd_of(&cell), Memory::of(&mut Rng::new(1), &cell, cell.counts()));
            let mut lists = Lists { scratch: vec![0; 4 * size], choices: vec![0; size], places: vec![0; size] };
            let said = memory.shortest_path(0, size - 1, &mut lists).0.map(|a| a.0).ok();
            assert_eq!(said, dijkstra(&ynd).map(|a| a.0), "the same distance");
            let port = || timed(|| memory.shortest_path(0, size - 1, &mut lists));
            let (rust, port) = both(size, || timed(|| dijkstra(&ynd)), port);
            out.push(Row { call, size, rust: Some(rust), floor: None, port: Some(port), goal: Goal::Ratio(1.5) });
        }
    }
    out.sort_by_key(|r| r.call);
    out
}
