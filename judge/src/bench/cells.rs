//! ns a node: reading, renumbering, writing, write-then-read, `node`.
use super::{all_three, both, timed, Goal, Row, Wanted, SIZES};
use crate::blocks::{Pod, Writer};
use crate::inputs::rng::Rng;
use crate::model::cell::{Cell, Junction, Link, Node, Ref};
use crate::model::{renumber, write};
use crate::port::memory::Memory;
use crate::resource::lend_sections;
use crate::rust;
use crate::ynd::{parse_node_dictionary, PathNode, Ynd};
use std::hint::black_box;
use std::time::Duration;

pub fn rows(wanted: &Wanted) -> Vec<Row> {
    let mut out: Vec<Row> = SIZES.into_iter().flat_map(|size| of_size(size, wanted)).collect();
    out.sort_by_key(|r| r.call);
    out
}

fn of_size(size: usize, wanted: &Wanted) -> Vec<Row> {
    let mut out = Vec::new();
    let cell = cell(size);
    let bytes = write::written(&cell).expect("a cell that is written");
    let ynd = rust::ynd_of(&cell);
    let memory = Memory::of(&mut Rng::new(1), &cell, cell.counts());
    let (mut lent, mut section) = (memory.clone(), bytes.clone());
    let (mut scratch, mut places) = (vec![0; 65_536], vec![0; size]);
    let mut row = |call, goal, rust: &dyn Fn() -> Duration, port: &mut dyn FnMut() -> Duration| {
        if !wanted.has(call) { return; }
        let (rust, port) = both(size, rust, port);
        out.push(Row { call, size, rust: Some(rust), floor: None, port: Some(port), goal });
    };
    let rust_reads = || { lend_sections(bytes.clone(), Vec::new()); timed(read) };
    row("reading", Goal::Ratio(0.55), &rust_reads, &mut || timed(|| lent.read(&bytes, &[])));
    let rust_renumbers = || { let mut y = ynd.clone(); timed(|| y.recalculate_node_indices()) };
    row("renumbering", Goal::Ratio(0.35), &rust_renumbers, &mut || {
        lent = memory.clone();
        timed(|| lent.renumber(&mut scratch, &mut places))
    });
    let head = &bytes[..1152];
    let rust_writes = || timed(|| written(&ynd, head));
    row("writing", Goal::Ratio(0.4), &rust_writes, &mut || timed(|| memory.write(&mut section)));
    lent = memory.clone();
    let rust_does_both = || timed(|| { lend_sections(written(&ynd, head), Vec::new()); read_any() });
    let mut does_both = || timed(|| lent.write_then_read(&mut section));
    row("write-then-read", Goal::Ratio(1.0), &rust_does_both, &mut does_both);
    let mut by_place = ynd.clone();
    by_place.recalculate_node_indices();
    lent = memory.clone();
    lent.renumber(&mut scratch, &mut places).expect("room for all");
    let in_line = || timed(|| nodes_in_line(&by_place));
    row("node, the Rust's in line", Goal::Ratio(2.0), &in_line, &mut || timed(|| port_nodes(&lent)));
    if wanted.has(NODE) { out.push(by_a_call(&by_place, &lent)); }
    for (call, near) in [("a walk's link, to a near node", true), ("a walk's link, in random order", false)] {
        if wanted.has(call) { out.push(walking(&cell, call, near)); }
    }
    out
}

/// A walk over a renumbered cell whose first links lead from node to node, through all of them: each to one that is
/// near, or in random order. Beside it a plain loop over the same memory, which is what the machine needs for it at
/// the least.
fn walking(cell: &Cell, call: &'static str, near: bool) -> Row {
    let (memory, size) = (circuit(cell, near), cell.nodes.len());
    let (choices, mut visited) = (vec![0; size], vec![0; size + 1]);
    let mut trodden = visited.clone();
    let (plain, port) = both(size, || timed(|| tread(&memory, &mut trodden)),
        || timed(|| memory.walk(0, &choices, &mut visited)));
    assert_eq!(visited[size], 0, "a walk over all nodes");
    assert_eq!(visited, trodden, "the same places");
    let goal = if size == 60_000 { Goal::Nanoseconds(25.0) } else { Goal::None };
    Row { call, size, rust: None, floor: Some(plain), port: Some(port), goal }
}

/// The cell renumbered, its first links leading through all nodes and back to the first.
pub(super) fn circuit(cell: &Cell, near: bool) -> Memory {
    let (mut cell, size) = (cell.clone(), cell.nodes.len());
    renumber::renumber(&mut cell, 65_536, size).expect("room for all");
    let mut r = Rng::new(7);
    let mut order: Vec<usize> = (0..size).collect();
    let reach = if near { 16 } else { size };
    for part in order.chunks_mut(reach) { for i in (1..part.len()).rev() { part.swap(i, r.below(i + 1)); } }
    for i in 0..size {
        let n = &mut cell.nodes[order[i]];
        n.links[0] = Link { area_id: n.area_id, node_id: order[(i + 1) % size] as u16, ..Link::default() };
    }
    Memory::of(&mut r, &cell, cell.counts())
}

/// From link to link, always the first, with no test but that of the index.
fn tread(memory: &Memory, visited: &mut [u32]) {
    let mut p = 0;
    for v in visited {
        *v = p as u32;
        p = memory.links[memory.nodes[p][7] as usize][1] as usize;
    }
}

/// A cell as drawn: up to three links a node, a ped node in five, a junction and a ref in every two hundred, numbers
/// that differ.
pub(super) fn cell(size: usize) -> Cell {
    let mut r = Rng::new(size as u64);
    let links = (65_535 / size).min(3);
    let nodes = (0..size).map(|i| Node {
        area_id: 489,
        node_id: i as u16 ^ 0x5A,
        street_name: r.u32(),
        position: [0, 1, 2].map(|k| ((r.u16() as i16) as f32 / [4.0, 4.0, 32.0][k]).to_bits()),
        flags: [r.u8(), if r.once_in(5) { 80 } else { 0 }, r.u8(), r.u8(), r.u8(), r.u8() % 8],
        unused: [i as u32; 5].map(|word| word & 0xFFFF),
        links: (0..links)
            .map(|_| Link { area_id: 489, node_id: r.below(size) as u16, flags: [0, 0, 72], length: r.u8() })
            .collect(),
    }).collect();
    let junctions = (0..size / 200)
        .map(|_| Junction { width: 4, height: 4, values: r.bytes(16), ..Junction::default() }).collect();
    let refs = (0..size / 200)
        .map(|i| Ref { area_id: 489, node_id: r.below(size) as u16, junction_id: i as u16, unk0: 0 }).collect();
    Cell { vft: 1, unknowns: [0, 0, 1, 0, 0, 0, 0], nodes, junctions, refs, ..Cell::default() }
}

/// Reads the sections lent. `Reader::open` takes them from the container, which is left out, so no copy of them is
/// timed.
pub(super) fn read() -> Ynd { read_any().expect("a valid file") }

fn read_any() -> Option<Ynd> { Ynd::from_dictionary(&parse_node_dictionary(&[]).ok()?).ok() }

/// `to_dictionary`, then the `Pod` writers, without the block graph's copies; root and page block come ready.
pub(super) fn written(ynd: &Ynd, head: &[u8]) -> Vec<u8> {
    let d = ynd.to_dictionary().ok().expect("a cell that is written");
    let small = d.junction_refs.len() * 8 + d.junction_heightmap_bytes.len() + d.junctions.len() * 12;
    let size = 1152 + small + d.links.len() * 8 + d.nodes.len() * 40;
    let mut w = Writer::new(0, size + 64);
    w.bytes(head);
    block(&mut w, &d.junction_refs);
    block(&mut w, &d.junction_heightmap_bytes);
    block(&mut w, &d.junctions);
    block(&mut w, &d.links);
    block(&mut w, &d.nodes);
    w.into_inner()
}

fn block<T: Pod>(w: &mut Writer, items: &[T]) {
    w.pad16();
    for i in items { i.write(w); }
}

/// Every number once. The port's call goes into an archive and is never put in line; here the Rust's is.
fn nodes_in_line(ynd: &Ynd) {
    for i in 0..ynd.nodes.len() { black_box(ynd.node(i as u16)); }
}

/// Every number once, by a call as the port's is.
fn nodes(ynd: &Ynd) {
    let find = black_box(Ynd::node as fn(&Ynd, u16) -> Option<&PathNode>);
    for i in 0..ynd.nodes.len() { black_box(find(ynd, i as u16)); }
}

fn port_nodes(memory: &Memory) {
    for i in 0..memory.nodes.len() { black_box(memory.place_of(i as u16)); }
}

const NODE: &str = "node, by a call";

fn by_a_call(ynd: &Ynd, memory: &Memory) -> Row {
    let plain = || for i in 0..memory.nodes.len() { black_box(plain_place(memory, i as u16)); };
    let size = memory.nodes.len();
    let rust = || timed(|| nodes(ynd));
    let [rust, floor, port] = all_three(size, rust, || timed(plain), || timed(|| port_nodes(memory)));
    Row { call: NODE, size, rust, floor, port, goal: Goal::Ratio(2.0) }
}

/// As `Memory::place_of` asks the port.
fn plain_place(memory: &Memory, node_id: u16) -> Option<usize> {
    let (mut is, mut at, mut place) = (false, 0, 0);
    let (ynd, nodes, n) = (memory.ynd.as_ptr(), memory.nodes.as_ptr(), memory.nodes.len());
    unsafe { plain_node(ynd, nodes, n, node_id, &mut is, &mut at, &mut place) };
    is.then_some(at)
}

/// The Rust's `node` over the port's words, behind the port's C call.
#[no_mangle]
#[inline(never)]
unsafe extern "C" fn plain_node(
    ynd: *const u32, nodes: *const [u32; 13], node_count: usize, node_id: u16, found: &mut bool, at: &mut usize,
    place: &mut usize,
) -> u32 {
    let nodes = unsafe { std::slice::from_raw_parts(nodes, node_count.min(*ynd.add(10) as usize)) };
    let has = |w: &[u32; 13]| (w[0] >> 16) as u16 == node_id;
    let there = match nodes.get(node_id as usize) {
        Some(w) if has(w) => Some(node_id as usize),
        _ => nodes.iter().position(has),
    };
    *found = there.is_some();
    if let Some(p) = there { *at = p; }
    *place = 0;
    0
}
