//! ns a link: a walk that crosses the members of a set; ns a node: renumbering one member of nine. Both beside plain
//! Rust over the same memory.
use super::cells::cell;
use super::{both, timed, Goal, Row, Wanted};
use crate::inputs::rng::Rng;
use crate::model::cell::{Cell, Link};
use crate::port::memory::Memory;
use crate::port::sets::Set;

const MEMBERS: usize = 9;
const AREA: u16 = 489;
/// Nodes of a set that is walked, and of the member that is renumbered among nine alike.
const SIZES: [usize; 4] = [90, 900, 9_000, 63_000];
const MEMBER_SIZES: [usize; 3] = [70, 700, 7_000];

pub const NOTE: &str = "a crossing walk's link: a walk through all nodes of nine members; near is within 16 places of \
a member, which it leaves after\nthem. The floor is Rust that goes the same way over the same memory with no test \
but that of the index; it finds the\nmember by its area less the first one's. Renumbering one of nine, a node of that \
one: three links a node, one of them into any\nmember, as in the other eight; the floor moves the nodes, renames \
the member's links and refs and the links of the others,\neach once, in lent memory of the same kind, with no checks.";

/// The cells of a set with this many nodes, each of its own area.
fn cells(size: usize) -> Vec<Cell> {
    let each = size / MEMBERS;
    (0..MEMBERS).map(|k| {
        let mut c = cell(each);
        for (i, n) in c.nodes.iter_mut().enumerate() {
            (n.area_id, n.node_id) = (AREA + k as u16, i as u16);
            for l in &mut n.links { l.area_id = AREA + k as u16; }
        }
        for x in &mut c.refs { x.area_id = AREA + k as u16; }
        c
    }).collect()
}

fn joined(cells: &[Cell]) -> Set {
    let r = &mut Rng::new(3);
    let sum = |k: usize| cells.iter().map(|c| c.counts()[k]).sum();
    let mut set = Set::rubbish(r, MEMBERS, [0, 1, 2, 3, 4].map(sum));
    for c in cells { set.join(&Memory::of(r, c, c.counts()), c.counts()).expect("room for all"); }
    set
}

/// First links lead through all nodes: near ones member by member, else in random order over all members.
fn circuit(size: usize, near: bool) -> Set {
    let mut cells = cells(size);
    let (each, r) = (size / MEMBERS, &mut Rng::new(7));
    let mut order: Vec<(usize, usize)> = (0..MEMBERS * each).map(|i| (i / each, i % each)).collect();
    let reach = if near { 16 } else { order.len() };
    for part in order.chunks_mut(reach) { for i in (1..part.len()).rev() { part.swap(i, r.below(i + 1)); } }
    let start = order.iter().position(|&at| at == (0, 0)).expect("the first node");
    order.rotate_left(start);
    for (i, &(k, p)) in order.iter().enumerate() {
        let (to, q) = order[(i + 1) % order.len()];
        cells[k].nodes[p].links[0] = Link { area_id: AREA + to as u16, node_id: q as u16, ..Link::default() };
    }
    joined(&cells)
}

/// From link to link, always the first.
fn tread(set: &Set, starts: &[[usize; 2]; MEMBERS], visited: &mut [[u32; 2]]) {
    let (mut k, mut p, nodes, links) = (0, 0, &*set.nodes, &*set.links);
    for v in visited {
        *v = [k as u32, p as u32];
        let [first, first_link] = starts[k];
        let l = links[first_link + nodes[first + p][7] as usize];
        (k, p) = ((l[0] - AREA) as usize, l[1] as usize);
    }
}

fn starts(set: &Set) -> [[usize; 2]; MEMBERS] {
    let sizes = set.sizes();
    std::array::from_fn(|k| [0, 1].map(|list| sizes[..k].iter().map(|s| s[list]).sum()))
}

fn walking(call: &'static str, size: usize, near: bool) -> Row {
    let set = circuit(size, near);
    let (at, choices) = (starts(&set), vec![0; size]);
    let mut visited = vec![[0; 2]; size + 1];
    let mut trodden = visited.clone();
    let (plain, port) = both(size, || timed(|| tread(&set, &at, &mut trodden)),
        || timed(|| set.crossing((0, 0), &choices, &mut visited)));
    assert_eq!(visited[size], [0, 0], "a walk over all nodes");
    assert_eq!(visited, trodden, "the same locations");
    Row { call, size, rust: None, floor: Some(plain), port: Some(port), goal: Goal::None }
}

/// Nine members of as many nodes; of three links of a node one leads into another member.
fn linked(each: usize) -> Set {
    let (mut cells, r) = (cells(MEMBERS * each), &mut Rng::new(5));
    for c in &mut cells {
        for n in &mut c.nodes { n.links[2].area_id = AREA + r.below(MEMBERS) as u16; }
    }
    joined(&cells)
}

/// What renumbering the member j has to do at the least: it and the links that name it, once.
#[inline(never)]
fn renumber(set: &mut Set, j: usize, moved: &mut Vec<[u32; 13]>, table: &mut [u16], places: &mut [u32]) {
    let sizes = set.sizes();
    let [at, refs_at] = [0, 4].map(|list| sizes[..j].iter().map(|s| s[list]).sum::<usize>());
    let [n, .., refs] = sizes[j];
    let own = set.nodes[at][0] as u16;
    let ped = |w: &[u32; 13]| matches!(w[5] >> 11 & 31, 10 | 14 | 18);
    moved.clear();
    for want in [false, true] {
        for (i, w) in set.nodes[at..at + n].iter().enumerate().filter(|(_, w)| ped(w) == want) {
            (table[(w[0] >> 16) as usize], places[i]) = (moved.len() as u16, moved.len() as u32);
            let mut w = *w;
            w[0] = own as u32 | (moved.len() as u32) << 16;
            moved.push(w);
        }
    }
    let peds = moved.iter().filter(|w| ped(w)).count() as u32;
    set.nodes[at..at + n].copy_from_slice(moved);
    (set.members[j][1], set.members[j][2]) = (n as u32 - peds, peds);
    for w in set.links.iter_mut().filter(|w| w[0] == own) { w[1] = table[w[1] as usize]; }
    for w in set.refs[refs_at..refs_at + refs].iter_mut().filter(|w| w[0] == own) { w[1] = table[w[1] as usize]; }
}

fn renumbering(call: &'static str, size: usize) -> Row {
    let set = linked(size);
    let (mut scratch, mut places) = (vec![0; 65_536], vec![0; size]);
    let (mut moved, mut table, mut told) = (Vec::with_capacity(size), vec![0; 65_536], vec![0; size]);
    let (mut a, mut b) = (set.clone(), set.clone());
    b.renumber(4, &mut scratch, &mut places).expect("a member that is renumbered");
    renumber(&mut a, 4, &mut moved, &mut table, &mut told);
    assert!(a == b && told == places, "the same set, the same new places");
    let plain = || { a = set.clone(); timed(|| renumber(&mut a, 4, &mut moved, &mut table, &mut told)) };
    let port = || { b = set.clone(); timed(|| b.renumber(4, &mut scratch, &mut places)) };
    let (plain, port) = both(size, plain, port);
    Row { call, size, rust: None, floor: Some(plain), port: Some(port), goal: Goal::None }
}

pub fn rows(wanted: &Wanted) -> Vec<Row> {
    let mut out = Vec::new();
    let kinds = [("a crossing walk's link, to a near node", true), ("a crossing walk's link, in random order", false)];
    for (call, near) in kinds {
        if wanted.has(call) { out.extend(SIZES.map(|size| walking(call, size, near))); }
    }
    out.sort_by_key(|r| r.call);
    let call = "renumbering one member of nine";
    if wanted.has(call) { out.extend(MEMBER_SIZES.map(|size| renumbering(call, size))); }
    out
}
