//! Links and heightmap values that start past 65,535 in memory, where no file's start reaches: pools of more entries
//! than that, and starts made by hand, also in the upper half of 32 bits.
use super::rng::Rng;
use super::scripts::{self, Op};
use crate::model::cell::{Cell, Junction, Link, Node};
use crate::port::memory::Memory;

/// A pool just over 65,536 entries.
const POOL: usize = 65_560;

/// A few nodes and junctions with ranges in large pools, and a seed for what else is lent.
pub fn any(r: &mut Rng) -> (Memory, u64) {
    let [nodes, junctions, refs] = [r.within(1, 8), r.within(1, 5), r.below(4)];
    let [links, values] = [POOL + r.below(400), POOL + r.below(400)];
    let more = r.below(2);
    let mut m = Memory::rubbish(r, [nodes + more, links, junctions, values, refs]);
    m.ynd[10] = nodes as u32;
    (m.ynd[11], m.ynd[12], m.ynd[13], m.ynd[14]) =
        ((links - r.below(3)) as u32, junctions as u32, (values - r.below(3)) as u32, refs as u32);
    let (own, sound) = (r.u16(), r.once_in(2));
    let area = |r: &mut Rng| {
        if r.once_in(if sound { 9 } else { 4 }) { r.pick(&[own ^ 1, own ^ 1024]) } else { own }
    };
    for i in 0..nodes {
        let [area, number] = if sound { [own, i as u16] } else { [area(r), r.below(nodes + 1) as u16] };
        m.nodes[i][0] = area as u32 | (number as u32) << 16;
        let many = if r.once_in(4) { 255 } else { 3 };
        let count = r.pick(&[0, 1, 2, 4, 31, many]);
        m.nodes[i][6] = m.nodes[i][6] & 0xFF00_FFFF | count << 16;
        m.nodes[i][7] = start(r, links);
        let from = (m.nodes[i][7] as usize).min(links);
        for w in m.links.iter_mut().skip(from).take(count as usize) { (w[0], w[1]) = (area, r.below(nodes) as u16); }
    }
    for w in m.refs.iter_mut() { *w = [area(r), r.below(nodes) as u16, r.below(junctions + 1) as u16, r.u16()]; }
    for w in m.junctions.iter_mut() {
        w[4] = w[4] & 0xFFFF_0000 | r.below(5) as u32 | (r.below(5) as u32) << 8;
        w[5] = start(r, values);
    }
    (m, r.next())
}

/// Around 65,535, up to the pool's end and past it, and far beyond.
fn start(r: &mut Rng, pool: usize) -> u32 {
    let (near, back, any) = (r.below(5) as u32, r.below(36), r.u32());
    let inside = r.within(65_536, pool) as u32;
    let far = r.pick(&[0x8000_0000, 0xFFFF_FFFF - near, 0x8000_0000 | inside, 0x8000_0000 + near, 0x7FFF_FFFF, any]);
    r.pick(&[65_533 + near, 65_533 + near, inside, inside, inside, (pool - back) as u32, (pool + 1) as u32, far])
}

/// A cell whose last nodes' links, and last junctions' values, start past 65,535.
fn cell(r: &mut Rng) -> Cell {
    let each = r.pick(&[31, 200, 255]);
    let nodes = 65_560 / each + r.below(4);
    let node = |r: &mut Rng, i: usize| Node {
        area_id: 489,
        node_id: i as u16,
        flags: [0, r.pick(&[0, 80]), 0, 0, 0, r.u8() % 8],
        unused: [r.u32(), r.u32(), r.u32(), r.u32(), r.u16() as u32],
        links: (0..each)
            .map(|k| Link { area_id: 489, node_id: ((i + k) % nodes) as u16, length: k as u8, ..Link::default() })
            .collect(),
        ..Node::default()
    };
    let junction = |r: &mut Rng, width: u8, height: u8| {
        let values = r.bytes(width as usize * height as usize);
        Junction { width, height, values, ..Junction::default() }
    };
    let nodes: Vec<Node> = (0..nodes).map(|i| node(r, i)).collect();
    let junctions = [(255, 255), (255, 2), (3, 4), (2, 2)].map(|(w, h)| junction(r, w, h)).to_vec();
    Cell { vft: 1, nodes, junctions, ..Cell::default() }
}

/// Such a cell, and edits and calls on its far end.
pub fn script(r: &mut Rng) -> (Cell, Vec<Op>, u64) {
    let cell = cell(r);
    let last = cell.nodes.len() - 1;
    let many = r.within(4, 10);
    let ops = (0..many).map(|_| {
        let place = last - r.below(4);
        match r.below(9) {
            0..=2 => Op::AddLink {
                place: if r.once_in(4) { r.below(last) } else { place }, link: scripts::link(r, &cell)
            },
            3 | 4 => Op::PutLink { place, index: r.below(260), link: scripts::link(r, &cell) },
            5 => Op::PutValue { place: r.below(5), index: r.below(13), value: r.u8() },
            6 => Op::AddJunction(scripts::junction(r)),
            7 => Op::Renumber { scratch: 65_536, places: cell.nodes.len() },
            _ => Op::Walk { start: place, choices: (0..6).map(|_| r.u8()).collect(), visited: 7 },
        }
    });
    let ops = ops.collect();
    (cell, ops, r.next())
}
