//! Large cells that are written: thousands of nodes, and each count up to the most that writing takes.
use super::floats;
use super::rng::Rng;
use crate::model::cell::{Cell, Junction, Link, Node, Ref};

/// What is written at most: nodes, links before the last node, junctions, heightmap bytes before the last junction,
/// refs.
const MOST: [usize; 5] = [65_536, 65_535, 4_096, 65_535, 65_535];

/// How large a cell is: each count at its most in one cell of two.
pub fn cell(r: &mut Rng) -> (Cell, u64) {
    let of = |r: &mut Rng, most: usize, least: usize| if r.once_in(2) { most } else { r.within(least, most) };
    let nodes = of(r, MOST[0], 2_000);
    let links = of(r, MOST[1], 0);
    let junctions = of(r, MOST[2], 0);
    let refs = of(r, MOST[4], 0);
    let own = r.pick(&[0u16, 489, 1177]);
    let turn = r.pick(&[1u16, 7_919, 40_503]);
    let counts = spread(r, nodes, links);
    let nodes = counts.into_iter().enumerate().map(|(i, n)| node(r, own, (i as u16).wrapping_mul(turn), n));
    let mut nodes: Vec<Node> = nodes.collect();
    // A ped node: it is the last one after renumbering too, and the links before it stay as many.
    nodes.last_mut().expect("nodes").flags[1] = 80;
    let junctions = values(r, junctions);
    let many = nodes.len();
    let refs = (0..refs)
        .map(|_| Ref { area_id: area(r, own), node_id: r.below(many) as u16, junction_id: r.u16(), unk0: r.u16() });
    let refs = refs.collect();
    let unknowns = [0; 7].map(|_| r.u32());
    let cell = Cell {
        vft: r.u32(), vehicle_node_count: r.u32(), ped_node_count: r.u32(), unknowns, nodes, junctions, refs
    };
    (cell, r.next())
}

fn area(r: &mut Rng, own: u16) -> u16 { if r.once_in(5) { r.pick(&[own ^ 1, own ^ 1024]) } else { own } }

/// So many links over the nodes before the last, at most 31 each, as evenly as chance has it; the last has up to 31
/// more.
fn spread(r: &mut Rng, nodes: usize, links: usize) -> Vec<usize> {
    let mut counts = vec![0; nodes];
    let mut left = links.min(31 * (nodes - 1));
    while left > 0 {
        let at = r.below(nodes - 1);
        let more = r.within(1, 4).min(31 - counts[at]).min(left);
        counts[at] += more;
        left -= more;
    }
    counts[nodes - 1] = r.pick(&[0, 1, 31]);
    counts
}

fn node(r: &mut Rng, own: u16, node_id: u16, links: usize) -> Node {
    let link = |r: &mut Rng| Link {
        area_id: area(r, own), node_id: r.u16(), flags: [r.u8(), r.u8(), r.u8()], length: r.u8()
    };
    let steps = |r: &mut Rng, scale: f32| ((r.u16() as i16) as f32 / scale).to_bits();
    let position = if r.once_in(8) { floats::position(r) } else { [steps(r, 4.0), steps(r, 4.0), steps(r, 32.0)] };
    let flags1 = if r.once_in(4) { r.pick(&[80, 112, 144]) } else { r.u8() };
    Node {
        area_id: own,
        node_id,
        street_name: r.u32(),
        position: position.map(crate::model::cell::one_nan),
        flags: [r.u8(), flags1, r.u8(), r.u8(), r.u8(), r.u8() % 8],
        unused: [r.u32(), r.u32(), r.u32(), r.u32(), r.u16() as u32],
        links: (0..links).map(|_| link(r)).collect(),
    }
}

/// So many junctions; their values are at most 65,535 before the last one.
fn values(r: &mut Rng, junctions: usize) -> Vec<Junction> {
    let mut left = MOST[3];
    (0..junctions).map(|_| {
        let (mut width, mut height) = (r.below(7), r.below(7));
        if width * height > left { (width, height) = (left.min(255), 1); }
        left -= width * height;
        let [x, y, min_z] = floats::position(r).map(crate::model::cell::one_nan);
        let max_z = crate::model::cell::one_nan(floats::bits(r));
        Junction {
            position: [x, y], min_z, max_z, width: width as u8, height: height as u8, values: r.bytes(width * height)
        }
    }).collect()
}
