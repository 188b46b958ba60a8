//! Kinds 13 and 14: a walk in the cell of a file; whether that cell is sound. The Rust has neither: the answers are
//! document 01's.
use super::cells::{packed, told};
use super::Field::{Bytes, U16, U8};
use super::Records;
use crate::inputs::files;
use crate::inputs::rng::Rng;
use crate::model::cell::{Cell, Junction, Link, Node, Ref, ISLAND};
use crate::model::walk::{is_sound, walk_into, End};
use crate::model::{read, refuse_if};
use crate::rust;

const WALK: u8 = 13;
const SOUND: u8 = 14;

/// What the list for the places holds before a walk, and how many entries the program has.
const BEFORE: u16 = 65_535;
const MOST_VISITED: usize = 64;
/// No section is longer.
const MOST: usize = 420;

const OWN: u16 = 489;

fn link(area_id: u16, node_id: u16) -> Link { Link { area_id, node_id, flags: [1, 2, 3], length: 9 } }

fn node(node_id: u16, flags1: u8, links: Vec<Link>) -> Node {
    Node { area_id: OWN, node_id, street_name: 5, flags: [0, flags1, 0, 0, 0, 0], links, ..Node::default() }
}

/// Three nodes, numbers 7, 3 (ped) and 9: links to each other, one to another area, and one to a number that no node
/// has.
fn three(last: u16) -> Cell {
    Cell {
        nodes: vec![
            node(7, 0, vec![link(OWN, 3), link(OWN, 9)]),
            node(3, 80, vec![link(OWN, 7), link(490, 5)]),
            node(9, 0, vec![link(OWN, 3), link(OWN, last)]),
        ],
        junctions: vec![Junction { width: 1, height: 2, values: vec![4, 8], ..Junction::default() }],
        refs: vec![Ref { area_id: OWN, node_id: 3, junction_id: 0, unk0: 0 }],
        ..Cell::default()
    }
}

pub fn add(to: &mut Records) {
    let r = &mut Rng::new(3);
    walks(to);
    soundness(to);
    for _ in 0..4 {
        let section = small(r);
        let cell = read::read(&section, &[]).expect("a valid file");
        sound(to, &section, [64, 256, 64], true);
        let choices: Vec<u8> = (0..r.below(8)).map(|_| r.pick(&[0, 0, 1, 2])).collect();
        walk(to, &section, r.below(cell.nodes.len()), &choices, choices.len() + r.below(2));
    }
}

/// A small file with nodes and links in its system section.
fn small(r: &mut Rng) -> Vec<u8> {
    loop {
        let f = if r.once_in(2) { files::sound(r) } else { files::valid(r) };
        let alone = read::read(&f.system, &[]);
        if f.system.len() <= MOST && alone.is_ok_and(|c| c.counts()[0] > 0 && c.counts()[1] > 0) { return f.system; }
    }
}

fn walks(to: &mut Records) {
    let section = packed(&three(77));
    // Done; the list just long enough, and one entry too short.
    for (choices, visited) in [(&[][..], 1), (&[], 0), (&[0, 0], 3), (&[0, 0], 2), (&[1, 0, 0, 0, 0], 7)] {
        walk(to, &section, 0, choices, visited);
    }
    // No-link, left and no-node; a full list is enough where no more is visited.
    for (start, choices) in [(0, &[2][..]), (0, &[255]), (0, &[0, 1]), (1, &[1, 0]), (2, &[1]), (0, &[1, 1, 0])] {
        for visited in [choices.len(), 4] { walk(to, &section, start, choices, visited); }
    }
    // T-07: an island whose links and ref name its area without the bit; from the mainland such a link leaves.
    let (mut island, mut mainland) = (three(7), three(7));
    for n in &mut island.nodes { n.area_id |= ISLAND; }
    for l in mainland.nodes.iter_mut().flat_map(|n| &mut n.links) { l.area_id |= ISLAND; }
    for cell in [&island, &mainland] { walk(to, &packed(cell), 0, &[0, 0, 1, 1], 5); }
    sound(to, &packed(&island), [64, 256, 64], true);
    // 13, before 7.
    for (start, visited) in [(3, 4), (3, 0), (65_535, 1)] { walk(to, &section, start, &[0], visited); }
    // Of two equal numbers `node` takes the one at its place, else the first.
    let equal = Cell {
        nodes: vec![node(1, 0, vec![link(OWN, 1), link(OWN, 8)]), node(1, 0, vec![]), node(8, 0, vec![]),
            node(8, 0, vec![])], ..Cell::default()
    };
    for choice in [0, 1] { walk(to, &packed(&equal), 0, &[choice], 2); }
}

fn soundness(to: &mut Records) {
    let good = three(7);
    let all = [64, 256, 64];
    sound(to, &packed(&good), all, true);
    // A number that no node has: in a link, in a ref; of another area it does not matter.
    sound(to, &packed(&three(77)), all, true);
    let with_ref = |area_id, node_id| Cell { refs: vec![Ref { area_id, node_id, ..Ref::default() }], ..good.clone() };
    for (area, number) in [(OWN, 77), (OWN, 9), (490, 77)] { sound(to, &packed(&with_ref(area, number)), all, true); }
    // Two areas; two equal numbers.
    let mut areas = good.clone();
    areas.nodes[2].area_id = 490;
    sound(to, &packed(&areas), all, true);
    let mut equal = good.clone();
    equal.nodes[2].node_id = 7;
    equal.nodes[0].links.truncate(1);
    sound(to, &packed(&equal), all, true);
    // An empty cell with any refs.
    sound(to, &packed(&Cell { refs: with_ref(0, 77).refs, ..Cell::default() }), all, true);
    // Lists that are too short, and the scratch.
    for lent in [[2, 256, 64], [64, 5, 64], [64, 256, 0], [2, 5, 0], [3, 6, 1]] {
        sound(to, &packed(&good), lent, true);
    }
    sound(to, &packed(&good), all, false);
    sound(to, &packed(&good), [64, 256, 0], false);
}

/// The layout stands in the program's cell.rt.
fn walk(to: &mut Records, section: &[u8], start: usize, choices: &[u8], visited: usize) {
    assert!(visited <= MOST_VISITED);
    let cell = rust::cell_of(&rust::read(section, &[]).expect("the Rust reads it"));
    let answer = walk_into(&cell, start, choices, visited);
    let (mut end, mut list) = ((0, 0, 0), vec![BEFORE; visited]);
    if let Ok(w) = &answer {
        end = match w.end {
            End::Done => (0, 0, 0), End::NoLink => (1, 0, 0), End::Left(area, number) => (2, area, number),
                End::NoNode => (3, 0, 0)
        };
        for (k, &p) in w.places.iter().enumerate() { list[k] = p as u16; }
    }
    let mut fields = vec![U16(section.len() as u16), U16(start as u16), U16(choices.len() as u16),
        U16(visited as u16)];
    fields.extend(told(&answer));
    fields.extend([U8(end.0), U16(end.1), U16(end.2), U16(answer.map_or(0, |w| w.places.len()) as u16), Bytes(section),
        Bytes(choices)]);
    fields.extend(list.into_iter().map(U16));
    to.add(WALK, &fields);
}

/// Entries lent of nodes, links and refs, and whether the scratch is long enough.
fn sound(to: &mut Records, section: &[u8], lent: [usize; 3], scratch: bool) {
    let cell = rust::cell_of(&rust::read(section, &[]).expect("the Rust reads it"));
    let counts = cell.counts();
    let room = [(0, 0), (1, 1), (4, 2)].into_iter()
        .try_for_each(|(list, k)| refuse_if(lent[k] < counts[list], 7, list));
    let answer = room.and_then(|_| refuse_if(!scratch, 7, 6)).map(|_| is_sound(&cell));
    let mut fields = vec![U16(section.len() as u16)];
    fields.extend(lent.map(|n| U16(n as u16)));
    fields.push(U8(scratch as u8));
    fields.extend(told(&answer));
    fields.extend([U8(answer.unwrap_or(false) as u8), Bytes(section)]);
    to.add(SOUND, &fields);
}
