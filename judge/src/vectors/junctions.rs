//! Kind 15: every field and value of a file's junctions, as the Rust has them after reading, and after renumbering,
//! writing and reading again. What is written alone would not show a field that is exchanged both on the way in and on
//! the way out.
use super::cells::packed;
use super::Field::{Bytes, U16, U32, U8};
use super::Records;
use crate::inputs::files;
use crate::inputs::rng::Rng;
use crate::model::cell::{Cell, Junction, Link, Node, Ref};
use crate::model::read;
use crate::rust;

const JUNCTIONS: u8 = 15;

/// No section is longer, and so many come from random files.
const MOST: usize = 400;
const RANDOM: usize = 6;

pub fn add(to: &mut Records) {
    junctions(to, &packed(&two()));
    junctions(to, &packed(
        &Cell { junctions: vec![junction([-7, 9, -3, 5], 5, 3), junction([1, -1, 2, -2], 1, 0)], ..two() }));
    // No value, one value, and a heightmap of more than 255 values.
    for (width, height) in [(0, 0), (255, 0), (1, 1), (18, 15)] {
        junctions(to, &packed(
            &Cell { junctions: vec![junction([100, -200, 300, -400], width, height)], ..Cell::default() }));
    }
    let r = &mut Rng::new(5);
    for _ in 0..RANDOM { let section = small(r); junctions(to, &section); }
}

/// Corner in quarters, heights in thirty-seconds, values that differ.
fn junction([x, y, min_z, max_z]: [i16; 4], width: u8, height: u8) -> Junction {
    let bits = |steps: i16, scale: f32| (steps as f32 / scale).to_bits();
    let values = (0..width as usize * height as usize).map(|k| (k * 7 + 1) as u8).collect();
    Junction {
        position: [bits(x, 4.0), bits(y, 4.0)], min_z: bits(min_z, 32.0), max_z: bits(max_z, 32.0), width, height,
            values
    }
}

/// A ped node before another, each with a link and a junction, so that renumbering moves both.
fn two() -> Cell {
    let node = |node_id, flags1| Node {
        area_id: 489,
        node_id,
        flags: [0, flags1, 0, 0, 0, 0],
        links: vec![Link { area_id: 489, node_id: 3, ..Link::default() }],
        ..Node::default()
    };
    let of = |node_id, junction_id| Ref { area_id: 489, node_id, junction_id, unk0: 0 };
    Cell {
        nodes: vec![node(3, 80), node(7, 0)],
        junctions: vec![junction([3, -5, 7, 11], 2, 3), junction([-13, 17, -19, -23], 4, 1)],
        refs: vec![of(7, 1), of(3, 0)],
        ..Cell::default()
    }
}

/// A small file with junctions and values in its system section.
fn small(r: &mut Rng) -> Vec<u8> {
    loop {
        let f = files::valid(r);
        let fits = read::read(&f.system, &[])
            .is_ok_and(|c| (2..16).contains(&c.counts()[2]) && (1..512).contains(&c.counts()[3]));
        let few = read::read(&f.system, &[])
            .is_ok_and(|c| c.counts()[0] <= 64 && c.counts()[1] <= 256 && c.counts()[4] <= 64);
        if f.system.len() <= MOST && fits && few { return f.system; }
    }
}

/// The layout stands at the head of the program's junctions.rt.
fn junctions(to: &mut Records, section: &[u8]) {
    let mut ynd = rust::read(section, &[]).expect("the Rust reads it");
    let cell = rust::cell_of(&ynd);
    ynd.recalculate_node_indices();
    assert_eq!(rust::cell_of(&ynd).junctions, cell.junctions);
    let again = rust::write(&ynd).and_then(|b| rust::read(&b, &[])).expect("the Rust writes and reads it");
    assert_eq!(rust::cell_of(&again).junctions, cell.junctions);
    let mut fields = vec![U16(section.len() as u16), U16(cell.junctions.len() as u16), Bytes(section)];
    let mut start = 0;
    for j in &cell.junctions {
        fields.extend([j.position[0], j.position[1], j.min_z, j.max_z].map(U32));
        fields.extend([U8(j.width), U8(j.height), U16(start), U16(j.values.len() as u16)]);
        start += j.values.len() as u16;
    }
    fields.extend(cell.junctions.iter().map(|j| Bytes(&j.values)));
    to.add(JUNCTIONS, &fields);
}
