//! Entries of the lent lists as words, and what they say.
use crate::model::cell::{one_nan, Junction, Link, Node, Ref};

/// Where a node's links start, and how many they are.
pub fn link_range(w: &[u32; 13]) -> (usize, usize) { (w[7] as usize, w[6] as usize >> 16 & 255) }

/// Where a junction's heightmap starts, and how many values it has.
pub fn value_range(w: &[u32; 6]) -> (usize, usize) {
    (w[5] as usize, (w[4] & 255) as usize * (w[4] >> 8 & 255) as usize)
}

pub fn node_words(n: &Node, start: u32) -> [u32; 13] {
    let [f0, f1, f2, f3, f4, f5] = n.flags.map(|f| f as u32);
    let [x, y, z] = n.position;
    let names = n.area_id as u32 | (n.node_id as u32) << 16;
    let flags = f0 | f1 << 8 | f2 << 16 | f3 << 24;
    let rest = f4 | f5 << 8 | (n.links.len() as u32) << 16;
    let [a, b, c, d, e] = n.unused;
    [names, n.street_name, x, y, z, flags, rest, start, a, b, c, d, e]
}

/// The node without its links.
pub fn node(w: &[u32; 13]) -> Node {
    let byte = |i: usize, k: usize| (w[i] >> (8 * k)) as u8;
    Node {
        area_id: w[0] as u16,
        node_id: (w[0] >> 16) as u16,
        street_name: w[1],
        position: [w[2], w[3], w[4]].map(one_nan),
        flags: [byte(5, 0), byte(5, 1), byte(5, 2), byte(5, 3), byte(6, 0), byte(6, 1)],
        unused: [w[8], w[9], w[10], w[11], w[12] & 0xFFFF],
        links: Vec::new(),
    }
}

pub fn link_words(l: &Link) -> [u16; 4] {
    let [f0, f1, f2] = l.flags.map(|f| f as u16);
    [l.area_id, l.node_id, f0 | f1 << 8, f2 | (l.length as u16) << 8]
}

pub fn link(w: &[u16; 4]) -> Link {
    let flags = [w[2] as u8, (w[2] >> 8) as u8, w[3] as u8];
    Link { area_id: w[0], node_id: w[1], flags, length: (w[3] >> 8) as u8 }
}

pub fn junction_words(j: &Junction, start: u32) -> [u32; 6] {
    [j.position[0], j.position[1], j.min_z, j.max_z, j.width as u32 | (j.height as u32) << 8, start]
}

/// The junction without its values.
pub fn junction(w: &[u32; 6]) -> Junction {
    let [x, y, min_z, max_z] = [w[0], w[1], w[2], w[3]].map(one_nan);
    Junction { position: [x, y], min_z, max_z, width: w[4] as u8, height: (w[4] >> 8) as u8, values: Vec::new() }
}

pub fn ref_words(r: &Ref) -> [u16; 4] { [r.area_id, r.node_id, r.junction_id, r.unk0] }

pub fn junction_ref(w: &[u16; 4]) -> Ref { Ref { area_id: w[0], node_id: w[1], junction_id: w[2], unk0: w[3] } }
