//! Section 2: the root and the four records, as offsets and widths.
use super::cell::{Junction, Link, Node, Ref};
use super::sections::{le, put_le};
use super::steps::{metres, steps, XY, Z};

pub const ROOT: usize = 112;
/// Bytes of a node, link, junction, heightmap value and ref: in the order of refusal 3's places.
pub const WIDTHS: [u64; 5] = [40, 8, 12, 1, 8];
/// Root offsets of the addresses and counts, in that order; a count's width is 4, that of refs 2.
pub const ADDRESS_AT: [usize; 5] = [16, 40, 56, 64, 80];
pub const COUNT_AT: [usize; 5] = [24, 48, 96, 100, 90];
pub const COUNT_WIDTH: [usize; 5] = [4, 4, 4, 4, 2];
pub const UNKNOWN_AT: [usize; 7] = [36, 52, 72, 76, 92, 104, 108];

/// Where a node's unused fields stand, and their widths.
pub const UNUSED: [(usize, usize); 5] = [(0, 4), (4, 4), (8, 4), (12, 4), (24, 2)];

fn u16_at(b: &[u8], at: usize) -> u16 { le(b, at, 2) as u16 }
fn xy_at(b: &[u8], at: usize) -> u32 { metres(u16_at(b, at) as i16, XY) }
fn z_at(b: &[u8], at: usize) -> u32 { metres(u16_at(b, at) as i16, Z) }

/// Where a node's links start, and how many they are.
pub fn link_range(b: &[u8]) -> (usize, usize) { (u16_at(b, 26) as usize, (b[37] >> 3) as usize) }

/// Where a junction's heightmap starts, and how many values it has.
pub fn value_range(b: &[u8]) -> (usize, usize) { (u16_at(b, 8) as usize, b[10] as usize * b[11] as usize) }

/// The node without its links.
pub fn node(b: &[u8]) -> Node {
    Node {
        area_id: u16_at(b, 16),
        node_id: u16_at(b, 18),
        street_name: le(b, 20, 4) as u32,
        position: [xy_at(b, 28), xy_at(b, 30), z_at(b, 34)],
        flags: [b[32], b[33], b[36], b[38], b[39], b[37] & 7],
        unused: UNUSED.map(|(at, width)| le(b, at, width) as u32),
        links: Vec::new(),
    }
}

pub fn link(b: &[u8]) -> Link {
    Link { area_id: u16_at(b, 0), node_id: u16_at(b, 2), flags: [b[4], b[5], b[6]], length: b[7] }
}

/// The junction without its values.
pub fn junction(b: &[u8]) -> Junction {
    Junction {
        position: [xy_at(b, 2), xy_at(b, 4)],
        min_z: z_at(b, 6),
        max_z: z_at(b, 0),
        width: b[10],
        height: b[11],
        values: Vec::new(),
    }
}

pub fn junction_ref(b: &[u8]) -> Ref {
    Ref { area_id: u16_at(b, 0), node_id: u16_at(b, 2), junction_id: u16_at(b, 4), unk0: u16_at(b, 6) }
}

fn put_steps(b: &mut [u8], at: usize, bits: u32, scale: f64) { put_le(b, at, 2, steps(bits, scale) as u16 as u64) }

/// T-10: the unused fields are written as they are. Of flags5 the low three bits are stored.
pub fn put_node(b: &mut [u8], n: &Node, link_id: usize) {
    for ((at, width), word) in UNUSED.into_iter().zip(n.unused) { put_le(b, at, width, word as u64); }
    put_le(b, 16, 2, n.area_id as u64);
    put_le(b, 18, 2, n.node_id as u64);
    put_le(b, 20, 4, n.street_name as u64);
    put_le(b, 26, 2, link_id as u64);
    put_steps(b, 28, n.position[0], XY);
    put_steps(b, 30, n.position[1], XY);
    put_steps(b, 34, n.position[2], Z);
    (b[32], b[33], b[36], b[38], b[39]) = (n.flags[0], n.flags[1], n.flags[2], n.flags[3], n.flags[4]);
    b[37] = (n.links.len() as u8) * 8 + n.flags[5] % 8;
}

pub fn put_link(b: &mut [u8], l: &Link) {
    put_le(b, 0, 2, l.area_id as u64);
    put_le(b, 2, 2, l.node_id as u64);
    b[4..7].copy_from_slice(&l.flags);
    b[7] = l.length;
}

pub fn put_junction(b: &mut [u8], j: &Junction, heightmap_ptr: usize) {
    put_steps(b, 0, j.max_z, Z);
    put_steps(b, 2, j.position[0], XY);
    put_steps(b, 4, j.position[1], XY);
    put_steps(b, 6, j.min_z, Z);
    put_le(b, 8, 2, heightmap_ptr as u64);
    (b[10], b[11]) = (j.width, j.height);
}

pub fn put_ref(b: &mut [u8], r: &Ref) {
    for (i, v) in [r.area_id, r.node_id, r.junction_id, r.unk0].into_iter().enumerate() {
        put_le(b, 2 * i, 2, v as u64);
    }
}
