//! The Rust's answers in the model's words. With the feature `drop-in` the wrapper's module stands in its place, with
//! the same names: the same text asks it.
use crate::math::{Vec2, Vec3};
use crate::model::cell::{one_nan, Cell, Junction, Link, Node, Ref};
use crate::model::records::{ADDRESS_AT, COUNT_AT, UNUSED};
use crate::model::renumber;
use crate::model::sections::{le, SYSTEM};
use crate::ynd::{Heightmap, NodeJunctionRef, PathJunction, PathLink, PathNode, Ynd};

#[cfg(not(feature = "drop-in"))]
#[path = "by_text.rs"]
mod judged;
#[cfg(feature = "drop-in")]
#[path = "by_wrapper.rs"]
mod judged;

pub use judged::{read, refusal, write, BY_THE_DOCUMENTS, NAME, SHARE};

pub fn vec3(bits: [u32; 3]) -> Vec3 {
    Vec3::new(f32::from_bits(bits[0]), f32::from_bits(bits[1]), f32::from_bits(bits[2]))
}

pub fn bits3(v: Vec3) -> [u32; 3] { [v.x, v.y, v.z].map(|x| one_nan(x.to_bits())) }

/// `recalculate_node_indices`. T-07: a renumbered island cell leaves the runs; the Rust goes on from the model's.
pub fn renumber(ynd: &mut Ynd) {
    let mut cell = cell_of(ynd);
    if BY_THE_DOCUMENTS || !cell.is_island() { return ynd.recalculate_node_indices(); }
    renumber::renumber(&mut cell, 65_536, ynd.nodes.len()).expect("room for all");
    *ynd = ynd_of(&cell);
}

/// T-10: the Rust drops a node's five unused fields. Its side is compared with a cell that has zeros there, and with
/// bytes that have; nothing else is masked.
pub fn masked(cell: &Cell) -> Cell {
    let mut cell = cell.clone();
    for n in &mut cell.nodes { n.unused = [0; 5]; }
    cell
}

/// The same of a section that was written.
pub fn masked_bytes(section: &[u8]) -> Vec<u8> {
    let mut section = section.to_vec();
    let (address, count) = (le(&section, ADDRESS_AT[0], 8), le(&section, COUNT_AT[0], 4) as usize);
    for i in 0..count {
        let node = address.wrapping_sub(SYSTEM) as usize + 40 * i;
        for (at, width) in UNUSED { section[node + at..][..width].fill(0); }
    }
    section
}

pub fn cell_of(ynd: &Ynd) -> Cell {
    Cell {
        vft: ynd.vft,
        vehicle_node_count: ynd.vehicle_node_count,
        ped_node_count: ynd.ped_node_count,
        unknowns: ynd.unknowns,
        nodes: ynd.nodes.iter().map(node_of).collect(),
        junctions: ynd.junctions.iter().map(junction_of).collect(),
        refs: ynd.junction_refs.iter().map(ref_of).collect(),
    }
}

pub fn ynd_of(cell: &Cell) -> Ynd {
    Ynd {
        vft: cell.vft,
        vehicle_node_count: cell.vehicle_node_count,
        ped_node_count: cell.ped_node_count,
        nodes: cell.nodes.iter().map(path_node).collect(),
        junctions: cell.junctions.iter().map(path_junction).collect(),
        junction_refs: cell.refs.iter().map(path_ref).collect(),
        unknowns: cell.unknowns,
    }
}

pub fn node_of(n: &PathNode) -> Node {
    Node {
        area_id: n.area_id,
        node_id: n.node_id,
        street_name: n.street_name,
        position: bits3(n.position),
        flags: [n.flags0, n.flags1, n.flags2, n.flags3, n.flags4, n.flags5],
        unused: [0; 5],
        links: n.links.iter().map(link_of).collect(),
    }
}

pub fn path_node(n: &Node) -> PathNode {
    let [flags0, flags1, flags2, flags3, flags4, flags5] = n.flags;
    PathNode {
        area_id: n.area_id,
        node_id: n.node_id,
        street_name: n.street_name,
        position: vec3(n.position),
        flags0, flags1, flags2, flags3, flags4, flags5,
        links: n.links.iter().map(path_link).collect(),
    }
}

pub fn link_of(l: &PathLink) -> Link {
    Link { area_id: l.area_id, node_id: l.node_id, flags: [l.flags0, l.flags1, l.flags2], length: l.length }
}

pub fn path_link(l: &Link) -> PathLink {
    let [flags0, flags1, flags2] = l.flags;
    PathLink { area_id: l.area_id, node_id: l.node_id, flags0, flags1, flags2, length: l.length }
}

pub fn junction_of(j: &PathJunction) -> Junction {
    let bits = |x: f32| one_nan(x.to_bits());
    Junction {
        position: [bits(j.position.x), bits(j.position.y)],
        min_z: bits(j.min_z),
        max_z: bits(j.max_z),
        width: j.heightmap.width,
        height: j.heightmap.height,
        values: j.heightmap.values.clone(),
    }
}

pub fn path_junction(j: &Junction) -> PathJunction {
    PathJunction {
        position: Vec2::new(f32::from_bits(j.position[0]), f32::from_bits(j.position[1])),
        min_z: f32::from_bits(j.min_z),
        max_z: f32::from_bits(j.max_z),
        heightmap: Heightmap { width: j.width, height: j.height, values: j.values.clone() },
    }
}

pub fn ref_of(r: &NodeJunctionRef) -> Ref {
    Ref { area_id: r.area_id, node_id: r.node_id, junction_id: r.junction_id, unk0: r.unk0 }
}

pub fn path_ref(r: &Ref) -> NodeJunctionRef {
    NodeJunctionRef { area_id: r.area_id, node_id: r.node_id, junction_id: r.junction_id, unk0: r.unk0 }
}
