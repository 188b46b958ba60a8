//! Section 5: walks and soundness.
use super::cell::{belongs, Cell, Junction};
use super::{refuse_if, room, within, Answer};

#[derive(Debug, Clone, Copy, PartialEq, Eq)]
pub enum End { Done, NoLink, Left(u16, u16), NoNode }

/// What a walk shows of a node: area, street, position bits, flags0 to flags5, unused fields (T-10), link count, junction.
#[derive(Debug, Clone, PartialEq, Eq)]
pub struct Seen {
    pub area_id: u16,
    pub street_name: u32,
    pub position: [u32; 3],
    pub flags: [u8; 6],
    pub unused: [u32; 5],
    pub links: usize,
    pub junction: Option<Junction>,
}

#[derive(Debug, Clone, PartialEq, Eq)]
pub struct Walk {
    pub end: End,
    pub places: Vec<usize>,
    pub seen: Vec<Seen>,
    /// Three flags and length of each chosen link that exists.
    pub chosen: Vec<([u8; 3], u8)>,
}

pub fn walk(cell: &Cell, start: usize, choices: &[u8]) -> Answer<Walk> {
    refuse_if(start >= cell.nodes.len(), 13, 0)?;
    within(cell)?;
    let mut w = Walk { end: End::Done, places: vec![start], seen: vec![see(cell, start)], chosen: Vec::new() };
    for &choice in choices {
        let here = &cell.nodes[*w.places.last().unwrap()];
        let Some(l) = here.links.get(choice as usize) else { w.end = End::NoLink; break };
        w.chosen.push((l.flags, l.length));
        if !cell.belongs(l.area_id) { w.end = End::Left(l.area_id, l.node_id); break; }
        let Some(next) = cell.node(l.node_id) else { w.end = End::NoNode; break };
        w.places.push(next);
        w.seen.push(see(cell, next));
    }
    Ok(w)
}

/// The walk with its visited list of so many entries.
pub fn walk_into(cell: &Cell, start: usize, choices: &[u8], visited: usize) -> Answer<Walk> {
    let w = walk(cell, start, choices)?;
    room(8, &[w.places.len()], &[visited])?;
    Ok(w)
}

fn see(cell: &Cell, place: usize) -> Seen {
    let n = &cell.nodes[place];
    Seen {
        area_id: n.area_id,
        street_name: n.street_name,
        position: n.position,
        flags: n.flags,
        unused: n.unused,
        links: n.links.len(),
        junction: cell.junction_of(n.area_id, n.node_id).map(|j| cell.junctions[j].clone()),
    }
}

/// All nodes have one area, numbers differ, and each own link and own ref names a node. An empty cell is sound with
/// any refs.
pub fn is_sound(cell: &Cell) -> bool {
    if cell.nodes.is_empty() { return true; }
    let area = cell.area();
    let mut held = vec![false; 65_536];
    let differ = cell.nodes.iter().all(|n| !std::mem::replace(&mut held[n.node_id as usize], true));
    let named = |area_id: u16, node_id: u16| !belongs(area, area_id) || held[node_id as usize];
    differ
        && cell.nodes.iter().all(|n| n.area_id == area && n.links.iter().all(|l| named(l.area_id, l.node_id)))
        && cell.refs.iter().all(|r| named(r.area_id, r.node_id))
}
