//! Why a yard is not sound. Whether it is, the proved check says; this only looks for a reason to show.
use bofrashem::{numbers, Cell};
use serde_json::{json, Value};
use std::collections::HashMap;
use std::fmt;

/// The first thing that makes a yard unsound, in the order of docs/FORMAT.md, "Soundness": one area, numbers differ,
/// own links and own refs name a node.
#[derive(Debug, Clone, Copy, PartialEq, Eq)]
pub enum Reason {
    OtherArea { node: usize, area: u16, own: u16 },
    SameNumber { node: usize, number: u16, first: usize },
    LinkToNone { node: usize, link: usize, number: u16 },
    RefToNone { at: usize, number: u16 },
}

impl fmt::Display for Reason {
    fn fmt(&self, f: &mut fmt::Formatter<'_>) -> fmt::Result {
        match self {
            Reason::OtherArea { node, area, own } => {
                write!(f, "node {node} has area {area}, the first node {own}")
            }
            Reason::SameNumber { node, number, first } => {
                write!(f, "nodes {first} and {node} both have number {number}")
            }
            Reason::LinkToNone { node, link, number } => {
                write!(f, "link {link} of node {node} names number {number}, which no node has")
            }
            Reason::RefToNone { at, number } => {
                write!(f, "ref {at} names number {number}, which no node has")
            }
        }
    }
}

impl Reason {
    pub fn value(&self) -> Value {
        let (kind, place) = match *self {
            Reason::OtherArea { node, .. } => ("other-area", node),
            Reason::SameNumber { node, .. } => ("same-number", node),
            Reason::LinkToNone { node, .. } => ("link-to-none", node),
            Reason::RefToNone { at, .. } => ("ref-to-none", at),
        };
        json!({ "kind": kind, "place": place, "text": self.to_string() })
    }
}

/// Whether an area is the cell's own: equal to it or, on an island, without the island's bit (docs/FORMAT.md,
/// "Islands").
pub fn is_own(own: u16, area: u16) -> bool {
    area == own || (numbers::is_island_area(own as u32) && area == own & !1024)
}

/// The first reason why an unsound yard is so.
pub fn reason(cell: &Cell) -> Option<Reason> {
    let own = cell.nodes().first()?.area_id;
    if let Some((node, n)) = cell.nodes().iter().enumerate().find(|(_, n)| n.area_id != own) {
        return Some(Reason::OtherArea { node, area: n.area_id, own });
    }
    let mut places = HashMap::new();
    for (node, n) in cell.nodes().iter().enumerate() {
        if let Some(first) = places.insert(n.node_id, node) {
            return Some(Reason::SameNumber { node, number: n.node_id, first });
        }
    }
    for node in 0..cell.nodes().len() {
        for (link, l) in cell.links_of(node).unwrap_or_default().iter().enumerate() {
            if is_own(own, l.area_id) && !places.contains_key(&l.node_id) {
                return Some(Reason::LinkToNone { node, link, number: l.node_id });
            }
        }
    }
    let lost = cell
        .refs()
        .iter()
        .enumerate()
        .find(|(_, r)| is_own(own, r.area_id) && !places.contains_key(&r.node_id));
    lost.map(|(at, r)| Reason::RefToNone { at, number: r.node_id })
}

#[cfg(test)]
mod tests {
    use super::*;
    use bofrashem::{Link, Ref};

    /// Small cells of every kind: a reason is found just where the proved check says no.
    #[test]
    fn a_reason_just_where_the_check_says_no() {
        let mut seed = 7u32;
        let mut below = |n: u32| {
            seed = seed.wrapping_mul(1_664_525).wrapping_add(1_013_904_223);
            (seed >> 16) % n
        };
        let (mut sound, mut unsound) = (0, 0);
        for _ in 0..20_000 {
            // an own area with and without the island's bit, and what links and refs name
            let own = [5, 1029][below(2) as usize];
            let areas = [own, own, own & !1024, own | 1024, 6];
            let (mut cell, n) = (Cell::new(), below(5));
            for p in 0..n {
                cell.add_node(if below(12) == 0 { 6 } else { own }, [0.0; 3]).unwrap();
                let mut node = cell.nodes()[p as usize];
                node.node_id = if below(8) == 0 { below(5) as u16 } else { p as u16 * 3 };
                cell.put_node(p as usize, node).unwrap();
            }
            let number = |k: u32, lost: bool| if lost { 99 } else { k as u16 * 3 };
            for _ in 0..if n == 0 { 0 } else { below(4) } {
                let link = Link::to(areas[below(5) as usize], number(below(n), below(9) == 0));
                cell.add_link(below(n) as usize, link).unwrap();
            }
            for _ in 0..below(3) {
                let node_id = number(below(n.max(1)), below(9) == 0);
                cell.add_ref(Ref { area_id: areas[below(5) as usize], node_id, junction_id: 0, unk0: 0 })
                    .unwrap();
            }
            assert_eq!(reason(&cell).is_none(), cell.is_sound(), "{cell:?}");
            if cell.is_sound() {
                sound += 1
            } else {
                unsound += 1
            }
        }
        assert!(sound > 3000 && unsound > 3000, "{sound} sound, {unsound} not");
    }
}
