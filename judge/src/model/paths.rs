//! T-06: shortest paths between two places, by Dijkstra's algorithm as textbooks have it; for a few nodes also by trying
//! every walk that visits no place twice.
use super::cell::Cell;
use super::{refuse_if, room, Answer, MOST_JUNCTIONS, MOST_NODES};

/// Entries of scratch for each node.
pub const SCRATCH: usize = 4;

/// Where the own links of the node at a place lead, and how long each is: links that would end a walk lead nowhere.
pub fn edges(cell: &Cell, place: usize) -> Vec<(usize, u64)> {
    let own = cell.nodes[place].links.iter().filter(|l| cell.belongs(l.area_id));
    own.filter_map(|l| cell.node(l.node_id).map(|to| (to, l.length as u64))).collect()
}

/// The least sum of lengths from a place to each place, none where no walk leads.
pub fn distances(cell: &Cell, from: usize) -> Vec<Option<u64>> {
    let mut least: Vec<Option<u64>> = vec![None; cell.nodes.len()];
    let mut settled = vec![false; cell.nodes.len()];
    least[from] = Some(0);
    while let Some((sum, at)) = (0..least.len()).filter(|&p| !settled[p]).filter_map(|p| Some((least[p]?, p))).min() {
        settled[at] = true;
        for (to, length) in edges(cell, at) {
            if least[to].is_none_or(|old| sum + length < old) { least[to] = Some(sum + length); }
        }
    }
    least
}

/// The same between two places, by every walk without repeats.
pub fn by_every_walk(cell: &Cell, from: usize, to: usize) -> Option<u64> {
    fn on(cell: &Cell, at: usize, to: usize, sum: u64, met: &mut Vec<usize>) -> Option<u64> {
        if at == to { return Some(sum); }
        met.push(at);
        let fresh: Vec<(usize, u64)> = edges(cell, at).into_iter().filter(|(p, _)| !met.contains(p)).collect();
        let least = fresh.into_iter().filter_map(|(p, length)| on(cell, p, to, sum + length, met)).min();
        met.pop();
        least
    }
    on(cell, from, to, 0, &mut Vec::new())
}

/// What is asked before the search.
pub fn refused(counts: [usize; 5], lent: [usize; 5], from: usize, to: usize, scratch: usize) -> Answer<()> {
    refuse_if(from >= counts[0] || to >= counts[0], 13, 0)?;
    refuse_if(counts[0] > MOST_NODES || counts[2] > MOST_JUNCTIONS, 14, 0)?;
    room(0, &counts[..2], &lent[..2])?;
    room(9, &[SCRATCH * counts[0]], &[scratch])
}
