//! What every call asks of a struct and its lent lists, in document 01's order: one place for all comparisons.
use crate::model::{refuse_if, Answer, MOST_JUNCTIONS, MOST_NODES};
use crate::port::memory::Memory;
use crate::port::words::{link_range, value_range};

pub const NODES: usize = 0;
pub const LINKS: usize = 1;
pub const JUNCTIONS: usize = 2;
pub const HEIGHTS: usize = 3;
pub const REFS: usize = 4;

/// 14: a struct over a limit of section 4, whichever lists the call is lent.
pub fn limits(m: &Memory) -> Answer<()> {
    refuse_if(m.counts()[NODES] > MOST_NODES || m.counts()[JUNCTIONS] > MOST_JUNCTIONS, 14, 0)
}

/// 14, then 7 at the lowest of these lists that is shorter than its count.
pub fn lists(m: &Memory, lists: &[usize]) -> Answer<()> {
    let (counts, lent) = (m.counts(), m.lent());
    limits(m)?;
    lists.iter().try_for_each(|&i| refuse_if(lent[i] < counts[i], 7, i))
}

/// 13, 14, then 7: the entry at a place of the first of these lists.
pub fn entry(m: &Memory, at: usize, needed: &[usize]) -> Answer<()> {
    refuse_if(at >= m.counts()[needed[0]], 13, 0)?;
    lists(m, needed)
}

/// 12: a junction has fewer than width × height of the values that the struct counts.
pub fn maps(m: &Memory) -> Answer<()> {
    let values = m.counts()[HEIGHTS];
    let cut = m.junctions[..m.held()[JUNCTIONS]].iter().map(value_range).any(|(at, n)| n > values.saturating_sub(at));
    refuse_if(cut, 12, 0)
}

/// Where link k of the node at a place stands. A range that leaves its pool is cut; of an entry that is counted but not
/// lent nothing is known, so that k is not asked for there.
pub fn link(m: &Memory, at: usize, k: usize) -> Answer<usize> {
    of_range(m, [NODES, LINKS], at, k, m.nodes.get(at).map_or((0, 0), link_range))
}

/// Where value k of the junction at a place stands.
pub fn height(m: &Memory, at: usize, k: usize) -> Answer<usize> {
    of_range(m, [JUNCTIONS, HEIGHTS], at, k, m.junctions.get(at).map_or((0, 0), value_range))
}

fn of_range(m: &Memory, both: [usize; 2], at: usize, k: usize, (start, count): (usize, usize)) -> Answer<usize> {
    let [owners, pool] = both.map(|i| m.counts()[i]);
    let held = count.min(pool.saturating_sub(start));
    refuse_if(at >= owners || at < m.lent()[both[0]] && k >= held, 13, 0)?;
    lists(m, &both)?;
    Ok(start + k)
}
