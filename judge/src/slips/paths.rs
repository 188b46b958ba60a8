//! Wrong shortest paths: the right one with one rule changed.
use super::{on, Slip};
use crate::model::paths::{distances, edges};
use crate::model::{Answer, Refused};
use crate::port::memory::Memory;
use crate::port::paths::Lists;

pub fn shortest(m: &Memory, from: usize, to: usize, lists: &Lists, right: Answer<(u32, usize)>) -> Answer<(u32, usize)> {
    let links = right.as_ref().map_or(0, |r| r.1);
    match () {
        _ if on(Slip::FewestLinks) => right.map(|r| (of_fewest(m, from, to), r.1)),
        _ if on(Slip::LeavingLink) && right == Err(Refused(17, 0)) => staying(m, from, to).map_or(right, Ok),
        _ if on(Slip::SelfUnreachable) && from == to => right.and(Err(Refused(17, 0))),
        _ if on(Slip::SumWithoutLast) && links > 0 => right.map(|(d, n)| (d - last(m, lists, n), n)),
        _ => right,
    }
}

/// The lengths along a path of the fewest links, added up.
fn of_fewest(m: &Memory, from: usize, to: usize) -> u32 {
    let cell = m.cell();
    let (mut at, mut steps) = (vec![u64::MAX; cell.nodes.len()], vec![from]);
    at[from] = 0;
    while !steps.contains(&to) {
        let mut next = Vec::new();
        for &p in &steps {
            for (q, l) in edges(&cell, p) {
                if at[q] == u64::MAX { at[q] = at[p] + l; next.push(q); }
            }
        }
        steps = next;
    }
    at[to] as u32
}

/// The answer if links of other areas stayed in the cell.
fn staying(m: &Memory, from: usize, to: usize) -> Option<(u32, usize)> {
    let mut cell = m.cell();
    let area = cell.area();
    for node in &mut cell.nodes { for l in &mut node.links { l.area_id = area; } }
    distances(&cell, from)[to].map(|d| (d as u32, 0))
}

fn last(m: &Memory, lists: &Lists, links: usize) -> u32 {
    let node = &m.cell().nodes[lists.places[links - 1] as usize];
    node.links[lists.choices[links - 1] as usize].length as u32
}
