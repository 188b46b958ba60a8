//! ns a link: a round followed, beside a walk in plain Rust over the same memory.
use super::cells::{cell, circuit};
use super::{both, timed, Goal, Row, Wanted, SIZES};
use crate::model::walk::End;
use crate::port::memory::Memory;

pub const NOTE: &str = "a round's link: a round through all nodes of a renumbered cell; near is within 16 places. \
The Rust is a walk in plain Rust over\nthe same memory, with the tests that section 5 asks for: start and links by \
number, the choice against the node's links and\nthe list's, the area against the cell's.";

fn found(nodes: &[[u32; 13]], number: u16) -> Option<usize> {
    let has = |w: &[u32; 13]| (w[0] >> 16) as u16 == number;
    if nodes.get(number as usize).is_some_and(has) { return Some(number as usize); }
    nodes.iter().position(has)
}

/// None where no node has the number, or the list for the places is too short.
#[inline(never)]
pub(super) fn followed(m: &Memory, start: u16, choices: &[u8], visited: &mut [u32]) -> Option<(End, usize)> {
    let (nodes, links): (&[[u32; 13]], &[[u16; 4]]) = (&m.nodes[..m.ynd[10] as usize], &m.links[..m.ynd[11] as usize]);
    let own = nodes.first()?[0] as u16;
    let mut p = found(nodes, start)?;
    for (i, &choice) in choices.iter().enumerate() {
        *visited.get_mut(i)? = p as u32;
        let (w, k) = (&nodes[p], choice as usize);
        if k >= (w[6] >> 16 & 255) as usize { return Some((End::NoLink, i + 1)); }
        let Some(l) = links.get(w[7] as usize + k) else { return Some((End::NoLink, i + 1)) };
        if l[0] != own { return Some((End::Left(l[0], l[1]), i + 1)); }
        let Some(q) = found(nodes, l[1]) else { return Some((End::NoNode, i + 1)) };
        p = q;
    }
    *visited.get_mut(choices.len())? = p as u32;
    Some((End::Done, choices.len() + 1))
}

pub fn rows(wanted: &Wanted) -> Vec<Row> {
    let mut out = Vec::new();
    for (call, near) in [("a round's link, to a near node", true), ("a round's link, in random order", false)] {
        if !wanted.has(call) { continue; }
        for size in SIZES {
            let memory = circuit(&cell(size), near);
            let (choices, mut visited) = (vec![0; size], vec![0; size + 1]);
            let mut plain = visited.clone();
            let (rust, port) = both(size, || timed(|| followed(&memory, 0, &choices, &mut plain)),
                || timed(|| memory.follow(0, &choices, &mut visited)));
            assert_eq!((visited[size], &visited), (0, &plain), "the same places, all of them");
            out.push(Row { call, size, rust: Some(rust), floor: None, port: Some(port), goal: Goal::Ratio(1.1) });
        }
    }
    out
}
