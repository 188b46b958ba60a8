//! Wrong walks, lookups and verdicts of soundness.
use super::{any, on, ranges, Slip};
use crate::model::cell::ISLAND;
use crate::model::walk::End;
use crate::model::{Answer, Refused};
use crate::port::lent::Filled;
use crate::port::lookups::Found;
use crate::port::memory::Memory;
use crate::port::walks::Walked;

pub fn walk(m: &Memory, start: usize, choices: &[u8], visited: &mut [u32]) -> Walked {
    let wrong = ranges::walked(m);
    let m = wrong.as_ref().unwrap_or(m);
    let old = visited.to_vec();
    let right = m.walk_right(start, choices, visited);
    let Ok((end, count)) = right.0 else { return right };
    if on(Slip::NoNodeAsNoLink) && end == End::NoNode { return (Ok((End::NoLink, count)), right.1); }
    if on(Slip::PlacePerChoice) && count <= choices.len() && choices.len() < visited.len() {
        let last = visited[count - 1];
        visited[count..choices.len() + 1].fill(last);
        return (Ok((end, choices.len() + 1)), right.1);
    }
    let early = on(Slip::FullListEnds) && end != End::Done;
    if (on(Slip::FullListRefused) || early) && count == visited.len() {
        visited.copy_from_slice(&old);
        return (Err(Refused(7, 8)), right.1);
    }
    if [Slip::HereArea, Slip::IslandsLeft, Slip::MainlandClaims].into_iter().any(on) {
        visited.copy_from_slice(&old);
        return (Ok(by_other_areas(m, start, choices, visited)), right.1);
    }
    right
}

/// A walk to which a link is own by a wrong rule.
fn by_other_areas(m: &Memory, start: usize, choices: &[u8], visited: &mut [u32]) -> (End, usize) {
    let cell = m.cell();
    let own = |here: usize, area_id: u16| {
        if on(Slip::HereArea) { return area_id == cell.nodes[here].area_id; }
        if on(Slip::IslandsLeft) { return area_id == cell.area(); }
        cell.belongs(area_id) || area_id & !ISLAND == cell.area()
    };
    let (mut here, mut count, mut end) = (start, 1, End::Done);
    visited[0] = start as u32;
    for &choice in choices {
        let Some(l) = cell.nodes[here].links.get(choice as usize) else { end = End::NoLink; break };
        if !own(here, l.area_id) { end = End::Left(l.area_id, l.node_id); break; }
        let Some(next) = cell.node(l.node_id) else { end = End::NoNode; break };
        if count == visited.len() { break; }
        (here, visited[count]) = (next, next as u32);
        count += 1;
    }
    (end, count)
}

/// What a walk may not touch, touched all the same: a node, and the entry past the visited list.
pub fn walk_touches(nodes: *const [u32; 13], count: usize, visited: &mut Filled<u32>) {
    if !any() { return; }
    if on(Slip::WalkTouches) && count > 0 { unsafe { (*nodes.cast_mut())[1] ^= 1 } }
    if on(Slip::PastTheEnd) { if let Some(x) = visited.past_the_end() { *x = 0; } }
}

pub fn lookup_touches(refs: *const [u16; 4], count: usize) {
    if on(Slip::LookupTouches) && count > 0 { unsafe { (*refs.cast_mut())[3] ^= 1 } }
}

/// `junction_of` by refs whose area is compared in full.
pub fn junction_of(m: &Memory, area_id: u16, node_id: u16) -> Found<usize> {
    let right = m.junction_of_right(area_id, node_id);
    if !on(Slip::RefsInFull) || right.0.is_err() { return right; }
    let found = m.cell().refs.into_iter().find(|x| (x.area_id, x.node_id) == (area_id, node_id));
    (Ok(found.map(|x| x.junction_id as usize).filter(|&j| j < m.counts()[2])), right.1)
}

pub fn node(m: &Memory, node_id: u16) -> Found<usize> {
    let right = m.node_right(node_id);
    if !on(Slip::FirstNode) || right.0.is_err() { return right; }
    (Ok(m.nodes[..m.held()[0]].iter().position(|w| (w[0] >> 16) as u16 == node_id)), right.1)
}

pub fn sound(m: &Memory, scratch: &mut [u32]) -> Answer<bool> {
    let empty = m.ynd[10] == 0 && m.held()[4] > 0;
    let verdict = judged(m).sound_right(scratch);
    if on(Slip::EmptyRefs) && empty { verdict.map(|_| false) } else { verdict }
}

/// The memory as the wrong check of soundness takes it.
fn judged(m: &Memory) -> Memory {
    let mut wrong = m.clone();
    let own = m.nodes.first().map_or(0, |w| w[0] & 0xFFFF);
    if on(Slip::WithoutRefs) { wrong.ynd[14] = 0; }
    if on(Slip::AnyAreas) { for w in wrong.nodes.iter_mut() { w[0] = w[0] & 0xFFFF_0000 | own; } }
    wrong
}
