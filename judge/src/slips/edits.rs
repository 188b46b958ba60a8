//! Wrong edits.
use super::{any, on, Slip};
use crate::model::{steps, Answer, Refused};
use crate::port::memory::Memory;
use crate::port::words::link_range;

pub fn link_added(before: Option<Memory>, m: &mut Memory, at: usize, answer: Answer<()>) -> Answer<()> {
    let Some(before) = before else { return answer };
    if answer.is_err() {
        if on(Slip::RefusedEdit) { if let Some(w) = m.links.first_mut() { w[3] ^= 1; } }
        return answer;
    }
    let (start, count) = link_range(&m.nodes[at]);
    if on(Slip::LinkFirst) { m.links[start..start + count].rotate_right(1); }
    if on(Slip::FarAdd) { for w in m.nodes.iter_mut().skip(at + 1) { w[7] &= 0xFFFF; } }
    if on(Slip::Limit254) && count > 254 {
        *m = before;
        return Err(Refused(14, 0));
    }
    answer
}

pub fn junction_added(m: &Memory, answer: Answer<()>) -> Answer<()> {
    let full = m.junctions.len() <= m.counts()[2];
    if on(Slip::SevenBeforeTwelve) && answer == Err(Refused(12, 0)) && full { return Err(Refused(7, 2)); }
    answer
}

pub fn node_put(m: &mut Memory, at: usize, given: &[u32; 13], answer: Answer<()>) -> Answer<()> {
    if !any() || answer.is_err() { return answer; }
    if on(Slip::PutTakesRange) { m.nodes[at][7] = given[7]; }
    if on(Slip::PutInSteps) {
        let [x, y, z] = steps::stored([given[2], given[3], given[4]]);
        m.nodes[at][2..5].copy_from_slice(&[x, y, z]);
    }
    answer
}

/// `put_links` with fewer links than before leaves the node's count as it was.
pub fn links_appended(m: &mut Memory, old: &Memory, at: usize, number: u32) {
    if !on(Slip::LinksAppended) || number != 0 { return; }
    if m.nodes[at][6] >> 16 < old.nodes[at][6] >> 16 { m.nodes[at][6] = old.nodes[at][6]; }
}

/// `put_heightmap` stores the width and the values alone.
pub fn old_height(m: &mut Memory, old: &Memory, at: usize, number: u32) {
    if !on(Slip::OldHeight) || number != 0 { return; }
    m.junctions[at][4] = m.junctions[at][4] & 0xFF | old.junctions[at][4] & 0xFF00;
}
