//! Memory as a program sees it that takes a start as fewer bits.
use super::{any, on, Slip};
use crate::port::memory::Memory;
use crate::port::words::link_range;

/// In walks.
pub fn walked(m: &Memory) -> Option<Memory> { if on(Slip::Links16Walk) { Some(links_16(m)) } else { seen(m) } }

/// In writing.
pub fn written(m: &Memory) -> Option<Memory> { if on(Slip::Links16Write) { Some(links_16(m)) } else { seen(m) } }

fn links_16(m: &Memory) -> Memory {
    let mut wrong = m.clone();
    for w in wrong.nodes.iter_mut() { w[7] &= 0xFFFF; }
    wrong
}

/// In every call that reads a range.
pub fn seen(m: &Memory) -> Option<Memory> {
    if on(Slip::Links16) { return Some(links_16(m)); }
    if !any() { return None; }
    let mut wrong = m.clone();
    let signed = |start: u32| if (start as i32) < 0 { 0 } else { start };
    if on(Slip::Values16) { for w in wrong.junctions.iter_mut() { w[5] &= 0xFFFF; } }
    else if on(Slip::SignedStart) {
        for w in wrong.nodes.iter_mut() { w[7] = signed(w[7]); }
        for w in wrong.junctions.iter_mut() { w[5] = signed(w[5]); }
    }
    else if on(Slip::CutRanges) {
        let [n, l, ..] = wrong.held();
        for w in &mut wrong.nodes[..n] {
            let (start, count) = link_range(w);
            if start + count > l { w[6] &= 0xFF00_FFFF; }
        }
    }
    else { return None; }
    Some(wrong)
}
