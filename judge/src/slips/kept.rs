//! What a wrong renumbering or write-then-read leaves changed: the slips that the lists of calls on sound cells are
//! tried with.
use super::{on, Slip};
use crate::port::memory::Memory;

pub fn accepted(m: &mut Memory) {
    let [n, l, j, h, x] = m.held();
    if on(Slip::KeptStreet) && n > 0 { m.nodes[0][1] ^= 1; }
    if on(Slip::KeptLinkCount) && n > 0 && m.nodes[0][6] >> 16 & 255 > 0 { m.nodes[0][6] -= 1 << 16; }
    if on(Slip::KeptLength) && l > 0 { m.links[0][3] ^= 0x100; }
    if on(Slip::KeptRef) && x > 0 { m.refs[0][2] ^= 1; }
    if on(Slip::KeptJunction) && j > 0 { m.junctions[0][3] ^= 1 << 19; }
    if on(Slip::KeptValue) && h > 0 { m.heights[0] ^= 1; }
}

pub fn refused(m: &mut Memory) { if on(Slip::KeptCount) { m.ynd[1] ^= 1; } }
