//! Memory that no call left: ranges that overlap, leave holes or leave their list, counts over the lists' lengths or
//! over the limits, any NaN.
use super::rng::Rng;
use crate::port::memory::Memory;

/// The memory, and a seed for what else is lent.
pub fn any(r: &mut Rng) -> (Memory, u64) {
    let size = r.pick(&[1, 3, 6, 12, 40]);
    let lent = [0; 5].map(|_| r.below(size + 1));
    let mut m = Memory::rubbish(r, lent);
    for i in 0..5 {
        m.ynd[10 + i] = if r.once_in(12) { (lent[i] + 1) as u32 } else { r.within(lent[i] / 2, lent[i]) as u32 };
    }
    if r.once_in(16) { m.ynd[10] = r.pick(&[65_536, 65_537, u32::MAX]); }
    if r.once_in(16) { m.ynd[12] = r.pick(&[4_096, 4_097, u32::MAX]); }
    if r.once_in(16) { m.ynd[14] = r.pick(&[65_535, 65_536, u32::MAX]); }
    let (own, sound) = (r.u16(), r.once_in(2));
    let nodes = lent[0];
    let name = |r: &mut Rng| {
        let other = r.pick(&[own ^ 1, own ^ 1024, own ^ 3072]);
        [if r.once_in(if sound { 9 } else { 4 }) { other } else { own }, r.below(nodes + 1) as u16]
    };
    for i in 0..nodes {
        let [area, number] = if sound { [own, i as u16] } else { name(r) };
        m.nodes[i][0] = area as u32 | (number as u32) << 16;
        if r.once_in(2) {
            m.nodes[i][5] = m.nodes[i][5] & 0xFFFF_00FF | (r.pick(&[80, 112, 144, 0]) + r.below(8) as u32) << 8;
        }
        let count = r.pick(&[0, 1, 2, 4, 31, 32, 255]);
        m.nodes[i][6] = m.nodes[i][6] & 0xFF00_FFFF | count << 16;
        m.nodes[i][7] = if r.once_in(9) { r.u32() } else { r.below(lent[1] + 2) as u32 };
    }
    for w in m.links.iter_mut().chain(m.refs.iter_mut()) {
        let [area, number] = name(r);
        (w[0], w[1]) = (area, number);
    }
    for w in m.refs.iter_mut() { w[2] = r.below(lent[2] + 1) as u16; }
    for w in m.junctions.iter_mut() {
        w[4] = w[4] & 0xFFFF_0000 | r.below(4) as u32 | (r.below(4) as u32) << 8;
        w[5] = if r.once_in(9) { r.u32() } else { r.below(lent[3] + 2) as u32 };
    }
    (m, r.next())
}
