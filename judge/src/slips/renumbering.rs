//! Wrong renumberings.
use super::{kept, on, Slip};
use crate::model::cell::belongs;
use crate::model::Answer;
use crate::port::lent::Lent;
use crate::port::memory::Memory;

pub fn renumber(m: &mut Memory, scratch: &mut [u32], places: &mut [u32]) -> Answer<()> {
    let before = m.clone();
    taken(m);
    let answer = m.renumber_right(scratch, places);
    if answer.is_ok() { accepted(&before, m, places) } else { refused(&before, m, scratch) }
    answer
}

/// A list that the call was lent for reading only, written all the same.
pub fn touches(heights: &mut Lent<u8>) {
    if on(Slip::HeightsTouched) { if let Some(v) = heights.first_mut() { *v ^= 1; } }
}

fn own(m: &Memory) -> u16 { m.nodes.first().map_or(0, |w| w[0] as u16) }

/// The memory as the wrong program takes it.
fn taken(m: &mut Memory) {
    let ([n, l, ..], own) = (m.held(), own(m));
    if on(Slip::Ped18) { for w in &mut m.nodes[..n] { if w[5] >> 11 & 31 == 18 { w[5] &= 0xFFFF_07FF; } } }
    if on(Slip::AreaLowBits) { for w in &mut m.links[..l] { if w[0] % 1024 == own % 1024 { w[0] = own; } } }
}

fn accepted(before: &Memory, m: &mut Memory, places: &mut [u32]) {
    let [n, l, _, _, x] = before.held();
    if on(Slip::Ped18) { for old in 0..n { m.nodes[places[old] as usize][5] = before.nodes[old][5]; } }
    if on(Slip::AreaLowBits) { for i in 0..l { m.links[i][0] = before.links[i][0]; } }
    if on(Slip::UnusedStay) { for i in 0..n { m.nodes[i][8..].copy_from_slice(&before.nodes[i][8..]); } }
    if on(Slip::RefsStay) { m.refs = before.refs.clone(); }
    if on(Slip::FirstOfEqual) {
        let mut first = vec![None; 65_536];
        for old in (0..n).rev() { first[(before.nodes[old][0] >> 16) as usize] = Some(places[old] as u16); }
        let own = own(before);
        let named = |w: &[u16; 4]| if belongs(own, w[0]) { first[w[1] as usize].unwrap_or(w[1]) } else { w[1] };
        for i in 0..l { m.links[i][1] = named(&before.links[i]); }
        for i in 0..x { m.refs[i][1] = named(&before.refs[i]); }
    }
    if on(Slip::OwnAreaStored) {
        let own = own(before);
        for w in m.links[..l].iter_mut().filter(|w| belongs(own, w[0])) { w[0] = own; }
    }
    if on(Slip::PlacesTurned) {
        let told = places[..n].to_vec();
        for (old, &new) in told.iter().enumerate() { places[new as usize] = old as u32; }
    }
    if on(Slip::Numbers15) { for w in &mut m.nodes[..n] { w[0] = w[0] & 0xFFFF | (w[0] >> 16).min(32_767) << 16; } }
    if on(Slip::KeptPlace) { if let Some(p) = places.first_mut() { *p ^= 1; } }
    kept::accepted(m);
}

fn refused(before: &Memory, m: &mut Memory, scratch: &mut [u32]) {
    *m = before.clone();
    if on(Slip::RefusedCounts) { (m.ynd[1], m.ynd[2]) = (m.ynd[10], 0); }
    if on(Slip::ScratchTouched) { if let Some(x) = scratch.first_mut() { *x = !*x; } }
    kept::refused(m);
}
