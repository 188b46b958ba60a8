//! Wrong writings.
use super::{kept, on, ranges, reading, Slip};
use crate::model::{write, Answer, Refused};
use crate::port::memory::Memory;
use crate::port::words::{link_range, value_range};

pub fn write(m: &Memory, section: &mut [u8]) -> Answer<usize> {
    let wrong = seen(m);
    let m = wrong.as_ref().unwrap_or(m);
    let old = section.to_vec();
    let answer = m.write_right(section);
    match answer {
        Ok(length) => written(m, &old, section, length),
        Err(refused) => refusing(m, refused),
    }
}

pub fn write_then_read(m: &mut Memory, section: &mut [u8]) -> Answer<usize> {
    let before = m.clone();
    let answer = m.write_then_read_right(section);
    if let Ok(length) = answer {
        if on(Slip::NotReadBack) { *m = before; }
        if on(Slip::KeptSection) && length < section.len() { section[length] ^= 1; }
        kept::accepted(m);
    } else {
        kept::refused(m);
    }
    answer
}

/// The memory as the wrong program takes it.
fn seen(m: &Memory) -> Option<Memory> {
    let mut wrong = ranges::written(m).unwrap_or_else(|| m.clone());
    let [n, _, j, _, _] = wrong.held();
    reading::exchange(&mut wrong.junctions[..j]);
    if on(Slip::UnusedWiped) { for w in &mut wrong.nodes[..n] { w[8..].fill(0); } }
    if on(Slip::RawFloored) {
        let floored = |w: u32, scale: f32| ((f32::from_bits(w) * scale).floor() / scale).to_bits();
        for w in &mut wrong.nodes[..n] {
            for (i, scale) in [(2, 4.0), (3, 4.0), (4, 32.0)] { w[i] = floored(w[i], scale); }
        }
    }
    Some(wrong)
}

fn written(m: &Memory, old: &[u8], section: &mut [u8], length: usize) -> Answer<usize> {
    let counts = m.cell().counts();
    let (at, _) = write::layout(counts);
    if on(Slip::LaterBytes) { section[length..].fill(0); }
    if on(Slip::GapsKept) {
        let mut end = 1_152;
        for (i, width) in [(4, 8), (3, 1), (2, 12), (1, 8), (0, 40)] {
            if counts[i] == 0 { continue; }
            section[end..at[i]].copy_from_slice(&old[end..at[i]]);
            end = at[i] + width * counts[i];
        }
    }
    if on(Slip::RootCounts) { for i in 28..32 { section.swap(i, i + 4); } }
    if on(Slip::Address16) { section[18] = 0; }
    if on(Slip::LinkStart15) {
        for b in section[at[0]..at[0] + 40 * counts[0]].chunks_mut(40) {
            let start = u16::from_le_bytes([b[26], b[27]]).min(32_767);
            b[26..28].copy_from_slice(&start.to_le_bytes());
        }
    }
    let posts = [Slip::NineForPosts, Slip::PostStart, Slip::PostsEndStarts].into_iter().find(|&s| on(s));
    if let Some(place) = posts.and_then(|slip| starts(m, slip, &mut section[at[0]..])) {
        section.copy_from_slice(old);
        return Err(Refused(9, place));
    }
    if on(Slip::TenAt65535) {
        let mut before = 0;
        for (place, w) in m.junctions[..counts[2]].iter().enumerate() {
            if before >= 65_535 { section.copy_from_slice(old); return Err(Refused(10, place)); }
            before += value_range(w).1;
        }
    }
    Ok(length)
}

/// Wrong starts of the nodes written here; the place that is refused with 9.
fn starts(m: &Memory, slip: Slip, nodes: &mut [u8]) -> Option<usize> {
    let (mut before, mut from) = (0, 0);
    for (place, n) in m.cell().nodes.iter().enumerate() {
        let post = n.links.is_empty();
        if post { from = before; }
        let start = match slip {
            Slip::NineForPosts if post && before > 65_535 => return Some(place),
            Slip::PostStart => before,
            Slip::PostsEndStarts if !post => before - from,
            _ if post => 0,
            _ => before,
        };
        nodes[40 * place + 26..][..2].copy_from_slice(&(start as u16).to_le_bytes());
        before += n.links.len();
    }
    None
}

fn refusing(m: &Memory, refused: Refused) -> Answer<usize> {
    let length = write::layout(m.cell().counts()).1;
    match refused {
        Refused(9, place) if on(Slip::NineBehindPosts) && link_range(&m.nodes[place - 1]).1 == 0 => Ok(length),
        Refused(11, _) if on(Slip::ElevenLate) => Ok(length),
        other => Err(other),
    }
}
