//! T-05: yards whose posts, nodes without links, stand behind some 65,536 links. A file's start has 16 bits, so nodes
//! share ranges of a short list, and each gets its copy.
use super::files::{self, File};
use super::rng::Rng;
use crate::model::sections::put_le;

const LISTED: usize = 40;

/// A sound yard with 65,534 to 65,565 links over all nodes, which is written in any order of its nodes. Its posts
/// stand first, in the middle or last, and most links lead to one.
pub fn file(r: &mut Rng) -> File {
    let mut counts = vec![31; 2_114];
    counts.push(r.pick(&[0, 1, 2, 3, 31]));
    let posts = r.within(1, 4);
    let place = r.below(4);
    for _ in 0..posts {
        let end = counts.len();
        let at = match place { 0 => 0, 1 => r.within(1, end - 1), 2 => end, _ => r.pick(&[0, end]) };
        counts.insert(at, 0);
    }
    let own = r.pick(&[0u16, 489, 1177, 0xFFFF]);
    let turn = r.pick(&[1u16, 7_919, 40_503]);
    let numbers: Vec<u16> = (0..counts.len()).map(|i| (i as u16).wrapping_mul(turn)).collect();
    let bare: Vec<u16> = numbers.iter().zip(&counts).filter(|(_, &c)| c == 0).map(|(&n, _)| n).collect();
    let mut arrays: [Vec<u8>; 5] = Default::default();
    for (&number, &count) in numbers.iter().zip(&counts) {
        let mut b = r.bytes(40);
        put_le(&mut b, 16, 2, own as u64);
        put_le(&mut b, 18, 2, number as u64);
        put_le(&mut b, 26, 2, r.below(LISTED - count + 1) as u64);
        b[37] = (count * 8) as u8 + r.u8() % 8;
        b[33] = if r.once_in(4) { r.pick(&[10u8, 14, 18]) * 8 } else { 0 };
        arrays[0].extend(b);
    }
    for _ in 0..LISTED {
        let mut b = r.bytes(8);
        put_le(&mut b, 0, 2, if r.once_in(9) { own ^ 1 } else { own } as u64);
        put_le(&mut b, 2, 2, if r.once_in(2) { r.pick(&bare) } else { r.pick(&numbers) } as u64);
        arrays[1].extend(b);
    }
    files::lay(r, arrays)
}
