//! T-14 from its sentences: which bytes of a system section and a graphics section count.
use super::records::{link_range, value_range, ADDRESS_AT, COUNT_AT, COUNT_WIDTH, ROOT, WIDTHS};
use super::sections::{le, part, GRAPHICS};

/// An array that lies inside its section: which of the two that is, where it starts, its bytes. A bad or empty one has
/// none.
#[derive(Clone, Copy)]
pub struct Array<'a> { pub section: usize, pub at: usize, pub bytes: &'a [u8] }

pub fn arrays<'a>(system: &'a [u8], graphics: &'a [u8]) -> [Array<'a>; 5] {
    [0, 1, 2, 3, 4].map(|i| {
        let address = if system.len() < ROOT { 0 } else { le(system, ADDRESS_AT[i], 8) };
        let count = if system.len() < ROOT { 0 } else { le(system, COUNT_AT[i], COUNT_WIDTH[i]) };
        let bytes = part(system, graphics, address, count, WIDTHS[i]).unwrap_or(&[]);
        let section = (address & 0xF000_0000 == GRAPHICS) as usize;
        Array { section, at: (address & 0x0FFF_FFFF) as usize, bytes }
    })
}

/// Of each byte of both, whether two pairs have to agree on it: "the root apart from offsets 4 to 15, 88 and 89", and
/// "each array that lies inside its section. Of links only those in some node's range need agree, of heightmap bytes
/// only those in some junction's."
pub fn counting(system: &[u8], graphics: &[u8]) -> [Vec<bool>; 2] {
    let mut counts = [system, graphics].map(|s| vec![false; s.len()]);
    for k in 0..ROOT.min(system.len()) { counts[0][k] = !matches!(k, 4..=15 | 88 | 89); }
    let all = arrays(system, graphics);
    let whole = |i: usize| vec![(0, all[i].bytes.len())];
    let links = all[0].bytes.chunks(40).map(link_range).map(|(start, n)| (8 * start, 8 * n)).collect();
    let values = all[2].bytes.chunks(12).map(value_range).collect();
    for (array, ranges) in all.iter().zip([whole(0), links, whole(2), values, whole(4)]) {
        for (start, n) in ranges {
            for k in start..(start + n).min(array.bytes.len()) { counts[array.section][array.at + k] = true; }
        }
    }
    counts
}
