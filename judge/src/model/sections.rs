//! Section 1: addresses and the two sections.

pub const SYSTEM: u64 = 0x5000_0000;
pub const GRAPHICS: u64 = 0x6000_0000;

/// The part of whichever section the address names, `count` records of `width` bytes; none if bad. An array with
/// address 0 or count 0 is empty before any other check.
pub fn part<'a>(system: &'a [u8], graphics: &'a [u8], address: u64, count: u64, width: u64) -> Option<&'a [u8]> {
    if address == 0 || count == 0 { return Some(&[]); }
    if address >> 32 != 0 { return None; }
    let section = match address & 0xF000_0000 { SYSTEM => system, GRAPHICS => graphics, _ => return None };
    let start = address & 0x0FFF_FFFF;
    let end = start + count * width;
    if end > section.len() as u64 { return None; }
    Some(&section[start as usize..end as usize])
}

pub fn le(bytes: &[u8], at: usize, width: usize) -> u64 {
    (0..width).map(|i| (bytes[at + i] as u64) << (8 * i)).sum()
}

pub fn put_le(bytes: &mut [u8], at: usize, width: usize, value: u64) {
    for i in 0..width { bytes[at + i] = (value >> (8 * i)) as u8; }
}
