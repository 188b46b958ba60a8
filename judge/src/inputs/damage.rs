//! Damaged copies of valid files: fields replaced by boundary values, sections cut, wild addresses.
use super::files::File;
use super::rng::Rng;
use crate::model::records::{ADDRESS_AT, COUNT_AT, COUNT_WIDTH, ROOT, WIDTHS};
use crate::model::sections::{le, put_le, GRAPHICS, SYSTEM};

pub fn damaged(r: &mut Rng, mut file: File) -> File {
    for _ in 0..r.within(1, 3) {
        match r.below(8) {
            0 | 1 => wild_address(r, &mut file),
            2 | 3 => wild_count(r, &mut file),
            4 => cut(r, &mut file),
            5 => flip(r, &mut file),
            6 => wild_range(r, &mut file),
            _ => shifted(r, &mut file),
        }
    }
    file
}

fn wild_address(r: &mut Rng, file: &mut File) {
    if file.system.len() < ROOT { return; }
    let at = ADDRESS_AT[r.below(5)];
    let old = le(&file.system, at, 8);
    let (s, g) = (file.system.len() as u64, file.graphics.len() as u64);
    let offset = old & 0x0FFF_FFFF;
    let any = r.next();
    let new = r.pick(&[
        0, 1, SYSTEM, GRAPHICS, 0x7000_0000, 0x7000_0000 + offset, 0x4000_0000 + offset, 0xD000_0000 + offset,
        0x1000_0000 + offset,
        SYSTEM + offset, GRAPHICS + offset, old ^ (1 << 32), old | 1 << 63, old ^ 0x1000_0000, SYSTEM + s,
        SYSTEM + s - 1, SYSTEM + s + 1,
        GRAPHICS + g, GRAPHICS + g + 1, SYSTEM + 0x0FFF_FFFF, u32::MAX as u64, u64::MAX, offset, any, any >> 32,
    ]);
    put_le(&mut file.system, at, 8, new);
}

fn wild_count(r: &mut Rng, file: &mut File) {
    if file.system.len() < ROOT { return; }
    let i = r.below(5);
    let old = le(&file.system, COUNT_AT[i], COUNT_WIDTH[i]);
    let fits = file.system.len() as u64 / WIDTHS[i];
    let any = r.next();
    let new = r.pick(&[
        0, 1, old.wrapping_sub(1), old + 1, old * 2, fits, fits + 1, 255, 4096, 4097, 65_535, 65_536, 65_537,
        0x0666_6667, 0x1000_0000,
        0x1999_999A, 0x2000_0000, 0x7FFF_FFFF, 0x8000_0000, 0xFFFF_FFFF, any,
    ]);
    put_le(&mut file.system, COUNT_AT[i], COUNT_WIDTH[i], new);
}

fn cut(r: &mut Rng, file: &mut File) {
    let which = if r.once_in(3) { &mut file.graphics } else { &mut file.system };
    let n = which.len();
    let any = r.below(n + 1);
    let to = r.pick(&[0, 1, 111, 112, 113, n / 2, n.saturating_sub(1), n.saturating_sub(8), any]);
    which.truncate(to);
}

fn flip(r: &mut Rng, file: &mut File) {
    let which = if r.once_in(4) { &mut file.graphics } else { &mut file.system };
    if which.is_empty() { return; }
    let at = r.below(which.len());
    let (any, bit) = (r.u8(), r.below(8));
    which[at] = r.pick(&[0, 1, 0x7F, 0x80, 0xFF, which[at] ^ 1 << bit, any]);
}

/// A node's link range or a junction's heightmap range moved to the edge of its list, or over it.
fn wild_range(r: &mut Rng, file: &mut File) {
    if file.system.len() < ROOT { return; }
    let (records, list, width) = if r.once_in(2) { (0, 1, 40) } else { (2, 3, 12) };
    let address = le(&file.system, ADDRESS_AT[records], 8);
    let count = le(&file.system, COUNT_AT[records], 4) as usize;
    let length = le(&file.system, COUNT_AT[list], 4);
    let section = match address & 0xF000_0000 {
        SYSTEM => &mut file.system, GRAPHICS => &mut file.graphics, _ => return
    };
    let at = (address & 0x0FFF_FFFF) as usize + width * r.below(count.min(1000));
    if address >> 32 != 0 || at + width > section.len() { return; }
    let b = &mut section[at..at + width];
    let start_at = if width == 40 { 26 } else { 8 };
    if r.once_in(2) {
        put_le(b, start_at, 2, r.pick(&[0, length.wrapping_sub(1), length, length + 1, 65_535]));
    } else if width == 40 {
        let any = r.u8();
        b[37] = r.pick(&[0, 7, 8, 0xF8, 0xFF, any]);
    } else {
        (b[10], b[11]) = (r.pick(&[0, 1, 16, 255]), r.pick(&[0, 1, 16, 255]));
    }
}

/// Sections changed about, or a byte put in front.
fn shifted(r: &mut Rng, file: &mut File) {
    match r.below(4) {
        0 => std::mem::swap(&mut file.system, &mut file.graphics),
        1 => file.graphics.insert(0, 0),
        2 => { let at = r.below(file.system.len() + 1); file.system.insert(at, r.u8()); }
        _ => { let n = r.below(300); file.system = r.bytes(n); }
    }
}
