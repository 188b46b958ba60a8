//! The vectors as a wrong program takes them. A program that exchanges two fields of a junction when it reads and
//! again when it writes does with a file what the right one does with the exchanged file: so the right program is
//! given that one.
use super::{any, on, Slip};
use crate::model::records::ADDRESS_AT;
use crate::model::sections::{le, SYSTEM};

/// The kind of record whose answer has each junction's fields, and where its sections start.
const JUNCTIONS: u8 = 15;

pub fn taken(mut file: Vec<u8>) -> Vec<u8> {
    if !any() { return file; }
    let mut at = 0;
    while at + 3 <= file.len() {
        let length = le(&file, at + 1, 2) as usize;
        if file[at] == JUNCTIONS { exchanged(&mut file[at + 3..at + 3 + length]); }
        at += 3 + length;
    }
    file
}

/// 0 length of the section, 2 how many junctions; 4 the section.
fn exchanged(body: &mut [u8]) {
    let count = le(body, 2, 2) as usize;
    let from = 4 + (le(body, 4 + ADDRESS_AT[2], 8) - SYSTEM) as usize;
    for b in body[from..from + 12 * count].chunks_mut(12) {
        let mut swap = |i: usize, k: usize, width: usize| for n in 0..width { b.swap(i + n, k + n); };
        if on(Slip::VectorHeights) { swap(0, 6, 2); }
        if on(Slip::VectorCorner) { swap(2, 4, 2); }
        if on(Slip::VectorSize) { swap(10, 11, 1); }
    }
}
