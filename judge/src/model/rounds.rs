//! T-03: the round file, from its sentences, and a round followed.
use super::cell::Cell;
use super::walk::{walk, Walk};
use super::{refuse_if, room, Answer, MOST_JUNCTIONS, MOST_NODES};

/// The mark and version 1.
pub const HEAD: [u8; 5] = [b'R', b'N', b'D', 1, 0];
/// What stands before the choices, and how many choices a file holds at most.
pub const BEFORE: usize = 9;
pub const MOST_CHOICES: usize = 65_535;

#[derive(Debug, Clone, PartialEq, Eq)]
pub struct Round {
    pub start: u16,
    pub choices: Vec<u8>,
}

/// 15 when the first five bytes aren't the mark and version 1; next 16 when the file is under 9 bytes or its length
/// isn't 9 plus the count; then 7 at 8.
pub fn read(file: &[u8], lent: usize) -> Answer<Round> {
    refuse_if(!file.starts_with(&HEAD), 15, 0)?;
    refuse_if(file.len() < BEFORE, 16, 0)?;
    let number = |at: usize| u16::from_le_bytes([file[at], file[at + 1]]);
    refuse_if(file.len() != BEFORE + number(7) as usize, 16, 0)?;
    room(8, &[file.len() - BEFORE], &[lent])?;
    Ok(Round { start: number(5), choices: file[BEFORE..].to_vec() })
}

/// 16 when there are over 65,535 choices; then 7 at 8.
pub fn write(round: &Round, lent: usize) -> Answer<Vec<u8>> {
    let count = round.choices.len();
    refuse_if(count > MOST_CHOICES, 16, 0)?;
    room(8, &[BEFORE + count], &[lent])?;
    let numbers = [round.start, count as u16].map(u16::to_le_bytes);
    Ok([&HEAD[..], &numbers.concat(), &round.choices].concat())
}

/// What is asked of the struct and the lists, then 13 where no node has the number, then the walk.
pub fn follow(cell: &Cell, counts: [usize; 5], lent: [usize; 5], round: &Round, visited: usize) -> Answer<Walk> {
    refuse_if(counts[0] > MOST_NODES || counts[2] > MOST_JUNCTIONS, 14, 0)?;
    room(0, &counts[..1], &lent[..1])?;
    let start = cell.node(round.start);
    refuse_if(start.is_none(), 13, 0)?;
    room(1, &counts[1..2], &lent[1..2])?;
    let w = walk(cell, start.unwrap_or_default(), &round.choices)?;
    room(8, &[w.places.len()], &[visited])?;
    Ok(w)
}
