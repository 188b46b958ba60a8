//! Wrong readers and writers of round files, and rounds that start elsewhere.
use super::{on, Slip};
use crate::model::rounds::{BEFORE, HEAD};
use crate::model::{Answer, Refused};
use crate::port::memory::Memory;
use crate::port::rounds::read_right;
use crate::port::walks::Walked;

type Read = (Answer<(u16, usize)>, bool);

/// `old` is what the choices' memory held before.
pub fn read(file: &[u8], old: &[u8], choices: &mut [u8], right: Read) -> Read {
    let count = || u16::from_le_bytes([file[7], file[8]]) as usize;
    let long = file.len() >= BEFORE;
    match () {
        _ if on(Slip::LengthFirst) && right.0 == Err(Refused(15, 0)) && !long => (Err(Refused(16, 0)), right.1),
        _ if on(Slip::CountFromLength) && right.0 == Err(Refused(16, 0)) && long => {
            let mut counted = file.to_vec();
            counted[7..9].copy_from_slice(&((file.len() - BEFORE) as u16).to_le_bytes());
            read_right(&counted, choices)
        }
        _ if on(Slip::AnyVersion) && file.len() >= HEAD.len() && file[..4] == HEAD[..4] => {
            let mut one = file.to_vec();
            one[4] = 0;
            choices.copy_from_slice(old);
            read_right(&one, choices)
        }
        _ if on(Slip::SevenFirst) && right.0 == Err(Refused(16, 0)) && long && choices.len() < count() => {
            (Err(Refused(7, 8)), right.1)
        }
        _ if on(Slip::HighByteFirst) => (right.0.map(|(s, n)| (s.swap_bytes(), n)), right.1),
        _ if on(Slip::WholeMemory) => {
            if let Ok((_, n)) = right.0 { choices[n..].fill(0); }
            right
        }
        _ => right,
    }
}

pub fn write(start: u16, file: &mut [u8], right: (Answer<usize>, bool)) -> (Answer<usize>, bool) {
    if !on(Slip::MostWritten) || right.0 != Err(Refused(16, 0)) || file.len() < BEFORE { return right; }
    file[..5].copy_from_slice(&HEAD);
    file[5..7].copy_from_slice(&start.to_le_bytes());
    file[7..9].fill(0);
    (Ok(BEFORE), right.1)
}

pub fn follow(m: &Memory, start: u16, choices: &[u8], visited: &mut [u32]) -> Walked {
    let right = || m.follow_right(start, choices, &mut visited.to_vec()).0;
    if on(Slip::StartAsPlace) { return m.walk_right(start as usize, choices, visited); }
    if on(Slip::FirstWithNumber) && right().is_ok() {
        let first = m.nodes.iter().position(|w| (w[0] >> 16) as u16 == start).expect("a node has the number");
        return m.walk_right(first, choices, visited);
    }
    if on(Slip::ThirteenLast) && visited.is_empty() && right() == Err(Refused(13, 0)) {
        return (Err(Refused(7, 8)), true);
    }
    m.follow_right(start, choices, visited)
}
