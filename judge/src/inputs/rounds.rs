//! Round files and rounds for T-03, around its edges.
use super::rng::Rng;
use crate::model::cell::{Cell, Link, Node};
use crate::model::rounds::{write, Round, BEFORE, HEAD, MOST_CHOICES};
use crate::port::memory::Memory;

/// The letters of short files: the mark's, both bytes of version 1, another version, a large byte.
const LETTERS: [u8; 7] = [b'R', b'N', b'D', 0, 1, 2, 255];
const MOST_LETTERS: u32 = 6;

/// How many short files there are: alone, and as many behind the mark and version 1.
pub fn short_files() -> u64 { 2 * (0..=MOST_LETTERS).map(|n| 7u64.pow(n)).sum::<u64>() }

pub fn short_file(i: u64) -> Vec<u8> {
    let mut file = if i % 2 == 0 { Vec::new() } else { HEAD.to_vec() };
    let (mut i, mut n) = (i / 2, 0);
    while i >= 7u64.pow(n) { i -= 7u64.pow(n); n += 1; }
    for _ in 0..n { file.push(LETTERS[(i % 7) as usize]); i /= 7; }
    file
}

/// A round whose file has at most some dozen bytes, now and then some hundred.
pub fn round(r: &mut Rng) -> Round {
    let n = if r.once_in(20) { r.within(250, 300) } else { r.below(20) };
    let start = r.pick(&[0, 1, 255, 256, 65_535, 7]);
    Round { start: if r.once_in(2) { r.u16() } else { start }, choices: r.bytes(n) }
}

/// The same with a choice less.
pub fn smaller(round: &Round) -> Vec<Round> {
    let fewer = |n: usize| Round { start: round.start, choices: round.choices[..n].to_vec() };
    (0..round.choices.len()).rev().take(1).map(fewer).collect()
}

/// Each copy of a good file that is wrong in one byte, or has another length.
pub fn damaged(file: &[u8], r: &mut Rng) -> Vec<Vec<u8>> {
    let mut out = Vec::new();
    for i in 0..file.len() {
        let mut copy = file.to_vec();
        copy[i] ^= r.pick(&[1, 2, 32, 128, 255]);
        out.push(copy);
    }
    for n in (0..file.len()).filter(|n| *n < 60 || n + 3 > file.len()) { out.push(file[..n].to_vec()); }
    for more in 1..4 { out.push([file, &r.bytes(more)].concat()); }
    out
}

/// Rounds at the limit of the count.
pub fn most() -> Vec<(String, Round)> {
    let of = |n: usize| Round { start: 513, choices: (0..n).map(|i| (i % 251) as u8).collect() };
    (MOST_CHOICES - 1..=MOST_CHOICES + 2).map(|n| (format!("{n} choices"), of(n))).collect()
}

/// A round with the cell in which it is followed, and entries for the places.
#[derive(Clone, Debug)]
pub struct Trip {
    pub memory: Memory,
    pub round: Round,
}

pub fn trip(r: &mut Rng) -> Trip {
    let n = r.pick(&[0, 1, 2, 3, 5, 9]);
    let wide = r.pick(&[4, 9, 9, 65_536]);
    let number = |r: &mut Rng, i: usize| if r.once_in(3) { i as u16 } else { r.below(wide) as u16 };
    let mut nodes: Vec<Node> = (0..n).map(|i| Node { area_id: 489, node_id: number(r, i), ..Node::default() }).collect();
    let numbers: Vec<u16> = nodes.iter().map(|x| x.node_id).collect();
    for node in &mut nodes { for _ in 0..r.below(4) { node.links.push(link(r, &numbers)); } }
    let cell = Cell { nodes, ..Cell::default() };
    let mut lent = cell.counts();
    lent[0] += r.below(3);
    lent[1] += r.below(3);
    let mut memory = Memory::of(r, &cell, lent);
    if r.once_in(8) { by_hand(&mut memory, r); }
    let start = if numbers.is_empty() || r.once_in(4) { number(r, 0) } else { r.pick(&numbers) };
    let choices = (0..r.below(12)).map(|_| r.pick(&[0, 0, 0, 0, 1, 1, 2, 3, 255])).collect();
    Trip { memory, round: Round { start, choices } }
}

fn link(r: &mut Rng, numbers: &[u16]) -> Link {
    let node_id = if r.once_in(12) { r.u16() } else { r.pick(numbers) };
    Link { area_id: if r.once_in(12) { 490 } else { 489 }, node_id, ..Link::default() }
}

/// A struct that no call returned: counts over their lists or over a limit.
fn by_hand(m: &mut Memory, r: &mut Rng) {
    match r.below(4) {
        0 => m.ynd[10] = r.pick(&[m.nodes.len() as u32 + 1, 65_536, 65_537, u32::MAX]),
        1 => m.ynd[11] = r.pick(&[m.links.len() as u32 + 1, u32::MAX]),
        2 => m.ynd[12] = r.pick(&[4_096, 4_097, u32::MAX]),
        _ => for w in m.nodes.iter_mut() { w[7] = r.below(9) as u32; },
    }
}

/// The same with a choice less.
pub fn shorter(t: &Trip) -> Vec<Trip> {
    smaller(&t.round).into_iter().map(|round| Trip { memory: t.memory.clone(), round }).collect()
}

/// The bytes of a round that the writer accepts.
pub fn file_of(round: &Round) -> Vec<u8> { write(round, BEFORE + MOST_CHOICES).expect("at most 65,535 choices") }
