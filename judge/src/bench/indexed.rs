//! ns a link: a walk in a cell whose numbers are turned round, without and with an index of the numbers.
use super::cells::{cell, circuit};
use super::rounds::followed;
use super::{both_in, timed, Goal, Row, Wanted};
use crate::port::memory::Memory;

const CHOICES: usize = 1_000;
const SIZES: [usize; 3] = [1_000, 10_000, 60_000];
const PLAIN: &str = "a walk's link, numbers turned round";
const INDEXED: &str = "a walk's link by an index, numbers turned round";

pub const NOTE: &str = "Numbers turned round: a walk of 1,000 choices in random order, where the first node has the \
last number and so on. The Rust\nis the round in plain Rust, which looks a number up as the Rust's `node` does; by an \
index: the index is made in the call.";

/// The first node has the last number, and so on; links name the nodes that they named.
fn turned(size: usize) -> Memory {
    let mut memory = circuit(&cell(size), false);
    let last = size as u16 - 1;
    for w in memory.nodes.iter_mut() { w[0] = w[0] & 0xFFFF | u32::from(last - (w[0] >> 16) as u16) << 16; }
    for l in memory.links.iter_mut() { l[1] = last - l[1]; }
    memory
}

pub fn rows(wanted: &Wanted) -> Vec<Row> {
    let mut out = Vec::new();
    for call in [PLAIN, INDEXED] {
        if !wanted.has(call) { continue; }
        for size in SIZES {
            let memory = turned(size);
            let (choices, mut visited, mut scratch) = (vec![0; CHOICES], vec![0; CHOICES + 1], vec![0; 65_536]);
            let mut plain = visited.clone();
            let last = size as u16 - 1;
            let (rust, port) = both_in(1, CHOICES, || timed(|| followed(&memory, last, &choices, &mut plain)),
                || timed(|| if call == PLAIN { memory.walk(0, &choices, &mut visited) }
                    else { memory.walk_indexed(0, &choices, &mut visited, &mut scratch) }));
            assert_eq!(visited, plain, "the same places");
            out.push(Row { call, size, rust: Some(rust), floor: None, port: Some(port), goal: Goal::None });
        }
    }
    out
}
