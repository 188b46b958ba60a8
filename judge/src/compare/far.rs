//! Ranges that start past 65,535: every call on such memory, and edits of it.
use super::seen::{self, Met};
use super::{causes, cells, lookups, memory, same, scripts, Verdict, MODEL, PORT, RUST};
use crate::inputs::rng::Rng;
use crate::inputs::scripts::Op;
use crate::model::cell::Cell;
use crate::port::memory::Memory;
use crate::port::words::{link_range, link_words, value_range};
use crate::rust;

pub fn check((memory, aux): &(Memory, u64)) -> Verdict {
    let [n, l, j, h, _] = memory.held();
    let far = |(start, count): (usize, usize), pool: usize| start > 65_535 && start < pool && count > 0;
    for w in &memory.nodes[..n] {
        seen::met_if(far(link_range(w), l), Met::FarLinks);
        seen::met_if(w[7] >> 31 == 1, Met::UpperHalf);
    }
    for w in &memory.junctions[..j] {
        seen::met_if(far(value_range(w), h), Met::FarValues);
        seen::met_if(w[5] >> 31 == 1, Met::UpperHalf);
    }
    let r = &mut Rng::new(*aux);
    for at in 0..n.max(j) { for k in 0..3 { lookups::entries(memory, at, k)?; } }
    for at in 0..n { super::shown::showing(memory, &memory.cell(), at, r.below(4) as u8)?; }
    stores(memory, r)?;
    cells::on_port(memory, r)
}

/// A link and a value stored where the range stands, cut to its pool.
fn stores(memory: &Memory, r: &mut Rng) -> Verdict {
    let (at, k) = (r.below(8), r.below(4));
    let link = crate::inputs::scripts::link(r, &memory.cell());
    let (mut after, mut expected) = (memory.clone(), memory.clone());
    let place = causes::link(memory, at, k);
    if let Ok(i) = place { expected.links[i] = link_words(&link); }
    same("put_link", PORT, &after.put_link(at, k, &link), MODEL, &place.map(|_| ()))?;
    same("put_link: every list", PORT, &after, MODEL, &expected)?;
    let place = causes::height(memory, at, k);
    if let Ok(i) = place { expected.heights[i] = 0x5A; }
    same("put_height", PORT, &after.put_height(at, k, 0x5A), MODEL, &place.map(|_| ()))?;
    same("put_height: every list", PORT, &after, MODEL, &expected)
}

/// Edits on a cell whose links and values pass 65,535, against model and Rust.
pub fn edits((first, ops, aux): &(Cell, Vec<Op>, u64)) -> Verdict {
    let r = &mut Rng::new(*aux);
    let lent = first.counts().map(|n| n + r.below(12));
    let mut memory = Memory::of(r, first, lent);
    let (mut cell, mut ynd) = (first.clone(), rust::ynd_of(first));
    seen::met_times(Met::FarLinks, memory.nodes.iter().filter(|w| link_range(w).0 > 65_535).count() as u64);
    seen::met_times(Met::FarValues, memory.junctions.iter().filter(|w| value_range(w).0 > 65_535).count() as u64);
    for op in ops { scripts::step(&mut memory, &mut cell, &mut ynd, op, lent, r)?; }
    same("the cell after all", MODEL, &rust::masked(&cell), RUST, &rust::cell_of(&ynd))?;
    memory::holds("the memory after all", &memory, &memory, &cell)
}
