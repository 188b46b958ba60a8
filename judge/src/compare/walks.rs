//! Walks and soundness. The Rust has none: the model is held to demand 3, and the port to the model and to demand 3.
use super::scratch::with_scratch;
use super::{same, Verdict, MODEL, PORT};
use crate::inputs::rng::Rng;
use crate::model::cell::Cell;
use crate::model::walk::{is_sound, walk, End, Walk};
use crate::model::{renumber, write, Answer};
use crate::port::memory::Memory;

const NOW: &str = "after calls";

pub fn check(cell: &Cell, memory: &Memory, r: &mut Rng) -> Verdict {
    if cell.nodes.is_empty() || cell.nodes.len() > 2_000 || !is_sound(cell) { return Ok(()); }
    unnoticed(cell, r)?;
    unnoticed_by_the_port(memory, r)
}

/// Demand 3: after any list of calls every walk shows what it first showed, its places moved on.
fn unnoticed(first: &Cell, r: &mut Rng) -> Verdict {
    let mut cell = first.clone();
    let mut moved: Vec<usize> = (0..first.nodes.len()).collect();
    for _ in 0..r.below(4) {
        if r.once_in(2) {
            let places = renumber::renumber(&mut cell, 65_536, first.nodes.len()).expect("room for all");
            for m in &mut moved { *m = places[*m]; }
        } else {
            let _ = write::write_then_read(&mut cell, &mut vec![0; 60_000], first.counts());
        }
    }
    same("soundness after calls", MODEL, &true, MODEL, &is_sound(&cell))?;
    for _ in 0..3 {
        let start = r.below(first.nodes.len());
        let choices = choices(r);
        let mut then = walk(first, start, &choices).expect("a node");
        let now = walk(&cell, moved[start], &choices).expect("a node");
        for p in &mut then.places { *p = moved[*p]; }
        // A raw position is stored in steps when the cell is written; only cells as read are asked.
        same("a walk after calls", MODEL, &then, "document 01 after calls", &now)?;
        if then.end == End::NoNode { same("a sound cell's walk", MODEL, &End::Done, MODEL, &then.end)?; }
    }
    Ok(())
}

/// The same of the port: renumberings and write-then-reads, refused ones too, each on what the last one left; then a
/// walk from every place of a small cell, or from some of a larger one, with equal lists for the places.
fn unnoticed_by_the_port(first: &Memory, r: &mut Rng) -> Verdict {
    let n = first.counts()[0];
    let mut memory = first.clone();
    let mut moved: Vec<usize> = (0..n).collect();
    let mut renumbered = false;
    for _ in 0..r.below(6) {
        if let Some(places) = call(&mut memory, n, r)? {
            for m in &mut moved { *m = places[*m] as usize; }
            renumbered = true;
        }
    }
    same("soundness after calls", PORT, &with_scratch(65_536, |s| memory.sound(s)), MODEL, &Ok(true))?;
    let numbers: Vec<usize> = memory.nodes[..n].iter().map(|w| (w[0] >> 16) as usize).collect();
    if renumbered { same("numbers after renumbering", PORT, &numbers, MODEL, &(0..n).collect())?; }
    let (then_cell, now_cell) = (first.cell(), memory.cell());
    for k in 0..n.min(12) {
        let start = if n <= 12 { k } else { r.below(n) };
        let choices = choices(r);
        let visited = r.pick(&[choices.len() + 1, choices.len() + 1, choices.len() + 1, choices.len() / 2]);
        let mut then = shown(first, &then_cell, start, &choices, visited)?;
        let now = shown(&memory, &now_cell, moved[start], &choices, visited)?;
        if let Ok(w) = &mut then { for p in &mut w.places { *p = moved[*p]; } }
        same("a walk after calls", PORT, &then, NOW, &now)?;
    }
    Ok(())
}

/// One call, accepted or refused; the new places of an accepted renumbering.
fn call(memory: &mut Memory, n: usize, r: &mut Rng) -> Result<Option<Vec<u32>>, super::Mismatch> {
    let before = memory.clone();
    if r.once_in(2) {
        let (scratch, room) = (r.pick(&[65_536, 65_536, 65_537, 65_535]), r.pick(&[n, n, n + 2, n - 1]));
        let mut places = vec![0xA5A5_A5A5; room];
        let answer = with_scratch(scratch, |s| memory.renumber(s, &mut places));
        if answer.is_err() { super::memory::unchanged("refused renumbering", &before, memory)?; }
        return Ok(answer.ok().map(|_| places));
    }
    let mut section = vec![0xA5; r.pick(&[60_000, 60_000, 1_152, 0])];
    let answer = memory.write_then_read(&mut section);
    if answer.is_err() { super::memory::unchanged("refused write-then-read", &before, memory)?; }
    Ok(None)
}

/// A walk by the port, and what the nodes and links on its way show.
fn shown(
    memory: &Memory, cell: &Cell, start: usize, choices: &[u8], visited: usize,
) -> Result<Answer<Walk>, super::Mismatch> {
    let mut places = vec![0xA5A5_A5A5; visited];
    let (answer, _) = memory.walk(start, choices, &mut places);
    followed(memory, start, choices, &(answer, &places))?;
    let all = walk(cell, start, choices).expect("a node");
    Ok(match answer {
        Ok((end, count)) => {
            let places: Vec<usize> = places[..count].iter().map(|&p| p as usize).collect();
            same("a walk", PORT, &(end, &places), MODEL, &(all.end, &all.places))?;
            for (k, &p) in places.iter().enumerate() {
                super::shown::showing(memory, cell, p, choices.get(k).copied().unwrap_or(0))?;
            }
            Ok(all)
        }
        Err(e) => Err(e),
    })
}

/// T-03: in a sound cell the round from a node's number is the walk from its place.
fn followed(memory: &Memory, start: usize, choices: &[u8], walk: &(Answer<(End, usize)>, &Vec<u32>)) -> Verdict {
    let mut places = vec![0xA5A5_A5A5; walk.1.len()];
    let (answer, _) = memory.follow((memory.nodes[start][0] >> 16) as u16, choices, &mut places);
    same("a round from a node's number", PORT, &(answer, &places), "its walk", walk)
}

pub fn choices(r: &mut Rng) -> Vec<u8> {
    let n = r.below(20);
    (0..n).map(|_| r.pick(&[0, 0, 0, 1, 1, 2, 3, 30, 255])).collect()
}
