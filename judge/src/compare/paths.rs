//! Shortest paths, against T-06's sentences. The Rust has no such call.
use super::run::Run;
use super::scratch::with_scratch;
use super::seen::{self, met_if, Call, Met};
use super::{same, Verdict, MODEL, PORT};
use crate::inputs::paths::{smaller, trip, Trip};
use crate::inputs::rng::Rng;
use crate::model::cell::Cell;
use crate::model::paths::{by_every_walk, distances, edges, refused, SCRATCH};
use crate::model::walk::{is_sound, walk, End};
use crate::model::{room, write, Answer};
use crate::port::memory::Memory;
use crate::port::paths::Lists;

/// What stands in lent entries before a call.
const KEPT: u32 = 0xA5A5_A5A5;
const KEPT_BYTE: u8 = 0xA5;

/// Inputs of a short run and of a full one.
const TRIPS: [u64; 2] = [200_000, 2_000_000];

pub fn family(run: &Run) { run.counted("paths", TRIPS[run.full as usize], trip, check, smaller); }

pub fn check(t: &Trip) -> Verdict {
    let cell = t.memory.cell();
    let n = t.memory.counts()[0].min(100);
    let all = [SCRATCH * n, n, n];
    for lent in [all, [SCRATCH * n + 3, n + 1, n + 2]] { found(&t.memory, &cell, t.from, t.to, lent)?; }
    for (i, less) in [1, 1, 1].into_iter().enumerate() {
        let mut lent = all;
        lent[i] = lent[i].saturating_sub(less);
        found(&t.memory, &cell, t.from, t.to, lent)?;
    }
    if t.memory.counts() == cell.counts() { after_calls(t, &cell)?; }
    Ok(())
}

/// The least sum, by two ways of looking for it.
fn model(m: &Memory, cell: &Cell, from: usize, to: usize, lent: [usize; 3]) -> Answer<u64> {
    refused(m.counts(), m.lent(), from, to, lent[0])?;
    let least = distances(cell, from)[to];
    if cell.nodes.len() <= 6 { assert_eq!(least, by_every_walk(cell, from, to), "the model disagrees with itself"); }
    let least = least.ok_or(crate::model::Refused(17, 0))?;
    let n = cell.nodes.len();
    room(8, &[n], &[lent[1].min(lent[2])])?;
    Ok(least)
}

fn found(m: &Memory, cell: &Cell, from: usize, to: usize, lent: [usize; 3]) -> Verdict {
    let want = model(m, cell, from, to, lent);
    let mut lists = Lists { scratch: vec![KEPT; lent[0]], choices: vec![KEPT_BYTE; lent[1]], places: vec![KEPT; lent[2]] };
    let before = lists.clone();
    let (have, kept) = m.shortest_path(from, to, &mut lists);
    seen::note(Call::Path, &want);
    same("the distance", MODEL, &want, PORT, &have.map(|(d, _)| d as u64))?;
    same("what a refusal leaves", MODEL, &true, PORT, &kept)?;
    if refused(m.counts(), m.lent(), from, to, lent[0]).is_err() {
        return same("lists after a refusal before the search", MODEL, &before, PORT, &lists);
    }
    let Ok((_, links)) = have else {
        let left = (&lists.choices, &lists.places);
        return same("choices and places after a refusal", MODEL, &(&before.choices, &before.places), PORT, &left);
    };
    followed(m, cell, from, to, links, &before, &lists)?;
    edges_met(cell, from, to, links);
    Ok(())
}

/// The choices lead over the places to the goal, no place comes twice, and later entries stay.
fn followed(m: &Memory, cell: &Cell, from: usize, to: usize, links: usize, before: &Lists, after: &Lists) -> Verdict {
    let choices = &after.choices[..links];
    let w = walk(cell, from, choices).expect("the start is a place");
    let places: Vec<u32> = w.places.iter().map(|&p| p as u32).collect();
    let sum: u64 = w.chosen.iter().map(|c| c.1 as u64).sum();
    same("the path's end", MODEL, &(End::Done, to), PORT, &(w.end, *w.places.last().expect("the start")))?;
    same("its places", MODEL, &places, PORT, &after.places[..=links].to_vec())?;
    same("its links' sum", MODEL, &distances(cell, from)[to], PORT, &Some(sum))?;
    let mut once = places.clone();
    once.sort_unstable();
    once.dedup();
    same("places that come once", MODEL, &places.len(), PORT, &once.len())?;
    let rest = (&after.choices[links..], &after.places[links + 1..]);
    same("later entries", MODEL, &(&before.choices[links..], &before.places[links + 1..]), PORT, &rest)?;
    let mut visited = before.places.clone();
    let (walked, _) = m.walk_right(from, choices, &mut visited);
    same("walk by the choices", MODEL, &true, PORT, &walked.is_ok())?;
    same("what walk leaves", PORT, &visited, PORT, &after.places)
}

fn edges_met(cell: &Cell, from: usize, to: usize, links: usize) {
    let all: Vec<(usize, usize, u64)> =
        (0..cell.nodes.len()).flat_map(|p| edges(cell, p).into_iter().map(move |(q, l)| (p, q, l))).collect();
    let own = |l: &crate::model::cell::Link| cell.belongs(l.area_id);
    let ids = |k: u16| cell.nodes.iter().filter(|n| n.node_id == k).count();
    met_if(from == to, Met::SamePlace);
    met_if(links > 2, Met::SeveralLinks);
    met_if(all.iter().any(|e| e.2 == 0), Met::Length0);
    met_if(all.iter().enumerate().any(|(i, a)| all[..i].iter().any(|b| (a.0, a.1) == (b.0, b.1))), Met::Parallel);
    met_if(cell.nodes.iter().any(|n| n.links.iter().any(|l| !own(l))), Met::Left);
    met_if(cell.nodes.iter().any(|n| n.links.iter().any(|l| own(l) && ids(l.node_id) == 0)), Met::NoNode);
    met_if(cell.nodes.iter().any(|n| ids(n.node_id) > 1), Met::Equal);
}

/// A sound cell gives the same sum between the same two nodes after renumberings and write-then-reads, raw ones too.
fn after_calls(t: &Trip, cell: &Cell) -> Verdict {
    let n = cell.nodes.len();
    if !is_sound(cell) || t.from >= n || t.to >= n { return Ok(()); }
    let r = &mut Rng::new(t.aux);
    let (mut m, mut at) = (t.memory.clone(), [t.from, t.to]);
    for _ in 0..r.within(1, 3) {
        if r.once_in(2) {
            let mut places = vec![0; n];
            if with_scratch(65_536, |s| m.renumber(s, &mut places)).is_ok() { at = at.map(|p| places[p] as usize); }
        } else {
            let mut section = vec![0; write::layout(cell.counts()).1];
            let _ = m.write_then_read(&mut section);
        }
    }
    met_if(at != [t.from, t.to], Met::Moved);
    let lent = [SCRATCH * n, n, n];
    let mut lists = Lists { scratch: vec![1; lent[0]], choices: vec![0; n], places: vec![0; n] };
    let (have, _) = m.shortest_path(at[0], at[1], &mut lists);
    let want = model(&t.memory, cell, t.from, t.to, lent);
    same("the distance after calls", MODEL, &want, PORT, &have.map(|(d, _)| d as u64))
}
