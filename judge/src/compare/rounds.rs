//! Round files and rounds followed, against T-03's sentences. The Rust has none of these calls.
use super::run::Run;
use super::scratch::with_scratch;
use super::seen::{self, met, met_if, Call, Met};
use super::{same, Verdict, MODEL, PORT};
use crate::inputs::rng::Rng;
use crate::inputs::rounds::{damaged, file_of, most, round, short_file, short_files, shorter, smaller, trip, Trip};
use crate::model::rounds::{follow, read, write, Round, BEFORE, MOST_CHOICES};
use crate::port;

/// Inputs of a short run and of a full one: good files, rounds followed.
const FILES: [u64; 2] = [30_000, 600_000];
const TRIPS: [u64; 2] = [200_000, 5_000_000];

const KEPT: u8 = 0xA5;
const KEPT_PLACE: u32 = 0xA5A5_A5A5;

pub fn families(run: &Run) {
    run.sweep("round files of few bytes", short_files(), [1, 1], |i| bytes(&short_file(i)));
    run.counted("round files", FILES[run.full as usize], round, file_and_damaged, smaller);
    run.list("round files at their limit", &most(), at_limit);
    run.counted("rounds followed", TRIPS[run.full as usize], trip, followed, shorter);
}

/// Any bytes, with memory for the choices exactly enough, one short, and to spare.
fn bytes(file: &[u8]) -> Verdict {
    let count = file.len().saturating_sub(BEFORE);
    for lent in [count, count + 2] { read_into(file, lent)?; }
    if count > 0 { read_into(file, count - 1)?; }
    if file.len() >= BEFORE { read_into(file, 0)?; }
    Ok(())
}

/// An accepted file is, byte for byte, what the writer writes for what was read.
fn read_into(file: &[u8], lent: usize) -> Verdict {
    let want = read(file, lent);
    let mut choices = vec![KEPT; lent];
    let (have, kept) = port::rounds::read(file, &mut choices);
    seen::note(Call::Round, &have);
    let mut list = want.as_ref().map_or(Vec::new(), |w| w.choices.clone());
    list.resize(lent, KEPT);
    same("a round file", MODEL, &want.as_ref().map(|w| (w.start, w.choices.len())), PORT, &have.as_ref().map(|a| *a))?;
    same("the choices", MODEL, &list, PORT, &choices)?;
    same("what reading leaves", MODEL, &true, PORT, &kept)?;
    let Ok((start, count)) = have else { return Ok(()) };
    met(Met::WrittenBack);
    written(&Round { start, choices: choices[..count].to_vec() }, file.len(), Some(file))
}

/// The writer, with memory of this length; the bytes behind the file stay.
fn written(round: &Round, lent: usize, whole: Option<&[u8]>) -> Verdict {
    let want = write(round, lent);
    let mut file = vec![KEPT; lent];
    let (have, kept) = port::rounds::write(round.start, &round.choices, &mut file);
    seen::note(Call::Round, &have);
    let mut bytes = want.clone().unwrap_or_default();
    bytes.resize(lent, KEPT);
    same("a round written", MODEL, &want.map(|w| w.len()), PORT, &have)?;
    same("its bytes", MODEL, &bytes, PORT, &file)?;
    same("what writing leaves", MODEL, &true, PORT, &kept)?;
    whole.map_or(Ok(()), |w| same("an accepted file", PORT, &file, "read before", &w.to_vec()))
}

/// A good file by the model and by the port, then every damaged copy of it.
fn file_and_damaged(round: &Round) -> Verdict {
    let file = file_of(round);
    for lent in [file.len(), file.len() + 3, file.len() - 1, 0] { written(round, lent, None)?; }
    let n = round.choices.len();
    same("reading a written round", MODEL, &read(&file, n), MODEL, &Ok(round.clone()))?;
    bytes(&file)?;
    met(Met::JustLong);
    met_if(n > 0, Met::OneShort);
    let r = &mut Rng::new(round.start as u64 ^ (n as u64) << 16);
    for copy in damaged(&file, r) {
        met(Met::Damaged);
        bytes(&copy)?;
    }
    Ok(())
}

fn at_limit(round: &Round) -> Verdict {
    let n = round.choices.len();
    for lent in [BEFORE + n, BEFORE + n + 1, BEFORE + n - 1, 0] { written(round, lent, None)?; }
    met_if(n == MOST_CHOICES, Met::MostChoices);
    met_if(n > MOST_CHOICES, Met::OverChoices);
    // A file of more choices than its count can say.
    let mut file = file_of(&Round { start: round.start, choices: round.choices[..n.min(MOST_CHOICES)].to_vec() });
    file.extend(&round.choices[n.min(MOST_CHOICES)..]);
    if n > MOST_CHOICES { file[7..9].copy_from_slice(&(n as u16).to_le_bytes()); }
    for lent in [n, n - 1, n + 1] {
        read_into(&file, lent)?;
        met_if(n == MOST_CHOICES, Met::MostChoices);
        met_if(n > MOST_CHOICES, Met::OverChoices);
    }
    Ok(())
}

/// With visited lists that are long enough, exactly so, one short, and empty.
fn followed(t: &Trip) -> Verdict {
    let cell = t.memory.cell();
    let (counts, lent) = (t.memory.counts(), t.memory.lent());
    let long = t.round.choices.len() + 1;
    let whole = follow(&cell, counts, lent, &t.round, long);
    let visits = whole.as_ref().map_or(1, |w| w.places.len());
    for room in [long, visits, visits - 1, 0] {
        let want = follow(&cell, counts, lent, &t.round, room);
        let mut places = vec![KEPT_PLACE; room];
        let (have, kept) = t.memory.follow(t.round.start, &t.round.choices, &mut places);
        seen::note(Call::Follow, &have);
        let mut by_index = vec![KEPT_PLACE; room];
        let indexed = with_scratch(65_536, |s| {
            t.memory.follow_indexed(t.round.start, &t.round.choices, &mut by_index, s)
        });
        same("a round by an index", PORT, &(&indexed, &by_index), "its round", &(&(have.clone(), kept), &places))?;
        let mut list: Vec<u32> = want.as_ref().map_or(Vec::new(), |w| w.places.iter().map(|&p| p as u32).collect());
        list.resize(room, KEPT_PLACE);
        same("a round", MODEL, &want.map(|w| (w.end, w.places.len())), PORT, &have)?;
        same("its places", MODEL, &list, PORT, &places)?;
        same("what following leaves", MODEL, &true, PORT, &kept)?;
    }
    let found = cell.node(t.round.start);
    if let Ok(w) = &whole {
        seen::note_end(&w.end);
        met(Met::JustLong);
        met(Met::OneShort);
        met_if(found != Some(t.round.start as usize), Met::NotItsPlace);
        met_if(cell.nodes.iter().filter(|n| n.node_id == t.round.start).count() > 1, Met::TwoNumbers);
        as_walk(t, found.unwrap_or_default())?;
    }
    met_if(cell.nodes.is_empty(), Met::Empty);
    Ok(())
}

/// Following is `node`, then `walk`.
fn as_walk(t: &Trip, found: usize) -> Verdict {
    let room = t.round.choices.len() + 1;
    let (mut a, mut b) = (vec![KEPT_PLACE; room], vec![KEPT_PLACE; room]);
    let follow = t.memory.follow(t.round.start, &t.round.choices, &mut a);
    let walk = t.memory.walk(found, &t.round.choices, &mut b);
    same("a round as the walk", PORT, &(follow, a), "its walk", &(walk, b))
}
