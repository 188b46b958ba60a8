//! Round files of both versions and rounds followed, against T-11's sentences. The Rust has none of these calls.
use super::run::Run;
use super::seen::{self, met, met_if, Call, Met};
use super::{same, Verdict, MODEL, PORT};
use crate::inputs::rng::Rng;
use crate::inputs::rounds::{damaged, round, smaller, trip, Trip};
use crate::model::cell::ISLAND;
use crate::model::printed::{read_version, HEAD_TWO};
use crate::model::rounds::{follow, read, write, Round, HEAD, MOST_CHOICES};
use crate::model::{refuse_if, room, Answer};
use crate::port;

/// Inputs of a short run and of a full one: good files, rounds followed.
const FILES: [u64; 2] = [20_000, 300_000];
const TRIPS: [u64; 2] = [100_000, 2_000_000];

const KEPT: u8 = 0xA5;
const KEPT_PLACE: u32 = 0xA5A5_A5A5;

/// A round with its version: none for version 1, else the area.
#[derive(Clone, Debug)]
pub struct Versioned {
    area: Option<u16>,
    round: Round,
}

pub fn families(run: &Run) {
    run.sweep("versions of round files", 65_536, [1, 1], |v| of_version(v as u16));
    run.counted("round files of both versions", FILES[run.full as usize], versioned, whole_and_damaged, fewer);
    run.counted("rounds of both versions followed", TRIPS[run.full as usize], trip_of, followed, shorter);
}

fn versioned(r: &mut Rng) -> Versioned {
    let area = if r.once_in(3) { None } else { Some(r.u16()) };
    Versioned { area, round: round(r) }
}

fn fewer(v: &Versioned) -> Vec<Versioned> {
    smaller(&v.round).into_iter().map(|round| Versioned { area: v.area, round }).collect()
}

/// The bytes of T-11: the head of the version, then what follows it in version 1.
fn bytes(v: &Versioned) -> Vec<u8> {
    let one = write(&v.round, usize::MAX).expect("at most 65,535 choices");
    match v.area {
        None => one,
        Some(area) => [&HEAD_TWO[..], &area.to_le_bytes(), &one[HEAD.len()..]].concat(),
    }
}

/// A file of nine bytes, and one of eleven, with this version: 15 but for 1 and 2; the T-03 reader takes 1 alone.
fn of_version(version: u16) -> Verdict {
    for long in [9, 11] {
        let mut file = [&b"RND"[..], &version.to_le_bytes()].concat();
        file.resize(long, 0);
        read_into(&file, 3)?;
        let (have, _) = port::rounds::read(&file, &mut [KEPT; 3]);
        same("the T-03 reader", MODEL, &read(&file, 3).map(|r| (r.start, r.choices.len())), PORT, &have)?;
    }
    Ok(())
}

/// Any bytes, read; an accepted file is written back byte for byte in its version.
fn read_into(file: &[u8], lent: usize) -> Verdict {
    let want = read_version(file, lent);
    let mut choices = vec![KEPT; lent];
    let (have, kept) = port::versions::read(file, &mut choices);
    seen::note(Call::Round, &have);
    let mut list = want.as_ref().map_or(Vec::new(), |(_, w)| w.choices.clone());
    list.resize(lent, KEPT);
    let found = want.as_ref().map(|(a, w)| (1 + a.is_some() as u16, a.unwrap_or(0), w.start, w.choices.len()));
    same("a round file", MODEL, &found.map_err(|e| *e), PORT, &have)?;
    same("the choices", MODEL, &list, PORT, &choices)?;
    same("what reading leaves", MODEL, &true, PORT, &kept)?;
    let Ok((area, round)) = want else { return Ok(()) };
    met(Met::WrittenBack);
    written(&Versioned { area, round }, file.len(), Some(file))
}

fn written(v: &Versioned, lent: usize, whole: Option<&[u8]>) -> Verdict {
    let want: Answer<Vec<u8>> = refuse_if(v.round.choices.len() > MOST_CHOICES, 16, 0).and_then(|()| {
        let file = bytes(v);
        room(8, &[file.len()], &[lent]).map(|()| file)
    });
    let mut file = vec![KEPT; lent];
    let version = 1 + v.area.is_some() as u16;
    let (have, kept) =
        port::versions::write(version, v.area.unwrap_or(0x1234), v.round.start, &v.round.choices, &mut file);
    seen::note(Call::Round, &have);
    let mut all = want.clone().unwrap_or_default();
    all.resize(lent, KEPT);
    same("a round written", MODEL, &want.map(|w| w.len()), PORT, &have)?;
    same("its bytes", MODEL, &all, PORT, &file)?;
    same("what writing leaves", MODEL, &true, PORT, &kept)?;
    whole.map_or(Ok(()), |w| same("an accepted file", PORT, &file, "read before", &w.to_vec()))
}

fn whole_and_damaged(v: &Versioned) -> Verdict {
    let (file, n) = (bytes(v), v.round.choices.len());
    for lent in [file.len(), file.len() + 3, file.len() - 1, 0] { written(v, lent, None)?; }
    for lent in [n, n + 2] { read_into(&file, lent)?; }
    if n > 0 { met(Met::OneShort); read_into(&file, n - 1)?; }
    let r = &mut Rng::new(v.round.start as u64 ^ (n as u64) << 16);
    for copy in damaged(&file, r) {
        met(Met::Damaged);
        read_into(&copy, n)?;
    }
    Ok(())
}

/// A trip, and the area that a version 2 round names: the cell's, with the island's bit turned round, or another.
#[derive(Clone, Debug)]
pub struct Areas {
    trip: Trip,
    area: Option<u16>,
}

fn trip_of(r: &mut Rng) -> Areas {
    let mut trip = trip(r);
    if r.once_in(2) { for w in trip.memory.nodes.iter_mut() { w[0] ^= ISLAND as u32; } }
    let own = trip.memory.cell().area();
    let area = if r.once_in(4) { None } else { Some(r.pick(&[own, own, own, own ^ ISLAND, own ^ 1, 0, 65_535])) };
    Areas { trip, area }
}

fn shorter(a: &Areas) -> Vec<Areas> {
    crate::inputs::rounds::shorter(&a.trip).into_iter().map(|trip| Areas { trip, area: a.area }).collect()
}

/// 19 by the cell that the lent lists hold; then as a round of version 1.
fn follow_version(a: &Areas, room_for: usize) -> Answer<crate::model::walk::Walk> {
    let (m, cell) = (&a.trip.memory, a.trip.memory.cell());
    refuse_if(a.area.is_some_and(|x| x != cell.area()), 19, 0)?;
    follow(&cell, m.counts(), m.lent(), &a.trip.round, room_for)
}

fn followed(a: &Areas) -> Verdict {
    let long = a.trip.round.choices.len() + 1;
    for room_for in [long, 1, 0] {
        let want = follow_version(a, room_for);
        let mut places = vec![KEPT_PLACE; room_for];
        let version = 1 + a.area.is_some() as u16;
        let (have, kept) =
            a.trip.memory.follow_version(version, a.area.unwrap_or(7), a.trip.round.start, &a.trip.round.choices, &mut places);
        seen::note(Call::Follow, &have);
        let mut list: Vec<u32> = want.as_ref().map_or(Vec::new(), |w| w.places.iter().map(|&p| p as u32).collect());
        list.resize(room_for, KEPT_PLACE);
        if let Ok(w) = &want { seen::note_end(&w.end); }
        same("a round", MODEL, &want.map(|w| (w.end, w.places.len())), PORT, &have)?;
        same("its places", MODEL, &list, PORT, &places)?;
        same("what following leaves", MODEL, &true, PORT, &kept)?;
    }
    met_if(a.trip.memory.cell().nodes.is_empty(), Met::Empty);
    Ok(())
}
