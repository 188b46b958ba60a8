//! Two files that agree on the bytes that count (T-14): every call answers and leaves the same on both, bit for bit.
use super::run::Run;
use super::scratch::with_scratch;
use super::seen::{self, met_if, Call, Met};
use super::{files, same, Verdict, MODEL};
use crate::inputs::files::File;
use crate::inputs::rng::Rng;
use crate::inputs::shrink::smaller_file;
use crate::model::agree::{arrays, counting};
use crate::model::read;
use crate::port;
use crate::port::memory::Memory;

const ONE: &str = "one file";
const OTHER: &str = "the other";
/// Pairs of a short run and of a full one.
const PAIRS: [u64; 2] = [100_000, 1_000_000];

pub fn family(run: &Run) {
    run.counted("bytes that don't count", PAIRS[run.full as usize], files::generate, check, smaller_file);
}

fn check(f: &File) -> Verdict {
    if f.system.is_empty() { return Ok(()); }
    let r = &mut Rng::new(f.aux ^ 0xA6EE);
    let other = changed(r, f);
    met(f, &other);
    let (s, g, t, h) = (&f.system, &f.graphics, &other.system, &other.graphics);
    same("the bytes that count", MODEL, &counting(s, g), "of the other", &counting(t, h))?;
    let model = read::read(s, g);
    same("the model's reading", ONE, &model, OTHER, &read::read(t, h))?;
    same("counting", ONE, &port::cells::count(s, g), OTHER, &port::cells::count(t, h))?;
    let counts = model.as_ref().map_or([3; 5], |c| c.counts());
    let mut lent = counts.map(|n| n + r.below(3));
    if r.once_in(6) { lent[r.below(5)] = 0; }
    let mut one = Memory::rubbish(r, lent);
    let mut two = one.clone();
    let (have, then) = (one.read(s, g), two.read(t, h));
    seen::note(Call::Read, &have);
    same("reading", ONE, &have, OTHER, &then)?;
    same("what reading leaves", ONE, &one, OTHER, &two)?;
    if have.is_err() { return Ok(()); }
    later(r, &mut one, &mut two)
}

/// The file with other bytes where they don't count: one in so many, or all.
fn changed(r: &mut Rng, f: &File) -> File {
    let mut other = f.clone();
    let counts = counting(&f.system, &f.graphics);
    let share = r.pick(&[1, 1, 5, 50]);
    for (bytes, counts) in [&mut other.system, &mut other.graphics].into_iter().zip(&counts) {
        for (byte, counts) in bytes.iter_mut().zip(counts) { if !counts && r.once_in(share) { *byte = r.u8(); } }
    }
    other
}

/// Where bytes were changed, and whether an array lies over the root.
fn met(f: &File, other: &File) {
    let all = arrays(&f.system, &f.graphics);
    let differs = |section: usize, k: usize| {
        if section == 0 { f.system[k] != other.system[k] } else { f.graphics[k] != other.graphics[k] }
    };
    let within = |i: usize| (0..all[i].bytes.len()).any(|k| differs(all[i].section, all[i].at + k));
    met_if((0..f.system.len().min(112)).any(|k| differs(0, k)), Met::RootBytes);
    met_if((112..f.system.len()).any(|k| differs(0, k)), Met::GapBytes);
    met_if((0..f.graphics.len()).any(|k| differs(1, k)), Met::GraphicsBytes);
    met_if(within(1), Met::OtherLinks);
    met_if(within(3), Met::OtherValues);
    met_if(all.iter().any(|a| a.section == 0 && a.at < 112 && !a.bytes.is_empty()), Met::OverRoot);
    let over = |i: usize, j: usize| {
        let (a, b) = (all[i], all[j]);
        a.section == b.section && a.at.max(b.at) < (a.at + a.bytes.len()).min(b.at + b.bytes.len())
    };
    met_if((0..5).any(|i| (0..i).any(|j| over(i, j))), Met::OverArray);
    met_if(all.iter().any(|a| a.bytes.is_empty()), Met::NoArray);
}

/// Writing, then lists of renumberings and write-then-reads, and walks between them.
fn later(r: &mut Rng, one: &mut Memory, two: &mut Memory) -> Verdict {
    for _ in 0..3 {
        writing(r, one, two, false)?;
        walking(r, one, two)?;
        if r.once_in(2) { writing(r, one, two, true)?; } else { renumbering(r, one, two)?; }
        same("what is left", ONE, one, OTHER, two)?;
    }
    walking(r, one, two)
}

fn writing(r: &mut Rng, one: &mut Memory, two: &mut Memory, and_read: bool) -> Verdict {
    let [n, l, j, h, x] = one.counts();
    let long = 1_300 + 40 * n + 8 * l + 12 * j + h + 8 * x;
    let room = if r.once_in(8) { 1_000 } else { long };
    let section = r.bytes(room);
    let (mut a, mut b) = (section.clone(), section);
    let answers = if and_read { (one.write_then_read(&mut a), two.write_then_read(&mut b)) } else {
        (one.write(&mut a), two.write(&mut b))
    };
    seen::note(if and_read { Call::WriteRead } else { Call::Write }, &answers.0);
    same("writing", ONE, &answers.0, OTHER, &answers.1)?;
    same("the section written", ONE, &a, OTHER, &b)
}

fn renumbering(r: &mut Rng, one: &mut Memory, two: &mut Memory) -> Verdict {
    let places: Vec<u32> = (0..one.counts()[0] + r.below(2)).map(|_| r.u32()).collect();
    let (mut a, mut b) = (places.clone(), places);
    let have = with_scratch(65_536, |scratch| one.renumber(scratch, &mut a));
    let then = with_scratch(65_536, |scratch| two.renumber(scratch, &mut b));
    seen::note(Call::Renumber, &have);
    same("renumbering", ONE, &have, OTHER, &then)?;
    same("new places", ONE, &a, OTHER, &b)
}

fn walking(r: &mut Rng, one: &Memory, two: &Memory) -> Verdict {
    let choices: Vec<u8> = (0..r.below(9)).map(|_| r.below(3) as u8).collect();
    let visited: Vec<u32> = (0..r.below(10)).map(|_| r.u32()).collect();
    let (mut a, mut b) = (visited.clone(), visited);
    let start = r.below(one.counts()[0] + 1);
    let (have, then) = (one.walk(start, &choices, &mut a), two.walk(start, &choices, &mut b));
    seen::note(Call::Walk, &have.0);
    same("a walk", ONE, &have, OTHER, &then)?;
    same("the places visited", ONE, &a, OTHER, &b)
}
