//! `printround` as a process, held to the model of T-11 and T-13, and to T-14; and `thresholds`, held to the Rust's `sqrt` (T-12).
use super::files::generate;
use super::programs::written;
use super::run::Run;
use super::seen::{self, met, met_if, Call, Met};
use super::{same, Verdict, MODEL, PORT, RUST};
use crate::inputs::files::{sound, valid};
use crate::inputs::rng::Rng;
use crate::model::agree::counting;
use crate::model::cell::{Junction, Link, Node, ISLAND};
use crate::model::printed::{printed, HEAD_TWO, MOST_INPUT};
use crate::model::read::read;
use crate::model::records::{put_junction, put_link, put_node, ADDRESS_AT, COUNT_AT, COUNT_WIDTH, ROOT, WIDTHS};
use crate::model::rounds::HEAD;
use crate::model::sections::{put_le, SYSTEM};
use std::fs;

/// Random inputs in a short run and in a full one.
const INPUTS: [u64; 2] = [3_000, 20_000];
/// So many bytes at most before the section's length, that the round file still has room.
const MOST_SECTION: usize = 60_000;

pub fn printround(run: &Run) {
    run.list("printround, frames", &frames(), print);
    run.list("printround, limits", &limits(), print);
    run.counted("printround", INPUTS[run.full as usize], input, print, smaller);
}

/// Each frame's edge, and the example that the repository has.
fn frames() -> Vec<(String, Vec<u8>)> {
    let mut out: Vec<(String, Vec<u8>)> = (0..9).map(|n| (format!("{n} zero bytes"), vec![0; n])).collect();
    let stated = |n: u32, bytes: usize| [&n.to_le_bytes()[..], &vec![0; bytes]].concat();
    for n in [1, 112, 65_531, 65_532, 65_533, 70_000] {
        out.push((format!("a section of {n}, one byte too few"), stated(n, n as usize - 1)));
        out.push((format!("a section of {n}, no byte more"), stated(n, n as usize)));
        out.push((format!("a section of {n}, nine bytes more"), stated(n, n as usize + 9)));
    }
    out.push(("a section of 4,294,967,295".into(), stated(u32::MAX, 20)));
    out.push(("the example".into(), fs::read("crates/printround/stdin").unwrap_or_default()));
    out
}

/// A round file of version 1 behind a section, in its frame.
fn with_round(section: &[u8], start: u16, choices: &[u8]) -> Vec<u8> {
    let numbers = [start, choices.len() as u16].map(u16::to_le_bytes).concat();
    [&(section.len() as u32).to_le_bytes()[..], section, &HEAD, &numbers, choices].concat()
}

/// The arrays of nodes, links, junctions, values and refs, one behind the other after the root.
fn laid(arrays: [Vec<u8>; 5]) -> Vec<u8> {
    let mut system = vec![0; ROOT];
    for (i, array) in arrays.iter().enumerate() {
        let (at, n) = (SYSTEM + system.len() as u64, array.len() as u64 / WIDTHS[i]);
        put_le(&mut system, ADDRESS_AT[i], 8, at);
        put_le(&mut system, COUNT_AT[i], COUNT_WIDTH[i], n);
        system.extend(array);
    }
    system
}

/// So many nodes, each of which has these links.
fn nodes(n: usize, links: usize) -> Vec<u8> {
    let mut out = vec![0; 40 * n];
    let node = Node { links: vec![Link::default(); links], ..Node::default() };
    for b in out.chunks_mut(40) { put_node(b, &node, 0); }
    out
}

/// So many junctions, each of which has the first values of the heightmap.
fn junctions(n: usize, width: u8, height: u8) -> Vec<u8> {
    let mut out = vec![0; 12 * n];
    let junction = Junction { width, height, ..Junction::default() };
    for b in out.chunks_mut(12) { put_junction(b, &junction, 0); }
    out
}

/// Two nodes of an island that lead to each other, with numbers and steps of five digits, the steps below zero.
fn there_and_back() -> Vec<u8> {
    let numbers: [u16; 2] = [65_535, 60_000];
    let (mut nodes, mut links) = (vec![0; 80], vec![0; 16]);
    for (i, number) in numbers.into_iter().enumerate() {
        let link = Link { area_id: 65_535, node_id: numbers[1 - i], ..Link::default() };
        let position = [-8_192.0f32, -8_191.75, -1_024.0].map(f32::to_bits);
        let node = Node { area_id: 65_535, node_id: number, position, links: vec![link], ..Node::default() };
        put_node(&mut nodes[40 * i..][..40], &node, i);
        put_link(&mut links[8 * i..][..8], &link);
    }
    laid([nodes, links, vec![], vec![], vec![]])
}

/// The sizes that are lent, and one entry more; the longest text; the refusals that random sections seldom meet. An
/// input is too short for 8,193 links or 65,537 values of a heightmap, but not for that many in ranges that overlap.
fn limits() -> Vec<(String, Vec<u8>)> {
    let no = Vec::new;
    let mut out = Vec::new();
    for n in [1_024, 1_025] { out.push((format!("{n} nodes"), laid([nodes(n, 0), no(), no(), no(), no()]))); }
    for (n, each) in [(264, 31), (8_192 / 8, 8), (265, 31)] {
        out.push((format!("{n} nodes of {each} links"), laid([nodes(n, each), vec![0; 8 * each], no(), no(), no()])));
    }
    for n in [256, 257, 4_096, 4_097] {
        out.push((format!("{n} junctions"), laid([no(), no(), junctions(n, 0, 0), no(), no()])));
    }
    for n in [16, 17] {
        let arrays = [no(), no(), junctions(n, 64, 64), vec![7; 4_096], no()];
        out.push((format!("{n} junctions of 64 by 64"), laid(arrays)));
    }
    for n in [1_024, 1_025] { out.push((format!("{n} refs"), laid([no(), no(), no(), no(), vec![0; 8 * n]]))); }
    out.push(("links that are not there".into(), laid([nodes(2, 1), no(), no(), no(), no()])));
    out.push(("values that are not there".into(), laid([no(), no(), junctions(2, 1, 1), no(), no()])));
    let mut all: Vec<_> = out.into_iter().map(|(what, section)| (what, with_round(&section, 0, &[0]))).collect();
    let back = there_and_back();
    for n in [0, 16_382, 16_383, 16_384, 65_536 - 13 - back.len()] {
        all.push((format!("there and back, {n} links"), with_round(&back, 65_535, &vec![0; n])));
    }
    all
}

/// A section and a round file, both mostly good, and the frame too.
fn input(r: &mut Rng) -> Vec<u8> {
    let f = loop {
        let f = match r.below(4) { 0 => generate(r), 1 | 2 => sound(r), _ => valid(r) };
        if f.graphics.is_empty() && f.system.len() <= MOST_SECTION { break f; }
    };
    let cell = read(&f.system, &[]).unwrap_or_default();
    let number = match cell.nodes.len() { 0 => r.u16(), n => cell.nodes[r.below(n)].node_id };
    let start = if r.once_in(8) { r.u16() } else { number };
    let other = r.u16();
    let area = r.pick(&[cell.area(), cell.area(), cell.area(), cell.area() ^ ISLAND, other]);
    let n = r.below(12);
    let choices: Vec<u8> = (0..n).map(|_| if r.once_in(12) { r.u8() } else { r.below(2) as u8 }).collect();
    let head = if r.once_in(3) { HEAD.to_vec() } else { [&HEAD_TWO[..], &area.to_le_bytes()].concat() };
    let numbers = [start, n as u16].map(u16::to_le_bytes);
    let mut file = [&head[..], &numbers.concat(), &choices].concat();
    match r.below(12) {
        0 => { let k = r.below(file.len()); file[k] ^= r.pick(&[1, 2, 3, 255]); }
        1 => file.truncate(r.below(file.len())),
        2 => file.push(r.u8()),
        _ => {}
    }
    let long = f.system.len() as u32;
    let stated = if r.once_in(12) { long.wrapping_add(r.pick(&[1, u32::MAX, 20, 1_000])) } else { long };
    let mut all = [&stated.to_le_bytes()[..], &f.system, &file].concat();
    if r.once_in(20) { all.truncate(r.below(all.len())); }
    all.truncate(MOST_INPUT + 1);
    all
}

/// The same with a byte less.
fn smaller(input: &Vec<u8>) -> Vec<Vec<u8>> {
    input.len().checked_sub(1).map(|n| input[..n].to_vec()).into_iter().collect()
}

fn print(input: &Vec<u8>) -> Verdict {
    let (text, answer) = printed(input);
    match &answer {
        None => met(Met::Damaged),
        Some(a) => { seen::note(Call::Program, a); if let Ok(end) = a { seen::note_end(end); } }
    }
    let text = (text, true);
    same("what printround writes", PORT, &written("printround", input)?, MODEL, &text)?;
    if input.len() % 4 == 0 { unsteered(input, &text) } else { Ok(()) }
}

/// T-14: with other bytes where none of the section's count, the same is printed.
fn unsteered(input: &[u8], text: &(String, bool)) -> Verdict {
    let Some(long) = input.first_chunk().map(|b| u32::from_le_bytes(*b) as usize) else { return Ok(()) };
    let Some(section) = input[4..].get(..long) else { return Ok(()) };
    let mut other = input.to_vec();
    for (byte, counts) in other[4..].iter_mut().zip(&counting(section, &[])[0]) { if !counts { *byte ^= 0xA5; } }
    met_if(other != input, Met::GapBytes);
    same("printround, other bytes that don't count", PORT, &written("printround", &other)?, MODEL, text)
}

/// Each printed pattern's root reaches its place, and that of the pattern before it does not; and the repository's file.
pub fn thresholds(run: &Run) {
    run.list("thresholds", &[(String::new(), ())], |_| {
        let port = written("thresholds", &[])?;
        same("crates/thresholds/stdout", PORT, &port.0, MODEL,
            &fs::read_to_string("crates/thresholds/stdout").unwrap_or_default())?;
        same("what thresholds writes", PORT, &port, RUST, &(by_root(), true))
    });
}

/// The least pattern from +0 up whose root, as the Rust rounds it, is at least k: found by halving, and both sides tried.
fn by_root() -> String {
    let reaches = |b: u32, k: u32| f32::from_bits(b).sqrt() >= k as f32;
    (0..256).map(|k| {
        let (mut low, mut high) = (0, f32::INFINITY.to_bits());
        while low < high {
            let middle = low + (high - low) / 2;
            if reaches(middle, k) { high = middle } else { low = middle + 1 }
        }
        assert!(reaches(low, k) && (low == 0 || !reaches(low - 1, k)));
        format!("{low:08x}\n")
    }).collect()
}
