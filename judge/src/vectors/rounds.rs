//! Kinds 18 to 20: a round file that is read and written back; a round followed in the cell of a file; a round of many
//! choices that is written. Kinds 23 and 24: the first two of either version. The Rust has none of these: the answers are
//! T-03's and T-11's.
use super::cells::{packed, told};
use super::Field::{Bytes, U16, U32, U8};
use super::Records;
use crate::inputs::rng::Rng;
use crate::inputs::rounds::{damaged, file_of};
use crate::model::cell::{Cell, Link, Node};
use crate::model::rounds::{follow, read, write, Round, BEFORE, HEAD, MOST_CHOICES};
use crate::model::printed::{read_version, HEAD_TWO};
use crate::model::walk::End;
use crate::model::{refuse_if, Answer};

const FILE: u8 = 18;
const FOLLOW: u8 = 19;
const LONG: u8 = 20;
const VERSION_FILE: u8 = 23;
const FOLLOW_VERSION: u8 = 24;

/// What the list for the choices and the one for the places hold before a call.
const BEFORE_CHOICES: u8 = 165;
const BEFORE_PLACES: u16 = 65_535;

pub fn add(to: &mut Records) {
    files(to);
    rounds(to);
    for n in [0, MOST_CHOICES, MOST_CHOICES + 1] {
        for lent in [BEFORE + n, BEFORE + n - 1, 65_600] { long(to, n, lent); }
    }
}

/// Kinds 23 and 24.
pub fn versions(to: &mut Records) {
    version_files(to);
    version_rounds(to);
}

/// Good files of both versions, one choice too few and one to spare; damaged ones; each length around 5, 9 and 11;
/// versions 0, 3 and 513.
fn version_files(to: &mut Records) {
    let r = &mut Rng::new(23);
    let one = file_of(&Round { start: 258, choices: vec![5, 6] });
    let two = [&HEAD_TWO[..], &1_513u16.to_le_bytes(), &one[HEAD.len()..]].concat();
    for good in [&one, &two] {
        for lent in [2, 3, 1] { version_file(to, good, lent); }
        for n in [4, 5, 8, 9, 10, good.len() - 1] { version_file(to, &good[..n.min(good.len())], 2); }
        version_file(to, &[&good[..], &[0]].concat(), 2);
    }
    for copy in damaged(&two, r) { version_file(to, &copy, 2); }
    for version in [0u16, 3, 513] {
        version_file(to, &[&b"RND"[..], &version.to_le_bytes(), &two[5..]].concat(), 2);
    }
}

fn version_file(to: &mut Records, bytes: &[u8], lent: usize) {
    let answer = read_version(bytes, lent);
    let mut fields = vec![U16(bytes.len() as u16), U16(lent as u16)];
    fields.extend(told(&answer));
    let version = answer.as_ref().map_or((0, 0), |(area, _)| area.map_or((1, 0), |a| (2, a)));
    let round = answer.map_or(Round { start: 0, choices: Vec::new() }, |(_, round)| round);
    let mut list = round.choices.clone();
    list.resize(lent, BEFORE_CHOICES);
    fields.extend([U16(round.start), U16(round.choices.len() as u16), U16(version.0), U16(version.1), Bytes(bytes),
        Bytes(&list)]);
    to.add(VERSION_FILE, &fields);
}

/// Version 1; the cell's area, another, and its own with the island's bit; 19 before 13.
fn version_rounds(to: &mut Records) {
    for area in [None, Some(489), Some(490), Some(489 | 1_024)] {
        for (start, choices, visited) in [(7, &[0, 0][..], 4), (0, &[], 1)] {
            let version = [1 + area.is_some() as u16, area.unwrap_or(0)];
            went(to, FOLLOW_VERSION, &version, area, (start, choices, visited));
        }
    }
}

fn files(to: &mut Records) {
    let r = &mut Rng::new(18);
    let round = Round { start: 258, choices: vec![5, 6] };
    let good = file_of(&round);
    for lent in [2, 3, 1, 0] { file(to, &good, lent); }
    for copy in damaged(&good, r) { file(to, &copy, 2); }
    // Mark and version of a file that is no round, and the order of the causes.
    for bytes in [&b""[..], b"RND", b"RND\x02\0", b"RND\x01\x01\0\0\0\0", b"rnd\x01\0\0\0\0\0", &[0; 9]] {
        file(to, bytes, 0);
    }
    for tail in [&[0, 0, 0][..], &[0, 0, 0, 0], &[0, 0, 1, 0], &[0, 0, 255, 255], &[255, 255, 0, 1]] {
        file(to, &[&HEAD, tail].concat(), 0);
    }
}

/// The layouts stand in the program's round_files.rt and cell.rt.
fn file(to: &mut Records, bytes: &[u8], lent: usize) {
    let answer = read(bytes, lent);
    let mut fields = vec![U16(bytes.len() as u16), U16(lent as u16)];
    fields.extend(told(&answer));
    let round = answer.unwrap_or(Round { start: 0, choices: Vec::new() });
    let mut list = round.choices.clone();
    list.resize(lent, BEFORE_CHOICES);
    fields.extend([U16(round.start), U16(round.choices.len() as u16), Bytes(bytes), Bytes(&list)]);
    to.add(FILE, &fields);
}

fn long(to: &mut Records, n: usize, lent: usize) {
    let answer: Answer<usize> = write(&Round { start: 7, choices: vec![7; n] }, lent).map(|f| f.len());
    let mut fields = vec![U16(7), U32(n as u32), U32(lent as u32)];
    fields.extend(told(&answer));
    fields.push(U32(answer.unwrap_or(0) as u32));
    to.add(LONG, &fields);
}

/// Numbers 7, 2, 2 and 7. Of the two nodes with 2 `node` takes the one at its place, of those with 7 the first; number 0
/// no node has, though place 0 is there.
fn yard() -> Cell {
    let link = |node_id: u16| Link { area_id: if node_id == 5 { 490 } else { 489 }, node_id, ..Link::default() };
    let node = |node_id: u16, links: &[u16]| Node {
        area_id: 489, node_id, links: links.iter().map(|&n| link(n)).collect(), ..Node::default()
    };
    Cell { nodes: vec![node(7, &[2, 5]), node(2, &[7]), node(2, &[7, 77]), node(7, &[])], ..Cell::default() }
}

/// Done, left, no-node, no-link; 13, also before 7; a visited list one too short, and one to spare.
fn rounds(to: &mut Records) {
    for (start, choices, visited) in [
        (7, &[][..], 1), (7, &[0, 0], 4), (7, &[1], 2), (2, &[1], 1), (2, &[2], 2), (0, &[0], 2), (1, &[], 0),
        (7, &[0, 0], 2),
    ] {
        followed(to, start, choices, visited);
    }
}

fn followed(to: &mut Records, start: u16, choices: &[u8], visited: usize) {
    went(to, FOLLOW, &[], None, (start, choices, visited));
}

/// A round of an area, or of none, behind what a record of this kind has first.
fn went(to: &mut Records, kind: u8, first: &[u16], area: Option<u16>, (start, choices, visited): (u16, &[u8], usize)) {
    let (cell, section) = (yard(), packed(&yard()));
    let round = Round { start, choices: choices.to_vec() };
    let answer = refuse_if(area.is_some_and(|a| a != cell.area()), 19, 0)
        .and_then(|()| follow(&cell, cell.counts(), cell.counts(), &round, visited));
    let (mut end, mut list) = ((0, 0, 0), vec![BEFORE_PLACES; visited]);
    if let Ok(w) = &answer {
        end = match w.end {
            End::Done => (0, 0, 0),
            End::NoLink => (1, 0, 0),
            End::Left(area, number) => (2, area, number),
            End::NoNode => (3, 0, 0),
        };
        for (k, &p) in w.places.iter().enumerate() { list[k] = p as u16; }
    }
    let mut fields: Vec<_> = first.iter().map(|&n| U16(n)).collect();
    fields.extend([U16(section.len() as u16), U16(start), U16(choices.len() as u16), U16(visited as u16)]);
    fields.extend(told(&answer));
    let visits = answer.map_or(0, |w| w.places.len());
    fields.extend([U8(end.0), U16(end.1), U16(end.2), U16(visits as u16), Bytes(&section), Bytes(choices)]);
    fields.extend(list.into_iter().map(U16));
    to.add(kind, &fields);
}
