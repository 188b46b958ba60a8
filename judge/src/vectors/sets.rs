//! Kind 22: walks that cross the members of a set, and members renumbered between them. The Rust has no sets: the
//! answers are T-09's. One record has a whole set and all its steps, so that it is said once.
use super::Field::{Bytes, U16, U8};
use super::{Field, Records};
use crate::model::cell::{Cell, Link, Node, ISLAND};
use crate::model::sets::{crossing, join, renumber_member};
use crate::model::walk::End;
use crate::model::{refuse_if, Answer, Refused};

const SET: u8 = 22;
const WALK: u8 = 0;
const RENUMBERING: u8 = 1;
const BEFORE: u8 = 255;
const WEST: u16 = 489;
const EAST: u16 = 490;

fn cell(area: u16, nodes: &[(u16, bool, &[(u16, u16)])]) -> Cell {
    let link = |&(area_id, node_id): &(u16, u16)| Link { area_id, node_id, ..Link::default() };
    let nodes = nodes.iter().map(|&(node_id, ped, links)| Node {
        area_id: area, node_id, flags: [0, if ped { 80 } else { 0 }, 0, 0, 0, 0],
        links: links.iter().map(link).collect(), ..Node::default()
    });
    Cell { nodes: nodes.collect(), ..Cell::default() }
}

/// Two cells whose links cross, and the first one's island, whose link to area 489 is its own. One link leads to an
/// area that no member has, one to a number that no node has.
fn yard() -> [Cell; 3] {
    [
        cell(WEST, &[(7, false, &[(WEST, 3), (EAST, 9)]), (3, true, &[(EAST, 5), (700, 1)])]),
        cell(EAST, &[(5, true, &[(EAST, 9), (WEST, 7)]), (9, false, &[(WEST, 77)])]),
        cell(WEST | ISLAND, &[(3, false, &[(WEST, 3), (EAST, 5)])]),
    ]
}

pub fn add(to: &mut Records) {
    let mut set = Vec::new();
    for c in yard() {
        join(&set, &c).expect("a cell that joins");
        set.push(c);
    }
    let mut body = Body(Vec::new(), 0);
    // No-node over both cells; done by way of the island, the list just long enough and one entry too short; left;
    // no-link; 13 the member.
    body.walk(&set, (0, 0), &[0, 0, 1, 1, 0], 5);
    body.walk(&set, (2, 0), &[0, 1, 0], 4);
    body.walk(&set, (2, 0), &[0, 1, 0], 3);
    body.walk(&set, (0, 1), &[1], 1);
    body.walk(&set, (2, 0), &[9], 1);
    body.walk(&set, (3, 0), &[], 1);
    // The east's nodes change their places: the same ways, and 13.
    body.renumber(&mut set, 1, 2);
    body.walk(&set, (0, 0), &[0, 0, 1, 1, 0], 5);
    body.walk(&set, (2, 0), &[0, 1, 0], 4);
    body.renumber(&mut set, 3, 0);
    let drawn: Vec<u8> = yard().iter().flat_map(drawn).collect();
    to.add(SET, &[U8(3), U8(body.1), Bytes(&drawn), Bytes(&body.0)]);
}

/// The layout stands in the program's crossing.rt.
fn drawn(c: &Cell) -> Vec<u8> {
    let (mut out, mut start) = (Vec::new(), 0);
    for f in [U16(c.area()), U8(c.nodes.len() as u8), U8(c.counts()[1] as u8)] { f.put(&mut out); }
    for n in &c.nodes {
        out.extend([n.node_id as u8, n.flags[1], start, n.links.len() as u8]);
        start += n.links.len() as u8;
    }
    for l in c.nodes.iter().flat_map(|n| &n.links) {
        for f in [U16(l.area_id), U8(l.node_id as u8)] { f.put(&mut out); }
    }
    out
}

/// Steps, and how many they are.
struct Body(Vec<u8>, u8);

fn told<T>(a: &Answer<T>) -> [u8; 2] {
    let Refused(number, place) = a.as_ref().err().copied().unwrap_or(Refused(0, 0));
    [number as u8, place as u8]
}

impl Body {
    fn walk(&mut self, set: &[Cell], start: (usize, usize), choices: &[u8], room: usize) {
        let answer = crossing(set, start, choices)
            .and_then(|(end, at)| refuse_if(at.len() > room, 7, 8).map(|()| (end, at)));
        let (end, area, number) = match answer.as_ref().map(|w| w.0) {
            Ok(End::NoLink) => (1, 0, 0),
            Ok(End::Left(area, number)) => (2, area, number),
            Ok(End::NoNode) => (3, 0, 0),
            _ => (0, 0, 0),
        };
        let mut list: Vec<u8> =
            answer.iter().flat_map(|w| &w.1).flat_map(|&(i, p)| [i as u8, p as u8]).collect();
        let count = list.len() / 2;
        list.resize(2 * room, BEFORE);
        let [refused, place] = told(&answer);
        let fields: [Field; 13] = [
            U8(WALK), U8(start.0 as u8), U8(start.1 as u8), U8(choices.len() as u8), U8(room as u8), U8(refused),
            U8(place), U8(end), U16(area), U8(number as u8), U8(count as u8), Bytes(choices), Bytes(&list),
        ];
        for f in fields { f.put(&mut self.0); }
        self.1 += 1;
    }

    fn renumber(&mut self, set: &mut [Cell], member: usize, room: usize) {
        let answer = renumber_member(set, member, 65_536, room);
        let mut list: Vec<u8> = answer.iter().flatten().map(|&p| p as u8).collect();
        list.resize(room, BEFORE);
        let [refused, place] = told(&answer);
        self.0.extend([RENUMBERING, member as u8, room as u8, refused, place]);
        self.0.extend(list);
        self.1 += 1;
    }
}
