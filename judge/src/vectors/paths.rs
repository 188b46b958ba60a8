//! Kind 21: a shortest path in the cell of a file. The Rust has none: the answers are T-06's. Each path is the only one
//! with its sum, so that its choices and places are known too.
use super::cells::{packed, told};
use super::Field::{Bytes, U16, U32};
use super::Records;
use crate::model::cell::{Cell, Link, Node};
use crate::model::paths::{by_every_walk, edges, refused};
use crate::model::{refuse_if, Answer};

const PATH: u8 = 21;

/// What the lists hold before a call.
const BEFORE_CHOICES: u8 = 165;
const BEFORE_PLACES: u16 = 65_535;

/// Numbers 7, 9, 3, 5: a long link beside two short ones, two links between two nodes, one that leaves, one to a number
/// that no node has, and a node that no link leads to.
fn yard() -> Cell {
    let link = |node_id: u16, length: u8| Link {
        area_id: if node_id == 6 { 490 } else { 489 }, node_id, length, ..Link::default()
    };
    let node = |node_id: u16, links: &[(u16, u8)]| Node {
        area_id: 489, node_id, links: links.iter().map(|&(n, length)| link(n, length)).collect(), ..Node::default()
    };
    Cell {
        nodes: vec![
            node(7, &[(6, 1), (3, 200), (9, 90), (9, 80)]), node(9, &[(77, 1), (3, 100), (7, 0)]),
            node(3, &[(7, 255)]), node(5, &[(7, 4)]),
        ],
        ..Cell::default()
    }
}

pub fn add(to: &mut Records) {
    for (from, goal) in [(0, 2), (0, 0), (0, 3), (0, 4)] { path(to, from, goal, [16, 4, 4]); }
    // The scratch and the lists, each one entry too short, and to spare; 13 before 7 at 9, 17 before 7 at 8.
    for (goal, lent) in [(2, [15, 4, 4]), (2, [16, 3, 4]), (2, [16, 4, 3]), (2, [20, 6, 5]), (4, [0, 0, 0]), (3, [16, 0, 0])] {
        path(to, 0, goal, lent);
    }
}

/// The choices and the places of the one walk with the least sum.
fn least(cell: &Cell, from: usize, goal: usize, sum: u64) -> (Vec<u8>, Vec<usize>) {
    let (mut choices, mut places, mut left) = (Vec::new(), vec![from], sum);
    while *places.last().unwrap() != goal {
        let at = *places.last().unwrap();
        let (choice, to, length) = cell.nodes[at].links.iter().enumerate()
            .filter_map(|(k, l)| cell.node(l.node_id).filter(|_| cell.belongs(l.area_id)).map(|p| (k, p, l.length as u64)))
            .find(|&(_, p, length)| length <= left && by_every_walk(cell, p, goal) == Some(left - length))
            .expect("a link of the path");
        assert!(edges(cell, at).contains(&(to, length)));
        choices.push(choice as u8);
        places.push(to);
        left -= length;
    }
    (choices, places)
}

fn answer(cell: &Cell, from: usize, goal: usize, [scratch, choices, places]: [usize; 3]) -> Answer<u64> {
    refused(cell.counts(), [64, 256, 16, 512, 64], from, goal, scratch)?;
    let sum = by_every_walk(cell, from, goal);
    refuse_if(sum.is_none(), 17, 0)?;
    refuse_if(choices < cell.nodes.len() || places < cell.nodes.len(), 7, 8)?;
    Ok(sum.unwrap())
}

/// The layout stands in the program's shortest.rt.
fn path(to: &mut Records, from: usize, goal: usize, lent: [usize; 3]) {
    let (cell, section) = (yard(), packed(&yard()));
    let answer = answer(&cell, from, goal, lent);
    let (mut choices, mut places) = (vec![BEFORE_CHOICES; lent[1]], vec![BEFORE_PLACES; lent[2]]);
    let mut links = 0;
    if let Ok(sum) = answer {
        let (by, met) = least(&cell, from, goal, sum);
        links = by.len();
        choices[..links].copy_from_slice(&by);
        for (k, &p) in met.iter().enumerate() { places[k] = p as u16; }
    }
    let mut fields = vec![U16(section.len() as u16), U16(from as u16), U16(goal as u16)];
    fields.extend(lent.map(|n| U16(n as u16)));
    fields.extend(told(&answer));
    fields.extend([U32(answer.unwrap_or(0) as u32), U16(links as u16), Bytes(&section), Bytes(&choices)]);
    fields.extend(places.into_iter().map(U16));
    to.add(PATH, &fields);
}
