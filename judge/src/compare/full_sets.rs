//! Sets of 65,536 nodes together, and just under: what joins, and nodes more in members with and without room.
use super::members::asked;
use super::seen::{self, met_if, Call, Met};
use super::{same, Verdict, MODEL, PORT};
use crate::inputs::rng::Rng;
use crate::model::cell::{Cell, Node};
use crate::model::sets::join;
use crate::model::{edit, Answer, MOST_NODES};
use crate::port::memory::Memory;
use crate::port::sets::Set;

/// Each member's nodes, and how many more its part has room for.
pub type Full = Vec<(usize, usize)>;

pub fn cases() -> Vec<(String, Full)> {
    let all: Vec<Full> = vec![
        vec![(65_530, 3), (4, 5)],
        vec![(4, 5), (65_530, 3)],
        vec![(65_535, 0), (0, 4)],
        vec![(65_536, 2), (0, 1)],
        vec![(65_536, 0)],
        vec![(32_768, 1), (32_767, 2), (0, 0)],
        vec![(65_533, 1), (1, 0), (1, 9)],
        vec![(65_520, 0), (3, 5), (9, 4)],
    ];
    all.into_iter().map(|full| (format!("{full:?}"), full)).collect()
}

fn cell(area: u16, n: usize) -> Cell {
    let nodes = (0..n).map(|i| Node { area_id: area, node_id: i as u16, ..Node::default() }).collect();
    Cell { nodes, ..Cell::default() }
}

pub fn check(full: &Full) -> Verdict {
    let r = &mut Rng::new(full.len() as u64);
    let room: usize = full.iter().map(|&(n, more)| n + more).sum();
    let mut port = Set::rubbish(r, full.len() + 1, [room + 1, 0, 0, 0, 0]);
    let mut set = Vec::new();
    for (k, &(n, more)) in full.iter().enumerate() {
        joins(&mut set, &mut port, cell(if n == 0 { 0 } else { k as u16 + 1 }, n), more)?;
    }
    for turn in 0..4 {
        for i in 0..set.len() { one_more(&mut set, &mut port, i, turn)?; }
    }
    met_if(set.iter().map(|c: &Cell| c.nodes.len()).sum::<usize>() == MOST_NODES, Met::MostNodes);
    let before = port.clone();
    joins(&mut set, &mut port, cell(99, 1), 0)?;
    same("a full set", MODEL, &before, PORT, &port)
}

fn joins(set: &mut Vec<Cell>, port: &mut Set, c: Cell, more: usize) -> Verdict {
    let want = join(set, &c);
    let mut sizes = c.counts();
    sizes[0] += more;
    let have = port.join(&Memory::of(&mut Rng::new(1), &c, c.counts()), sizes);
    seen::note(Call::Set, &have);
    same("joining a full set", MODEL, &want, PORT, &have)?;
    if have.is_ok() { set.push(c); }
    Ok(())
}

/// 14 at the total, else 7 where the part has no room.
fn one_more(set: &mut [Cell], port: &mut Set, i: usize, turn: usize) -> Verdict {
    let before = port.clone();
    let size = port.sizes()[i];
    let mut own = port.memory(i);
    let position = [1.0f32, -2.0, turn as f32].map(f32::to_bits);
    let want: Answer<()> = asked(&before, i, &[0], true).and_then(|()| edit::add_node(&mut set[i], 7, position, size));
    let have = port.add_node(i, 7, position);
    seen::note(Call::Edit, &have);
    same("a node more", MODEL, &want, PORT, &have)?;
    if want.is_err() { return same("no node more", MODEL, &before, PORT, port); }
    let own_answer = own.add_node(7, position);
    same("a node more of the cell", MODEL, &want, PORT, &own_answer)?;
    same("the set with a node more", MODEL, &before.with(i, &own), PORT, port)?;
    same("the node", MODEL, &set[i].nodes.last(), PORT, &port.memory(i).cell().nodes.last())
}
