//! Sets of cells, against T-09's sentences: cells join, walks cross, members are renumbered, cells leave.
use super::{full_sets, members, set_lists};
use super::run::Run;
use super::seen::{self, met, met_if, Call, Met};
use super::{same, Mismatch, Verdict, MODEL, PORT};
use crate::inputs::rng::Rng;
use crate::model::cell::{Cell, Junction, Link, Node, Ref};
use crate::model::sets::{crossing, follow, join, leave, member_for, renumber_member, sound};
use crate::model::walk::End;
use crate::model::{refuse_if, Answer, Refused};
use crate::port::memory::Memory;
use crate::port::sets::Set;
use crate::port::walks::Walked;

/// Sets of a short run and of a full one.
const SETS: [u64; 2] = [20_000, 400_000];
const SCRATCH: usize = 65_536;
const KEPT: u32 = 0xA5A5_A5A5;
/// Areas with and without the island's bit, 0 for what an empty cell has, and one that few cells have.
const AREAS: [u16; 12] = [5, 1_029, 6, 7, 489, 1_513, 100, 0, 2_053, 31, 32, 9];

pub fn families(run: &Run) {
    run.counted("sets of cells", SETS[run.full as usize], |r| r.next(), whole, |_| Vec::new());
    run.list("full sets", &full_sets::cases(), full_sets::check);
}

/// Lists of calls on sound sets alone, so many.
pub fn lists(run: &Run, count: u64) {
    run.counted("lists of calls on sound sets", count, |r| r.next(), set_lists::check, |_| Vec::new());
}

/// A small cell, most of whose links lead to nodes of its own or of the cells before it.
pub fn cell(r: &mut Rng, area: u16, set: &[Cell]) -> Cell {
    let n = if r.once_in(8) { 0 } else { 1 + r.below(4) };
    let mut nodes: Vec<Node> = (0..n).map(|i| Node {
        area_id: area, node_id: if r.once_in(3) { i as u16 } else { 10 + 3 * i as u16 }, street_name: r.u32(),
        flags: [r.u8(), if r.once_in(2) { 80 } else { r.u8() }, r.u8(), r.u8(), r.u8(), r.u8() & 7],
        unused: [r.u32(), r.u32(), r.u32(), r.u32(), r.u16() as u32], ..Node::default()
    }).collect();
    let mut known: Vec<(u16, u16)> = nodes.iter().map(|x| (area, x.node_id)).collect();
    for c in set { known.extend(c.nodes.iter().map(|x| (c.area(), x.node_id))); }
    for node in &mut nodes {
        for _ in 0..r.below(4) {
            let (area_id, node_id) = match r.below(20) {
                0 => (r.pick(&AREAS), r.below(20) as u16),
                1 => (area & !1_024, r.pick(&known).1),
                2 => (700, 1),
                _ => r.pick(&known),
            };
            node.links.push(Link { area_id, node_id, flags: [r.u8(), r.u8(), r.u8() & 7], length: r.u8() });
        }
    }
    let refs = if n == 0 || r.once_in(2) { Vec::new() } else {
        vec![Ref { area_id: area, node_id: nodes[0].node_id, junction_id: 0, unk0: r.u16() }]
    };
    let heights = r.below(4);
    let junctions = if r.once_in(3) { Vec::new() } else {
        vec![Junction { position: [r.u32() >> 2, r.u32() >> 2], width: heights as u8, height: 1, values: r.bytes(heights),
            ..Junction::default() }]
    };
    Cell { vft: r.u32(), nodes, junctions, refs, ..Cell::default() }
}

fn whole(seed: &u64) -> Verdict {
    let r = &mut Rng::new(*seed);
    let mut set: Vec<Cell> = Vec::new();
    let lent = if r.once_in(6) { [6, 8, 4, 9, 2] } else { [60, 1_500, 40, 90, 40] };
    let places = if r.once_in(6) { 3 } else { 10 };
    let mut port = Set::rubbish(r, places, lent);
    let most = if r.once_in(5) { 11 } else { 1 + r.below(5) };
    for k in 0..most {
        let area = if r.once_in(8) { r.pick(&AREAS) } else { AREAS[k % AREAS.len()] };
        let c = cell(r, area, &set);
        joins(r, &mut set, &mut port, &c)?;
    }
    for _ in 0..3 {
        soundness(r, &set, &port)?;
        walks(r, &set, &port)?;
        rounds(r, &set, &port)?;
        renumbers(r, &mut set, &mut port)?;
        members::looks(r, &port)?;
        for _ in 0..4 { members::edits(r, &mut set, &mut port)?; }
    }
    leaves(r, &mut set, &mut port)?;
    walks(r, &set, &port)
}

fn cells_same(set: &[Cell], port: &Set) -> Verdict { same("the members", MODEL, &set.to_vec(), PORT, &port.cells()) }

/// 18 and 14 by the model; then 7 at the lowest list without room for the sizes, or that is shorter than the count.
fn joins(r: &mut Rng, set: &mut Vec<Cell>, port: &mut Set, c: &Cell) -> Verdict {
    let m = Memory::of(r, c, c.counts());
    let mut sizes = c.counts().map(|n| n + r.below(3));
    if r.once_in(12) { sizes[0] = sizes[0].saturating_sub(2); }
    if r.once_in(3) { sizes[1] += 300; }
    let (used, lent, counts) = (port.used(), port.lent(), c.counts());
    let mut want = join(set, c);
    if want.is_ok() {
        if let Some(k) = (0..5).find(|&k| sizes[k] < counts[k] || used[k] + sizes[k] > lent[k]) { want = Err(Refused(7, k)); }
        else { want = refuse_if(set.len() >= port.members.len(), 7, 10); }
    }
    let before = port.clone();
    let have = port.join(&m, sizes);
    seen::note(Call::Set, &have);
    same("joining", MODEL, &want, PORT, &have)?;
    if have.is_ok() { set.push(c.clone()); } else { same("a refused joining leaves", MODEL, &before, PORT, port)?; }
    same("how many members", MODEL, &set.len(), PORT, &port.count)?;
    cells_same(set, port)
}

fn soundness(r: &mut Rng, set: &[Cell], port: &Set) -> Verdict {
    let short = r.once_in(8);
    let mut scratch = vec![KEPT; if short { SCRATCH - 1 } else { SCRATCH }];
    let before = port.clone();
    let have = port.sound(&mut scratch);
    same("a set that is judged", MODEL, &before, PORT, port)?;
    let want = if short { Err(Refused(7, 6)) } else { Ok(sound(set)) };
    if let Ok(yes) = &want { met(if *yes { Met::Sound } else { Met::Unsound }); }
    same("soundness of the set", MODEL, &want, PORT, &have)
}

fn walks(r: &mut Rng, set: &[Cell], port: &Set) -> Verdict {
    let before = port.clone();
    for _ in 0..4 {
        let i = r.below(set.len() + 1);
        let start = (i, r.below(set.get(i).map_or(0, |c| c.nodes.len()) + 1));
        let choices: Vec<u8> = (0..r.below(9)).map(|_| if r.once_in(10) { r.u8() } else { r.below(2) as u8 }).collect();
        let room = if r.once_in(4) { r.below(choices.len() + 1) } else { choices.len() + 1 };
        walk(set, port, start, &choices, room)?;
    }
    same("a set that is walked", MODEL, &before, PORT, port)
}

fn walk(set: &[Cell], port: &Set, start: (usize, usize), choices: &[u8], room: usize) -> Verdict {
    let walked = |visited: &mut [[u32; 2]]| port.crossing(start, choices, visited);
    crossed("a crossing walk", crossing(set, start, choices), room, walked)
}

/// A walk's answer and the list that it fills, with room for so many.
fn crossed(
    what: &'static str, whole: Answer<(End, Vec<(usize, usize)>)>, room: usize,
    walked: impl FnOnce(&mut [[u32; 2]]) -> Walked,
) -> Verdict {
    let want = whole.and_then(|(end, at)| refuse_if(at.len() > room, 7, 8).map(|()| (end, at)));
    let mut visited = vec![[KEPT; 2]; room];
    let (have, kept) = walked(&mut visited);
    seen::note(Call::Set, &have);
    if let Ok((end, at)) = &want {
        seen::note_end(end);
        met_if(at.iter().any(|(i, _)| *i != at[0].0), Met::Followed);
    }
    let mut list: Vec<[u32; 2]> =
        want.as_ref().map_or(Vec::new(), |(_, at)| at.iter().map(|&(i, p)| [i as u32, p as u32]).collect());
    list.resize(room, [KEPT; 2]);
    same(what, MODEL, &want.map(|(end, at)| (end, at.len())), PORT, &have)?;
    same("its locations", MODEL, &list, PORT, &visited)?;
    same("what it leaves", MODEL, &true, PORT, &kept)
}

/// Rounds of both versions, of a member's area, of one with the island's bit turned, and of none.
fn rounds(r: &mut Rng, set: &[Cell], port: &Set) -> Verdict {
    for _ in 0..4 {
        let i = r.below(set.len() + 1);
        let own = set.get(r.below(set.len() + 1)).map_or(701, |c| c.area());
        let area = if r.once_in(3) { None } else { Some(if r.once_in(4) { own ^ 1_024 } else { own }) };
        let first = area.map_or(Some(i), |a| set.iter().position(|c| c.area() == a));
        let found = port.member_of_area(area.unwrap_or(own));
        let member = set.iter().position(|c| c.area() == area.unwrap_or(own));
        same("the member of an area", MODEL, &(member, true), PORT, &found)?;
        let nodes = first.and_then(|k| set.get(k)).map_or(&[][..], |c| &c.nodes[..]);
        let start = if nodes.is_empty() || r.once_in(6) { r.below(30) as u16 } else { r.pick(nodes).node_id };
        let choices: Vec<u8> = (0..r.below(9)).map(|_| r.below(2) as u8).collect();
        let room = if r.once_in(4) { r.below(choices.len() + 1) } else { choices.len() + 1 };
        let named = area.map_or((1, 7), |a| (2, a));
        let walked = |visited: &mut [[u32; 2]]| port.follow(named, i, start, &choices, visited);
        crossed("a round in a set", follow(set, area, i, start, &choices), room, walked)?;
    }
    let version = r.pick(&[0, 3, 256, 65_535]);
    let walked = |visited: &mut [[u32; 2]]| port.follow((version, 5), 0, 0, &[], visited);
    crossed("a round of no version", Err(Refused(15, 0)), 1, walked)
}

/// Renumbers a member; in a sound set every crossing walk from the same node then goes the same way.
fn renumbers(r: &mut Rng, set: &mut [Cell], port: &mut Set) -> Verdict {
    let j = r.below(set.len() + 1);
    let n = set.get(j).map_or(0, |c| c.nodes.len());
    let (short, few) = (r.once_in(12), r.once_in(12) && n > 0);
    let mut scratch = vec![KEPT; if short { SCRATCH - 1 } else { SCRATCH }];
    let mut places = vec![KEPT; if few { n - 1 } else { n + 2 }];
    let before: Vec<Cell> = set.to_vec();
    let kept = port.clone();
    let want = renumber_member(set, j, scratch.len(), places.len());
    let have = port.renumber(j, &mut scratch, &mut places);
    seen::note(Call::Set, &have);
    same("renumbering a member", MODEL, &want.as_ref().map(|_| ()).map_err(|e| *e), PORT, &have)?;
    let Ok(new) = want else {
        same("a refused renumbering leaves", MODEL, &kept, PORT, port)?;
        return same("its lists", MODEL, &true, PORT, &(scratch.iter().chain(&places).all(|&x| x == KEPT)));
    };
    let mut list: Vec<u32> = new.iter().map(|&p| p as u32).collect();
    list.resize(places.len(), KEPT);
    same("new places", MODEL, &list, PORT, &places)?;
    cells_same(set, port)?;
    met_if(new.iter().enumerate().any(|(a, b)| a != *b), Met::Moved);
    met_if(before.iter().enumerate().any(|(i, c)| i != j && set[i] != *c), Met::Backwards);
    unnoticed(r, &before, set, port, j, &new)
}

fn unnoticed(r: &mut Rng, before: &[Cell], set: &[Cell], port: &Set, j: usize, new: &[usize]) -> Verdict {
    if !sound(before) { return Ok(()); }
    let moved = |(i, p): (usize, usize)| if i == j { (i, new[p]) } else { (i, p) };
    for _ in 0..3 {
        let i = r.below(before.len());
        if before[i].nodes.is_empty() { continue; }
        let start = (i, r.below(before[i].nodes.len()));
        let choices: Vec<u8> = (0..r.below(9)).map(|_| r.below(2) as u8).collect();
        let (end, at) = crossing(before, start, &choices).map_err(|e| refused(e))?;
        let mut visited = vec![[KEPT; 2]; choices.len() + 1];
        let (have, _) = port.crossing(moved(start), &choices, &mut visited);
        let then: Vec<[u32; 2]> = at.iter().map(|&s| moved(s)).map(|(i, p)| [i as u32, p as u32]).collect();
        same("the end as before", "before", &Ok((end, at.len())), PORT, &have)?;
        same("the locations, moved", "before", &then, PORT, &visited[..at.len()].to_vec())?;
        let bodies = |set: &[Cell], (i, p): (usize, usize)| {
            let n = &set[i].nodes[p];
            (n.area_id, n.street_name, n.position, n.flags, n.unused, n.links.len())
        };
        let same_bodies = at.iter().all(|&s| bodies(before, s) == bodies(set, moved(s)));
        same("what is shown", MODEL, &true, PORT, &same_bodies)?;
        met(Met::Watched);
        met_if(at.iter().any(|(i, _)| member_for(before, start.0, before[*i].area()) != Some(start.0)), Met::Found);
    }
    Ok(())
}

fn refused(e: Refused) -> Mismatch {
    Mismatch { what: "a walk in a sound set".into(), sides: [(MODEL, format!("{e:?}")), (PORT, "a walk".into())] }
}

fn leaves(r: &mut Rng, set: &mut Vec<Cell>, port: &mut Set) -> Verdict {
    let area = if set.is_empty() || r.once_in(4) { r.pick(&AREAS) } else { set[r.below(set.len())].area() };
    members::hands_back(r, set, port, area)?;
    let before = port.clone();
    let want: Answer<()> = leave(set, area);
    let have = port.leave(area);
    seen::note(Call::Set, &have);
    same("leaving", MODEL, &want, PORT, &have)?;
    if have.is_err() { same("a refused leaving leaves", MODEL, &before, PORT, port)?; }
    cells_same(set, port)
}
