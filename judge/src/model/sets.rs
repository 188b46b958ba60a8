//! T-09 from its sentences: a set of cells, in the order of joining. No lent memory: a member is a cell.
use super::cell::{Cell, Link};
use super::renumber::renumber;
use super::walk::{is_sound, End};
use super::{refuse_if, Answer, Refused, MOST_NODES};

pub const MOST_MEMBERS: usize = 9;

/// The member that a link of the member i names: its own by the cell's rule, else the first joined of that area in
/// full.
pub fn member_for(set: &[Cell], i: usize, area: u16) -> Option<usize> {
    if set[i].belongs(area) { Some(i) } else { set.iter().position(|c| c.area() == area) }
}

/// 18 the area is there; 14 a tenth member, or nodes beyond the total.
pub fn join(set: &[Cell], cell: &Cell) -> Answer<()> {
    refuse_if(set.iter().any(|c| c.area() == cell.area()), 18, 0)?;
    let together: usize = set.iter().map(|c| c.nodes.len()).sum::<usize>() + cell.nodes.len();
    refuse_if(set.len() >= MOST_MEMBERS || together > MOST_NODES, 14, 0)
}

/// 13 the set lacks the area; the first joined leaves.
pub fn leave(set: &mut Vec<Cell>, area: u16) -> Answer<()> {
    let i = set.iter().position(|c| c.area() == area);
    refuse_if(i.is_none(), 13, 0)?;
    set.remove(i.unwrap_or_default());
    Ok(())
}

/// Each member's soundness, and each link into a member names a node there.
pub fn sound(set: &[Cell]) -> bool {
    let arrives = |i: usize, l: &Link| member_for(set, i, l.area_id).is_none_or(|j| set[j].node(l.node_id).is_some());
    set.iter().all(is_sound)
        && set.iter().enumerate().all(|(i, c)| c.nodes.iter().flat_map(|n| &n.links).all(|l| arrives(i, l)))
}

/// Renumbers a member; links of the others that name it, and that their own rule doesn't claim, follow.
pub fn renumber_member(set: &mut [Cell], j: usize, scratch: usize, places: usize) -> Answer<Vec<usize>> {
    refuse_if(j >= set.len(), 13, 0)?;
    let before = set.to_vec();
    let new = renumber(&mut set[j], scratch, places)?;
    for (i, c) in set.iter_mut().enumerate().filter(|(i, _)| *i != j) {
        for l in c.nodes.iter_mut().flat_map(|n| &mut n.links) {
            if member_for(&before, i, l.area_id) != Some(j) { continue; }
            // of equal old numbers the last node counts
            let old = before[j].nodes.iter().rposition(|n| n.node_id == l.node_id);
            if let Some(p) = old { l.node_id = new[p] as u16; }
        }
    }
    Ok(new)
}

/// T-11 in a set: a round that says its area starts in the member of that area, the first joined (19 if none has it);
/// one that says none starts in the member named. 13 where that isn't there, or none of its nodes has the number.
pub fn follow(
    set: &[Cell], area: Option<u16>, member: usize, start: u16, choices: &[u8],
) -> Answer<(End, Vec<(usize, usize)>)> {
    let i = match area {
        Some(a) => set.iter().position(|c| c.area() == a).ok_or(Refused(19, 0))?,
        None => member,
    };
    let p = set.get(i).and_then(|c| c.node(start)).ok_or(Refused(13, 0))?;
    crossing(set, (i, p), choices)
}

/// The end and the locations visited; 13 where the member or the place isn't there.
pub fn crossing(set: &[Cell], start: (usize, usize), choices: &[u8]) -> Answer<(End, Vec<(usize, usize)>)> {
    refuse_if(start.0 >= set.len() || start.1 >= set[start.0].nodes.len(), 13, 0)?;
    let mut at = vec![start];
    for &choice in choices {
        let (i, p) = at[at.len() - 1];
        let Some(l) = set[i].nodes[p].links.get(choice as usize) else { return Ok((End::NoLink, at)) };
        let Some(j) = member_for(set, i, l.area_id) else { return Ok((End::Left(l.area_id, l.node_id), at)) };
        let Some(q) = set[j].node(l.node_id) else { return Ok((End::NoNode, at)) };
        at.push((j, q));
    }
    Ok((End::Done, at))
}
