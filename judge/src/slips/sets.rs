//! Wrong calls on a set and on one of its members: the right one, with one rule changed.
use super::{any, on, Slip};
use crate::model::{Answer, Refused};
use crate::port::memory::Memory;
use crate::port::sets::Set;

/// The set before a call, where a slip may want it.
pub fn before(s: &Set) -> Option<Set> { any().then(|| s.clone()) }

/// Links of the others stay as they were.
pub fn renumbered(before: Option<Set>, s: &mut Set, member: usize, right: Answer<()>) -> Answer<()> {
    let Some(old) = before else { return right };
    if on(Slip::OthersLeft) && right.is_ok() {
        let own = s.memory(member);
        s.links.copy_from_slice(&old.links);
        *s = s.with(member, &own);
    }
    right
}

/// Each node is told to be in the member that the walk started in.
pub fn crossed(start: usize, visited: &mut [[u32; 2]], accepted: bool) {
    if !on(Slip::HereMember) || !accepted { return; }
    for v in visited.iter_mut().filter(|v| v[0] < 9) { v[0] = start as u32; }
}

pub fn node_added(s: &Set, right: Answer<()>) -> Answer<()> {
    let together: usize = (0..s.count).map(|i| s.counts(i)[0]).sum();
    match right {
        Err(Refused(7, 0)) if on(Slip::RoomBehind) => Ok(()),
        Err(Refused(14, 0)) if on(Slip::TotalForgotten) && together == 65_536 => Err(Refused(7, 0)),
        right => right,
    }
}

/// An accepted edit has changed the next member's words, a refused one the member's own.
pub fn edited(s: &mut Set, member: usize, right: &Answer<()>) {
    if on(Slip::NextTouched) && right.is_ok() && member + 1 < s.count { s.members[member + 1][9] ^= 1; }
    if on(Slip::RefusedMember) && right.is_err() && member < s.count { s.members[member][9] ^= 1; }
}

/// 13 for a place that isn't there, before the set's own causes.
pub fn asked<T>(s: &Set, member: usize, list: usize, at: usize, right: Answer<T>) -> Answer<T> {
    let beyond = member < s.count && at >= s.counts(member)[list];
    if on(Slip::CellFirst) && beyond && right.is_err() { Err(Refused(13, 0)) } else { right }
}

/// An entry behind the cell that is handed back is cleared.
pub fn handed_back(to: &mut Memory, right: &Answer<()>) {
    if !on(Slip::HandedBehind) || right.is_err() { return; }
    let held = to.counts()[0];
    if let Some(w) = to.nodes.get_mut(held) { *w = [0; 13]; }
}

/// The member's own area counts where a slip takes the island's bit off it.
pub fn area(right: (Answer<Option<u32>>, bool)) -> (Answer<Option<u32>>, bool) {
    if !on(Slip::MemberMainland) { return right; }
    (right.0.map(|a| a.map(|a| a & !1_024)), right.1)
}
