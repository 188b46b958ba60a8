//! Wrong lists of near nodes, and a wrong nearest one: the model's distances with one rule changed.
use std::cmp::Reverse;

use super::{on, Slip};
use crate::model::reach::squared;
use crate::model::Answer;
use crate::port::memory::Memory;

/// The list by a wrong rule, of which nodes are near or of their order. Lists that are too short are left to the port.
pub fn within(m: &Memory, point: [i16; 2], radius: u16, places: &mut [u32], right: Answer<usize>) -> Answer<usize> {
    let limit = (radius as u64).pow(2);
    let near = |s: u64| match () {
        _ if on(Slip::CircleLeftOut) => s < limit,
        _ if on(Slip::Sums32) => (s as u32 as u64) <= limit,
        _ => s <= limit,
    };
    let rules = [Slip::CircleLeftOut, Slip::Sums32, Slip::FallingPlaces, Slip::LastUnsorted, Slip::ByPlace];
    if !rules.into_iter().any(on) { return right; }
    right.map(|_| {
        let cell = m.cell();
        let found = cell.nodes.iter().map(|n| squared(n, point)).zip(0..);
        let mut listed: Vec<(u64, u32)> = found.filter(|f| near(f.0)).collect();
        let last = listed.len().saturating_sub(1);
        match () {
            _ if on(Slip::FallingPlaces) => listed.sort_by_key(|&(s, p)| (s, Reverse(p))),
            _ if on(Slip::LastUnsorted) => listed[..last].sort(),
            _ if on(Slip::ByPlace) => (),
            _ => listed.sort(),
        }
        let mut count = 0;
        for (to, (_, p)) in places.iter_mut().zip(listed) { (*to, count) = (p, count + 1); }
        count
    })
}

pub fn nearest(m: &Memory, point: [i16; 2], right: Answer<Option<(usize, u64)>>) -> Answer<Option<(usize, u64)>> {
    if !on(Slip::LastOfEqual) { return right; }
    right.map(|found| found.map(|(_, least)| {
        let cell = m.cell();
        let last = cell.nodes.iter().rposition(|n| squared(n, point) == least).expect("the nearest is there");
        (last, least)
    }))
}
