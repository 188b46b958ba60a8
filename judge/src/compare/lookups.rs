//! Lookups and entries taken out, at places that are there and places that aren't.
use super::causes::{self, JUNCTIONS, NODES, REFS};
use super::cells::name;
use super::seen::{self, Call, Met};
use super::{same, Verdict, MODEL, PORT};
use crate::inputs::rng::Rng;
use crate::port::memory::Memory;
use crate::port::words::{junction, junction_ref, link, node};

pub fn lookups(memory: &Memory, r: &mut Rng) -> Verdict {
    let cell = memory.cell();
    let area = causes::lists(memory, &[NODES]).map(|_| cell.nodes.first().map(|n| n.area_id as u32));
    same("the cell's area", PORT, &memory.area(), MODEL, &(area, true))?;
    for _ in 0..4 {
        let (area, number) = name(&cell, r);
        let found = causes::lists(memory, &[NODES]).map(|_| cell.node(number));
        seen::note(Call::Lookup, &found);
        if let Ok(place) = found { seen::met(if place.is_some() { Met::Found } else { Met::NotFound }); }
        same("node", PORT, &memory.node(number), MODEL, &(found, true))?;
        // The junctions are not lent: their count says which there are.
        let junction = cell.ref_for(area, number).map(|x| x.junction_id as usize).filter(|&j| j < memory.counts()[2]);
        let found = causes::lists(memory, &[NODES, REFS]).map(|_| junction);
        seen::note(Call::Lookup, &found);
        same("junction_of", PORT, &memory.junction_of(area, number), MODEL, &(found, true))?;
        let list = r.below(5);
        entries(memory, r.below(memory.counts()[list] + 2), r.below(5))?;
    }
    Ok(())
}

/// The entry at a place of each list, and the k-th link and value there.
pub fn entries(memory: &Memory, at: usize, k: usize) -> Verdict {
    let got = memory.get_node(at);
    let got = (got.0.map(|w| (node(&w), w[6] >> 16, w[7])), got.1);
    let expected = causes::entry(memory, at, &[NODES]).map(|_| {
        let w = memory.nodes[at];
        (node(&w), w[6] >> 16 & 255, w[7])
    });
    seen::note(Call::Entry, &expected);
    same("get_node", PORT, &got, MODEL, &(expected, true))?;
    let expected = causes::entry(memory, at, &[REFS]).map(|_| junction_ref(&memory.refs[at]));
    same("get_ref", PORT, &memory.get_ref(at), MODEL, &(expected, true))?;
    let got = memory.get_junction(at);
    let got = (got.0.map(|w| (junction(&w), w[4], w[5])), got.1);
    let words = |w: &[u32; 6]| (junction(w), w[4] & 0xFFFF, w[5]);
    let expected = causes::entry(memory, at, &[JUNCTIONS]).map(|_| words(&memory.junctions[at]));
    same("get_junction", PORT, &got, MODEL, &(expected, true))?;
    let expected = causes::link(memory, at, k).map(|i| link(&memory.links[i]));
    seen::note(Call::Entry, &expected);
    same("get_link", PORT, &memory.get_link(at, k), MODEL, &(expected, true))?;
    let expected = causes::height(memory, at, k).map(|i| memory.heights[i]);
    same("get_height", PORT, &memory.get_height(at, k), MODEL, &(expected, true))
}
