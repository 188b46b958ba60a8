//! The port on one cell in its memory: renumbering, writing, write-then-read; every lent list before and after.
use super::scratch::with_scratch;
use super::seen::{self, Call, Met};
use super::{causes, same, Verdict, MODEL, PORT};
use crate::inputs::rng::Rng;
use crate::model::cell::{belongs, Cell};
use crate::model::{refuse_if, renumber, write, Answer};
use crate::port::memory::Memory;

/// Lists with a few entries to spare.
pub fn lent(r: &mut Rng, cell: &Cell) -> [usize; 5] { cell.counts().map(|n| n + r.below(4)) }

/// What an accepted call leaves: the model's cell, without holes in its lists, and what lies beyond them as it was.
pub fn holds(what: &str, before: &Memory, after: &Memory, cell: &Cell) -> Verdict {
    same(what, PORT, &after.cell(), MODEL, cell)?;
    same(&format!("{what}: the counts"), PORT, &after.counts(), MODEL, &cell.counts())?;
    same(&format!("{what}: lists without holes"), PORT, &after.without_holes(), MODEL, &true)?;
    let counts = after.held();
    same(&format!("{what}: beyond the counts"), PORT, &after.beyond(counts), MODEL, &before.beyond(counts))
}

pub fn unchanged(what: &str, before: &Memory, after: &Memory) -> Verdict {
    same(&format!("{what}: memory that stays"), PORT, after, MODEL, before)
}

fn lists(memory: &Memory) -> Answer<()> { causes::lists(memory, &[0, 1, 2, 3, 4]) }

/// 14, 12, 8 to 11, then 7: refs and heightmap values are counted by the struct.
fn writable(memory: &Memory, cell: &Cell) -> Answer<()> {
    causes::limits(memory)?;
    causes::maps(memory)?;
    write::check(cell)?;
    refuse_if(memory.counts()[4] > 65_535, 11, 0)?;
    lists(memory)
}

pub fn renumbering(memory: &Memory, scratch: usize, places: usize, r: &mut Rng) -> Verdict {
    let n = memory.counts()[0];
    let old_places: Vec<u32> = (0..places).map(|_| r.u32()).collect();
    let (mut after, mut new_places) = (memory.clone(), old_places.clone());
    let (port, scratch_stays) = with_scratch(scratch, |s| {
        let refused = scratch < 65_536 || places < n || lists(memory).is_err();
        let before = refused.then(|| s.to_vec());
        (after.renumber(s, &mut new_places), before.is_none_or(|b| b == *s))
    });
    let mut cell = memory.cell();
    let model = lists(memory).and_then(|_| renumber::renumber(&mut cell, scratch, places));
    seen::note(Call::Renumber, &model);
    same("renumbering's answer", PORT, &port, MODEL, &model.as_ref().map(|_| ()).map_err(|e| *e))?;
    let Ok(moved) = model else {
        same("refused renumbering: the scratch stays", PORT, &scratch_stays, MODEL, &true)?;
        same("refused renumbering: the new places", PORT, &new_places, MODEL, &old_places)?;
        return unchanged("refused renumbering", memory, &after);
    };
    let told = moved.iter().map(|&p| p as u32).chain(old_places[n..].iter().copied());
    same("new places", PORT, &new_places, MODEL, &told.collect())?;
    same("renumbering", PORT, &after.cell(), MODEL, &cell)?;
    every_list(memory, &after, &cell, &moved)
}

/// Nodes move with their ranges; links and refs are renamed, those that no node has too; junctions and heightmaps
/// stay, and so does all beyond the counts.
fn every_list(memory: &Memory, after: &Memory, cell: &Cell, moved: &[usize]) -> Verdict {
    let mut laid = memory.clone();
    laid.ynd[1] = cell.vehicle_node_count;
    laid.ynd[2] = cell.ped_node_count;
    for (old, &new) in moved.iter().enumerate() {
        laid.nodes[new] = memory.nodes[old];
        laid.nodes[new][0] = memory.nodes[old][0] & 0xFFFF | (new as u32) << 16;
    }
    let own = memory.nodes[..moved.len()].first().map_or(0, |w| w[0] as u16);
    let mut named = vec![None; 65_536];
    for (old, &new) in moved.iter().enumerate() { named[(memory.nodes[old][0] >> 16) as usize] = Some(new as u16); }
    let [_, links, _, _, refs] = memory.held();
    for w in laid.links[..links].iter_mut().chain(laid.refs[..refs].iter_mut()).filter(|w| belongs(own, w[0])) {
        w[1] = named[w[1] as usize].unwrap_or(w[1]);
    }
    same("renumbering: every list", PORT, after, MODEL, &laid)
}

/// Every byte of the section, written or not.
pub fn writing(memory: &Memory, length: usize, r: &mut Rng) -> Verdict {
    let mut section = r.bytes(length);
    let mut expected = section.clone();
    let port = memory.write(&mut section);
    let cell = memory.cell();
    let model = writable(memory, &cell).and_then(|_| write::write(&cell, &mut expected));
    seen::note(Call::Write, &model);
    seen::met_times(Met::Written, *model.as_ref().unwrap_or(&0) as u64);
    same("writing's answer", PORT, &port, MODEL, &model)?;
    same("the section after writing", PORT, &section, MODEL, &expected)
}

/// The cell that was written, read back into its own memory.
pub fn writing_then_reading(memory: &Memory, length: usize, r: &mut Rng) -> Verdict {
    let mut section = r.bytes(length);
    let mut expected = section.clone();
    let mut after = memory.clone();
    let port = after.write_then_read(&mut section);
    let mut cell = memory.cell();
    let model = writable(memory, &cell).and_then(|_| write::write_then_read(&mut cell, &mut expected, memory.lent()));
    seen::note(Call::WriteRead, &model);
    same("write-then-read's answer", PORT, &port, MODEL, &model)?;
    same("the section after write-then-read", PORT, &section, MODEL, &expected)?;
    if model.is_err() { return unchanged("refused write-then-read", memory, &after); }
    same("write-then-read: every list", PORT, &after, MODEL, &memory.clone().with(&cell))
}
