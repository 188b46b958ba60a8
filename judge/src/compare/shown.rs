//! Walks, what they show, and soundness, by the port on one cell in its memory.
use super::causes::{self, HEIGHTS, JUNCTIONS, LINKS, NODES, REFS};
use super::scratch::with_scratch;
use super::seen::{self, Call, Met};
use super::{same, Verdict, MODEL, PORT};
use crate::inputs::rng::Rng;
use crate::model::cell::Cell;
use crate::model::walk::is_sound;
use crate::model::{refuse_if, walk};
use crate::port::memory::Memory;
use crate::slips;

/// A walk's end, places and the rest of its list.
pub fn walking(memory: &Memory, start: usize, choices: &[u8], visited: usize, r: &mut Rng) -> Verdict {
    let old: Vec<u32> = (0..visited).map(|_| r.u32()).collect();
    let (mut new, mut by_index) = (old.clone(), old.clone());
    let port = memory.walk(start, choices, &mut new);
    let model = causes::entry(memory, start, &[NODES, LINKS])
        .and_then(|_| walk::walk_into(&memory.cell(), start, choices, visited));
    seen::note(Call::Walk, &model);
    let expected: Vec<u32> = match &model {
        Ok(w) => w.places.iter().map(|&p| p as u32).chain(old[w.places.len()..].iter().copied()).collect(),
        Err(_) => old,
    };
    if let Ok(w) = &model {
        seen::note_end(&w.end);
        seen::met_times(Met::Followed, w.places.len() as u64 - 1);
    }
    same("a walk", PORT, &port, MODEL, &(model.map(|w| (w.end, w.places.len())), true))?;
    same("places visited", PORT, &new, MODEL, &expected)?;
    let indexed = with_scratch(65_536, |s| memory.walk_indexed(start, choices, &mut by_index, s));
    same("a walk by an index", PORT, &(indexed, by_index), "its walk", &(port, new))?;
    short_index(memory, start, choices, visited)
}

/// 7 at 6 comes after what is asked of the cell, and before the visited list.
fn short_index(memory: &Memory, start: usize, choices: &[u8], visited: usize) -> Verdict {
    if slips::any() { return Ok(()); }
    let (port, _) = with_scratch(65_535, |s| memory.walk_indexed(start, choices, &mut vec![0; visited], s));
    let model = causes::entry(memory, start, &[NODES, LINKS]).and_then(|_| refuse_if(true, 7, 6));
    same("a walk by too short an index", PORT, &port.map(|_| ()), MODEL, &model)
}

/// The verdict, and the scratch, which gets each number's last place.
pub fn soundness(memory: &Memory, scratch: usize) -> Verdict {
    let cell = memory.cell();
    let model = causes::lists(memory, &[NODES, LINKS, REFS])
        .and_then(|_| refuse_if(scratch < 65_536, 7, 6))
        .map(|_| is_sound(&cell));
    seen::note(Call::Soundness, &model);
    if let Ok(sound) = model { seen::met(if sound { Met::Sound } else { Met::Unsound }); }
    let (port, stays) = with_scratch(scratch, |s| {
        let mut expected = s.to_vec();
        if model.is_ok() { for (i, n) in cell.nodes.iter().enumerate() { expected[n.node_id as usize] = i as u32; } }
        (memory.sound(s), expected == *s)
    });
    same("soundness", PORT, &port, MODEL, &model)?;
    same("the scratch after soundness", PORT, &stays, MODEL, &true)
}

/// What a walk shows at a place: of the node, of its junction, of the link that a byte chooses. Position bits are the
/// words as they stand.
pub fn showing(memory: &Memory, cell: &Cell, at: usize, choice: u8) -> Verdict {
    let node = causes::entry(memory, at, &[NODES, LINKS, JUNCTIONS, REFS]).map(|_| {
        let n = &cell.nodes[at];
        let junction = cell.junction_of(n.area_id, n.node_id);
        let [x, y, z] = [2, 3, 4].map(|i| memory.nodes[at][i] as usize);
        let [f0, f1, f2, f3, f4, f5] = n.flags.map(usize::from);
        let (is, place) = (junction.is_some() as usize, junction.unwrap_or(0));
        let [a, b, c, d, e] = n.unused.map(|word| word as usize);
        let (area, street) = (n.area_id as usize, n.street_name as usize);
        [area, street, x, y, z, f0, f1, f2, f3, f4, f5, a, b, c, d, e, n.links.len(), is, place]
    });
    seen::note(Call::Shown, &node);
    same("what a walk shows of a node", PORT, &memory.shown_node(at), MODEL, &(node, true))?;
    let junction = causes::entry(memory, at, &[JUNCTIONS]).map(|_| {
        let (j, w) = (&cell.junctions[at], &memory.junctions[at]);
        [w[0], w[1], w[2], w[3], j.width as u32, j.height as u32]
    });
    same("what a walk shows of a junction", PORT, &memory.shown_junction(at), MODEL, &(junction, true))?;
    let values = causes::entry(memory, at, &[JUNCTIONS, HEIGHTS]).map(|_| cell.junctions[at].values.clone());
    let held = values.as_ref().map_or(0, Vec::len);
    let room = [held, held + 2, held.saturating_sub(1)][choice as usize % 3];
    let values = values.and_then(|v| refuse_if(room < v.len(), 7, 3).map(|_| v));
    seen::note(Call::Shown, &values);
    same("what a walk shows of a heightmap", PORT, &memory.shown_values(at, room), MODEL, &(values, true))?;
    let link = causes::entry(memory, at, &[NODES, LINKS]).map(|_| match cell.nodes[at].links.get(choice as usize) {
        Some(l) => [1, l.flags[0], l.flags[1], l.flags[2], l.length],
        None => [0; 5],
    });
    same("what a walk shows of a link", PORT, &memory.shown_link(at, choice), MODEL, &(link, true))
}
