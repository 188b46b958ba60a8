//! Renumbering, writing, write-then-read and lookups on one cell.
use super::seen::{self, Met};
use super::{lookups, memory, same, shown, walks, Verdict, MODEL, RUST};
use crate::inputs::rng::Rng;
use crate::model::cell::Cell;
use crate::model::{read, renumber, write};
use crate::port::memory::Memory;
use crate::rust;
use crate::ynd::Ynd;

pub fn check(cell: &Cell, aux: u64) -> Verdict {
    let mut r = Rng::new(aux);
    let ynd = rust::ynd_of(cell);
    same("the cell in the Rust's words", MODEL, &rust::masked(cell), RUST, &rust::cell_of(&ynd))?;
    let mut numbers: Vec<u16> = cell.nodes.iter().map(|n| n.node_id).collect();
    numbers.sort();
    seen::met_if(numbers.windows(2).any(|p| p[0] == p[1]), Met::Equal);
    seen::met_if(!cell.nodes.is_empty() && cell.nodes.iter().all(|n| n.links.is_empty()), Met::AllPosts);
    seen::met_if(cell.is_island(), Met::Island);
    seen::met_if(claims(cell), Met::Claimed);
    renumbering(cell, &ynd)?;
    writing(cell, &ynd)?;
    found(cell, &ynd, &mut r)?;
    let lent = memory::lent(&mut r, cell);
    let memory = Memory::of(&mut r, cell, lent);
    on_port(&memory, &mut r)?;
    // The same with one list shorter than its count.
    let list = r.below(5);
    let count = memory.counts()[list];
    if count > 0 && r.once_in(3) {
        let mut short = memory.clone();
        short.shorten(list, r.below(count));
        on_port(&short, &mut r)?;
    }
    walks::check(cell, &memory, &mut r)
}

/// Every call of the port on one cell, from the same memory each time.
pub fn on_port(memory: &Memory, r: &mut Rng) -> Verdict {
    let n = memory.counts()[0].min(70_000);
    let scratch = r.pick(&[65_536, 65_536, 65_536, 65_537, 65_535, 0]);
    let places = r.pick(&[n, n, n, n + 3, n.saturating_sub(1)]);
    memory::renumbering(memory, scratch, places, r)?;
    let full = write::written(&memory.cell()).map_or(1_500, |b| b.len());
    let length = r.pick(&[full, full, full + 3, full + 40, full - 1, 1_151, 0]);
    memory::writing(memory, length, r)?;
    memory::writing_then_reading(memory, r.pick(&[full, full + 3, full - 1]), r)?;
    lookups::lookups(memory, r)?;
    shown::soundness(memory, scratch)?;
    for _ in 0..3 {
        shown::showing(memory, &memory.cell(), r.below(n + 1), r.pick(&[0, 0, 1, 2, 31, 255]))?;
        let choices = walks::choices(r);
        let all = choices.len() + 1;
        let visited = r.pick(&[all, all, all + 3, all - 1, 1, 0]);
        shown::walking(memory, r.below(n + 1), &choices, visited, r)?;
    }
    Ok(())
}

/// T-07: an island with a link or ref that names its area without the bit.
pub fn claims(cell: &Cell) -> bool {
    let other = |area| area != cell.area() && cell.belongs(area);
    cell.nodes.iter().flat_map(|n| &n.links).any(|l| other(l.area_id)) || cell.refs.iter().any(|r| other(r.area_id))
}

/// T-07: renumbered island cells are not asked of the Rust.
fn renumbering(cell: &Cell, ynd: &Ynd) -> Verdict {
    if cell.is_island() && !rust::BY_THE_DOCUMENTS { return Ok(()); }
    let mut model = cell.clone();
    let places = renumber::renumber(&mut model, 65_536, cell.nodes.len()).expect("room for all");
    let mut judged = ynd.clone();
    judged.recalculate_node_indices();
    same("renumbering", MODEL, &rust::masked(&model), RUST, &rust::cell_of(&judged))?;
    // The Rust gives no new places; a street name that is the old place shows them.
    let mut marked = ynd.clone();
    for (i, n) in marked.nodes.iter_mut().enumerate() { n.street_name = i as u32; }
    marked.recalculate_node_indices();
    let mut judged_places = vec![0; places.len()];
    for (new, n) in marked.nodes.iter().enumerate() { judged_places[n.street_name as usize] = new; }
    same("new places", MODEL, &places, RUST, &judged_places)
}

/// The bytes written, and the cell that reading them gives.
fn writing(cell: &Cell, ynd: &Ynd) -> Verdict {
    let model = write::written(cell);
    let judged = rust::write(ynd);
    // T-05: refused by the Rust for a node without links behind more than 65,535 only: left out, and counted.
    if model.is_ok() && write::has_late_post(cell) && (judged.is_err() || rust::BY_THE_DOCUMENTS) {
        seen::met(Met::LatePost);
        if !rust::BY_THE_DOCUMENTS { return Ok(()); }
    }
    same("whether writing is refused", MODEL, &model.is_err(), RUST, &judged.is_err())?;
    if let (Err(m), Err(y)) = (&model, &judged) {
        same("writing's refusal", MODEL, &rust::refusal(*m, y), RUST, y)?;
    }
    let (Ok(bytes), Ok(judged)) = (model, judged) else { return Ok(()) };
    seen::met_times(Met::RustBytes, judged.len() as u64);
    same("bytes written", MODEL, &rust::masked_bytes(&bytes), RUST, &judged)?;
    let mut back = cell.clone();
    let mut section = vec![0xA5; bytes.len() + 3];
    let count = write::write_then_read(&mut back, &mut section, cell.counts());
    same("write-then-read's length", MODEL, &count, RUST, &Ok(judged.len()))?;
    let again = rust::read(&judged, &[]).map(|y| rust::cell_of(&y));
    same("write-then-read", MODEL, &Ok(rust::masked(&back)), RUST, &again)?;
    same("later bytes", MODEL, &section[bytes.len()..].to_vec(), RUST, &vec![0xA5; 3])?;
    let reread = read::read(&bytes, &[]).map_err(|e| format!("{e:?}"));
    same("reading what was written", MODEL, &reread, MODEL, &Ok(back))?;
    same("reading what was written", MODEL, &reread.map(|c| rust::masked(&c)), RUST, &again)
}

/// `node` and `junction_of`, for numbers that are there and numbers that aren't.
fn found(cell: &Cell, ynd: &Ynd, r: &mut Rng) -> Verdict {
    for _ in 0..12 {
        let (area, number) = name(cell, r);
        let place = ynd.node(number).map(|n| place_in(&ynd.nodes, n));
        same("node", MODEL, &cell.node(number), RUST, &place)?;
        // T-07: nor is this on an island.
        if cell.is_island() && !rust::BY_THE_DOCUMENTS { continue; }
        let place = ynd.junction_of(area, number).map(|j| place_in(&ynd.junctions, j));
        same("junction_of", MODEL, &cell.junction_of(area, number), RUST, &place)?;
    }
    Ok(())
}

/// An area and a number that a node, link or ref has, or any.
pub fn name(cell: &Cell, r: &mut Rng) -> (u16, u16) {
    let any = (r.u16(), r.u16());
    match r.below(4) {
        0 if !cell.nodes.is_empty() => { let n = &cell.nodes[r.below(cell.nodes.len())]; (n.area_id, n.node_id) }
        1 | 2 if !cell.refs.is_empty() => { let x = cell.refs[r.below(cell.refs.len())]; (x.area_id, x.node_id) }
        3 => (cell.area(), r.below(cell.nodes.len() + 2) as u16),
        _ => any,
    }
}

/// Which element of a list a reference is.
fn place_in<T>(list: &[T], element: &T) -> usize {
    (element as *const T as usize - list.as_ptr() as usize) / std::mem::size_of::<T>()
}
