//! Large cells: written, byte for byte as the Rust's section; read back; renumbered; written again.
use super::scratch::with_scratch;
use super::seen::{self, Call, Met};
use super::{memory, same, Verdict, MODEL, PORT, RUST};
use crate::inputs::rng::Rng;
use crate::model::cell::Cell;
use crate::model::{read, renumber, write};
use crate::port::memory::Memory;
use crate::rust;
use crate::ynd::Ynd;

pub fn check((cell, aux): &(Cell, u64)) -> Verdict {
    let r = &mut Rng::new(*aux);
    let counts = cell.counts();
    let before_last = counts[1] - cell.nodes.last().map_or(0, |n| n.links.len());
    for (is, what) in [
        (counts[0] >= 2_000, Met::Many), (counts[0] == 65_536, Met::MostNodes),
        (before_last == 65_535, Met::MostLinks),
        (counts[2] == 4_096, Met::MostJunctions), (counts[4] == 65_535, Met::MostRefs),
    ] { seen::met_if(is, what); }
    let bytes = written(&Memory::of(r, cell, counts), cell, &rust::ynd_of(cell), r)?;
    let mut memory = Memory::rubbish(r, counts.map(|n| n + r.clone().below(3)));
    let rubbish = memory.clone();
    same("reading's answer", PORT, &memory.read(&bytes, &[]), MODEL, &Ok(()))?;
    let mut back = read::read(&bytes, &[]).expect("what was written is read");
    same("reading back: every list", PORT, &memory, MODEL, &rubbish.with(&back))?;
    let mut ynd = rust::read(&bytes, &[]).expect("what was written is read");
    same("reading back", MODEL, &rust::masked(&back), RUST, &rust::cell_of(&ynd))?;
    memory::renumbering(&memory, 65_536, counts[0], r)?;
    let mut places = vec![0; counts[0]];
    let answer = with_scratch(65_536, |s| memory.renumber(s, &mut places));
    let moved = renumber::renumber(&mut back, 65_536, counts[0]);
    same("renumbering's answer", PORT, &answer, MODEL, &moved.map(|_| ()))?;
    rust::renumber(&mut ynd);
    written(&memory, &back, &ynd, r)?;
    memory::writing_then_reading(&memory, bytes.len() + 1, r)
}

/// Writing by all sides; the bytes.
fn written(memory: &Memory, cell: &Cell, ynd: &Ynd, r: &mut Rng) -> Result<Vec<u8>, super::Mismatch> {
    let judged = rust::write(ynd).expect("a cell that is written");
    let mut section = r.bytes(judged.len());
    let answer = memory.write(&mut section);
    seen::note(Call::Write, &answer);
    seen::met_times(Met::RustBytes, judged.len() as u64);
    same("writing's answer", PORT, &answer, RUST, &Ok(judged.len()))?;
    same("bytes written", PORT, &Ok(&section), MODEL, &write::written(cell).as_ref())?;
    same("bytes written", PORT, &rust::masked_bytes(&section), RUST, &judged)?;
    Ok(section)
}
