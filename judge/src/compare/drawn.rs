//! Every cell that calls can make: drawings, call by call held to what each call means for the cell; then, of a sound
//! one, lists of renumberings and write-then-reads with the walks before and after.
use super::memory::unchanged;
use super::seen::{self, Call, Met};
use super::{same, scripts, soak, stores, Verdict, MODEL, PORT};
use crate::inputs::drawn::{Change, Drawing};
use crate::inputs::rng::Rng;
use crate::model::cell::{Cell, Junction, Node};
use crate::model::walk::is_sound;
use crate::model::{read, steps};
use crate::port::memory::Memory;

pub fn check(d: &Drawing) -> Verdict {
    let Ok(mut cell) = read::read_into(&d.file.system, &d.file.graphics, d.lent) else { return Ok(()) };
    seen::met_if(d.file.system.is_empty(), Met::Undrawn);
    let mut r = Rng::new(d.file.aux);
    let mut memory = Memory::rubbish(&mut r, d.lent);
    same("reading's answer", PORT, &memory.read(&d.file.system, &d.file.graphics), MODEL, &Ok(()))?;
    for change in &d.changes { step(&mut memory, &mut cell, change, &mut r)?; }
    if !is_sound(&cell) { seen::met(Met::Unsound); return Ok(()); }
    seen::met(Met::Sound);
    soak::listed(&cell, memory, &mut r)
}

/// One call. Whether it is accepted the other families hold to document 01; an accepted one means its sentence about
/// the cell, a refused one leaves every list as it was.
fn step(memory: &mut Memory, cell: &mut Cell, change: &Change, r: &mut Rng) -> Verdict {
    let before = memory.clone();
    let answer = match change {
        Change::Op(op) => scripts::on_port(memory, op, r)?,
        Change::Store(store) => stores::on_port(memory, store),
    };
    seen::note(Call::Edit, &answer);
    let what = format!("the cell after {change:?}, answered {answer:?}");
    if answer.is_err() { return unchanged(&what, &before, memory); }
    match change {
        Change::Op(op) => same(&what, PORT, &Ok(()), MODEL, &scripts::on_model(cell, op, [usize::MAX; 5]))?,
        Change::Store(store) => stores::on_cell(cell, store),
    }
    same(&what, PORT, &memory.cell(), MODEL, cell)
}

/// What the first accepted write-then-read makes of a cell: coordinates in whole steps, three bits of flags5.
pub fn settled(cell: &Cell) -> Cell {
    let step = |bits, scale| steps::metres(steps::steps(bits, scale), scale);
    let [xy, z] = [steps::XY, steps::Z];
    let nodes = cell.nodes.iter().map(|n| {
        let [f0, f1, f2, f3, f4, f5] = n.flags;
        Node { position: steps::stored(n.position), flags: [f0, f1, f2, f3, f4, f5 & 7], ..n.clone() }
    });
    let junctions = cell.junctions.iter().map(|j| Junction {
        position: j.position.map(|x| step(x, xy)), min_z: step(j.min_z, z), max_z: step(j.max_z, z), ..j.clone()
    });
    Cell { nodes: nodes.collect(), junctions: junctions.collect(), ..cell.clone() }
}
