//! Scripts of edits and calls, each on what the last one left.
use super::scratch::with_scratch;
use super::seen::{self, Call, Met};
use super::{memory, same, shown, Mismatch, Verdict, MODEL, PORT, RUST};
use crate::inputs::rng::Rng;
use crate::inputs::scripts::{Op, Script};
use crate::model::cell::{one_nan, Cell, Junction, Node};
use crate::model::{edit, read, refuse_if, renumber, walk, write, Answer};
use crate::port::memory::Memory;
use crate::rust;
use crate::ynd::{Heightmap, Ynd};

pub fn check(s: &Script) -> Verdict {
    let Ok(mut cell) = read::read_into(&s.file.system, &s.file.graphics, s.lent) else { return Ok(()) };
    let mut ynd = rust::read(&s.file.system, &s.file.graphics).unwrap_or_default();
    let mut r = Rng::new(s.file.aux);
    let mut memory = Memory::rubbish(&mut r, s.lent);
    same("reading's answer", PORT, &memory.read(&s.file.system, &s.file.graphics), MODEL, &Ok(()))?;
    for op in &s.ops { step(&mut memory, &mut cell, &mut ynd, op, s.lent, &mut r)?; }
    written(&memory, &cell, &ynd, &mut r)
}

/// One call by all sides, and what it leaves.
pub fn step(
    memory: &mut Memory, cell: &mut Cell, ynd: &mut Ynd, op: &Op, lent: [usize; 5], r: &mut Rng,
) -> Verdict {
    let before = memory.clone();
    let port = on_port(memory, op, r)?;
    let answer = on_model(cell, op, lent);
    seen::note(Call::Edit, &answer);
    // What document 01 refuses here the Rust has no refusal for, or leaves as it was.
    if answer.is_ok() { on_rust(ynd, op); }
    let what = format!("the cell after {op:?}, answered {answer:?}");
    same(&what, MODEL, &rust::masked(cell), RUST, &rust::cell_of(ynd))?;
    same(&format!("the answer of {op:?}"), PORT, &port, MODEL, &answer)?;
    if answer.is_err() { return memory::unchanged(&what, &before, memory); }
    memory::holds(&what, &before, memory, cell)
}

/// The cell that a script leaves, written by all sides.
fn written(memory: &Memory, cell: &Cell, ynd: &Ynd, r: &mut Rng) -> Verdict {
    let judged = rust::write(ynd);
    let length = judged.as_ref().map_or(1_200, Vec::len);
    let mut section = r.bytes(length);
    let before = section.clone();
    let answer = memory.write(&mut section);
    let model = write::written(cell);
    seen::note(Call::Write, &model);
    seen::met_times(Met::RustBytes, if judged.is_ok() { length as u64 } else { 0 });
    same("whether writing after all is refused", MODEL, &model.is_err(), RUST, &judged.is_err())?;
    if let (Err(m), Err(y)) = (&model, &judged) {
        same("writing's refusal after all", MODEL, &rust::refusal(*m, y), RUST, y)?;
    }
    same("writing after all", PORT, &answer, MODEL, &model.as_ref().map(|b| b.len()).map_err(|e| *e))?;
    let Ok(judged) = judged else { return same("bytes written after all", PORT, &section, MODEL, &before) };
    same("bytes written after all", PORT, &Ok(&section), MODEL, &model.as_ref())?;
    same("bytes written after all", PORT, &rust::masked_bytes(&section), RUST, &judged)
}

/// The call on the port's memory. Renumbering, writing and walks are first compared by themselves, with all that is
/// lent to them.
pub fn on_port(m: &mut Memory, op: &Op, r: &mut Rng) -> Result<Answer<()>, Mismatch> {
    Ok(match op {
        Op::AddNode { area_id, position } => m.add_node(*area_id, *position),
        Op::SetPosition { place, position } => m.set_position(*place, *position),
        Op::AddLink { place, link } => m.add_link(*place, link),
        Op::AddRef(x) => m.add_ref(x),
        Op::AddJunction(j) => m.add_junction(j, r.u32()),
        Op::PutNode { place, node } => m.put_node(*place, node, [r.u32(), r.u32()]),
        Op::PutLink { place, index, link } => m.put_link(*place, *index, link),
        Op::PutRef { place, r } => m.put_ref(*place, r),
        Op::PutJunction { place, junction } => m.put_junction(*place, junction, r.u32()),
        Op::PutValue { place, index, value } => m.put_height(*place, *index, *value),
        Op::Renumber { scratch, places } => {
            memory::renumbering(m, *scratch, *places, r)?;
            let mut places = vec![0; *places];
            with_scratch(*scratch, |s| m.renumber(s, &mut places))
        }
        Op::Write { section } => {
            memory::writing(m, *section, r)?;
            m.write(&mut vec![0; *section]).map(|_| ())
        }
        Op::WriteRead { section } => {
            memory::writing_then_reading(m, *section, r)?;
            m.write_then_read(&mut vec![0; *section]).map(|_| ())
        }
        Op::Walk { start, choices, visited } => {
            shown::walking(m, *start, choices, *visited, r)?;
            m.walk(*start, choices, &mut vec![0; *visited]).0.map(|_| ())
        }
    })
}

pub fn on_model(cell: &mut Cell, op: &Op, lent: [usize; 5]) -> Answer<()> {
    match op.clone() {
        Op::AddNode { area_id, position } => edit::add_node(cell, area_id, position, lent),
        Op::SetPosition { place, position } => edit::set_position(cell, place, position),
        Op::AddLink { place, link } => edit::add_link(cell, place, link, lent),
        Op::AddRef(r) => edit::add_ref(cell, r, lent),
        Op::AddJunction(j) => edit::add_junction(cell, one_nan_junction(j), lent),
        Op::PutNode { place, node } => {
            refuse_if(place >= cell.nodes.len(), 13, 0)?;
            let links = std::mem::take(&mut cell.nodes[place].links);
            cell.nodes[place] = Node { links, position: node.position.map(one_nan), ..node };
            Ok(())
        }
        Op::PutLink { place, index, link } => {
            refuse_if(cell.nodes.get(place).is_none_or(|n| index >= n.links.len()), 13, 0)
                .map(|_| cell.nodes[place].links[index] = link)
        }
        Op::PutRef { place, r } => {
            refuse_if(place >= cell.refs.len(), 13, 0).map(|_| cell.refs[place] = r)
        }
        Op::PutJunction { place, junction } => {
            refuse_if(place >= cell.junctions.len(), 13, 0)?;
            let values = cell.junctions[place].values.clone();
            refuse_if(values.len() != junction.width as usize * junction.height as usize, 12, 0)?;
            cell.junctions[place] = Junction { values, ..one_nan_junction(junction) };
            Ok(())
        }
        Op::PutValue { place, index, value } => {
            refuse_if(cell.junctions.get(place).is_none_or(|j| index >= j.values.len()), 13, 0)?;
            cell.junctions[place].values[index] = value;
            Ok(())
        }
        Op::Renumber { scratch, places } => renumber::renumber(cell, scratch, places).map(|_| ()),
        Op::Write { section } => write::write(cell, &mut vec![0; section]).map(|_| ()),
        Op::WriteRead { section } => write::write_then_read(cell, &mut vec![0; section], lent).map(|_| ()),
        Op::Walk { start, choices, visited } => walk::walk_into(cell, start, &choices, visited).map(|_| ()),
    }
}

fn one_nan_junction(j: Junction) -> Junction {
    Junction { position: j.position.map(one_nan), min_z: one_nan(j.min_z), max_z: one_nan(j.max_z), ..j }
}

fn on_rust(ynd: &mut Ynd, op: &Op) {
    match op.clone() {
        Op::AddNode { area_id, position } => { ynd.add_node(area_id, rust::vec3(position)); }
        Op::SetPosition { place, position } => ynd.nodes[place].set_position(rust::vec3(position)),
        Op::AddLink { place, link } => ynd.nodes[place].links.push(rust::path_link(&link)),
        Op::AddRef(r) => ynd.junction_refs.push(rust::path_ref(&r)),
        Op::AddJunction(j) => ynd.junctions.push(rust::path_junction(&j)),
        Op::PutNode { place, node } => {
            let links = std::mem::take(&mut ynd.nodes[place].links);
            ynd.nodes[place] = rust::path_node(&node);
            ynd.nodes[place].links = links;
        }
        Op::PutLink { place, index, link } => ynd.nodes[place].links[index] = rust::path_link(&link),
        Op::PutRef { place, r } => ynd.junction_refs[place] = rust::path_ref(&r),
        Op::PutJunction { place, junction } => {
            let Heightmap { values, .. } = std::mem::take(&mut ynd.junctions[place].heightmap);
            ynd.junctions[place] = rust::path_junction(&junction);
            ynd.junctions[place].heightmap.values = values;
        }
        Op::PutValue { place, index, value } => ynd.junctions[place].heightmap.values[index] = value,
        Op::Renumber { .. } => rust::renumber(ynd),
        Op::WriteRead { .. } => *ynd = rust::write(ynd).and_then(|b| rust::read(&b, &[])).unwrap_or_default(),
        Op::Write { .. } | Op::Walk { .. } => {}
    }
}
