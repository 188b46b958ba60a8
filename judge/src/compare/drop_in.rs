//! The wrapper's module `ynd` beside the Rust, name by name: both have the same fields, so both print the same. What
//! the documents decide is left to the run with the wrapper in the Rust's place (`make drop-in`).
use super::cells::name;
use super::seen::{self, Call, Met};
use super::{same, Verdict, RUST};
use crate::inputs::files::File;
use crate::inputs::rng::Rng;
use crate::model::cell::Cell;
use crate::model::{read, write, Refused};
use crate::ynd as theirs;
use crate::{math, rust};
use bofrashem::ynd as ours;
use std::fmt::Debug;

const DROP_IN: &str = "the drop-in";

/// Every field by its name; a NaN is one.
fn alike(what: &str, our: &impl Debug, their: &impl Debug) -> Verdict {
    same(what, DROP_IN, &format!("{our:?}"), RUST, &format!("{their:?}"))
}

pub fn check(f: &File) -> Verdict {
    let r = &mut Rng::new(f.aux);
    constants()?;
    for v in [r.u8(), r.u8() % 32] { kind(v)?; }
    let model = read::read(&f.system, &f.graphics);
    seen::note(Call::Read, &model);
    if f.system.is_empty() || matches!(model, Err(Refused(2 | 6, _))) { return Ok(()); }
    let (our, their) = (ours::Ynd::from_sections(&f.system, &f.graphics), rust::read(&f.system, &f.graphics));
    alike("whether reading is refused", &our.is_err(), &their.is_err())?;
    let (Ok(cell), Ok(mut our), Ok(mut their)) = (model, our, their) else { return Ok(()) };
    alike("reading", &our, &their)?;
    found(&cell, &our, &their, r)?;
    written(&cell, &our, &their)?;
    edited(&cell, &mut our, &mut their, r)?;
    if cell.is_island() { return Ok(()); }
    our.recalculate_node_indices();
    their.recalculate_node_indices();
    seen::note(Call::Renumber, &Ok(()));
    alike("renumbering", &our, &their)
}

/// The constants of a module.
macro_rules! constants {
    ($ynd:ident: $($name:ident)*) => { ($(($ynd::$name, stringify!($name))),*) };
    ($ynd:ident) => {
        constants!($ynd: CELL_SIZE CELL_ORIGIN CELL_COUNT CELL_MIN_Z CELL_HEIGHT ISLAND_FLAG NODE_DICTIONARY_VFT)
    };
}

fn constants() -> Verdict {
    alike("the constants", &constants!(ours), &constants!(theirs))?;
    alike("the empty cell", &ours::Ynd::default(), &theirs::Ynd::default())?;
    alike("the empty dictionary", &ours::NodeDictionary::default(), &theirs::NodeDictionary::default())
}

fn kind(v: u8) -> Verdict {
    let (our, their) = (ours::NodeSpecial::from_value(v), theirs::NodeSpecial::from_value(v));
    let (o, t) = ((our.name(), our.value(), our.is_ped()), (their.name(), their.value(), their.is_ped()));
    alike("a kind of node", &(our, o), &(their, t))?;
    let (our, their) = (ours::NodeSpecial::Other(v), theirs::NodeSpecial::Other(v));
    alike("another kind", &(our.name(), our.value(), our.is_ped()), &(their.name(), their.value(), their.is_ped()))
}

fn found(cell: &Cell, our: &ours::Ynd, their: &theirs::Ynd, r: &mut Rng) -> Verdict {
    alike("the cell's area", &our.area_id(), &their.area_id())?;
    for _ in 0..4 {
        let (area, number) = name(cell, r);
        seen::met(if their.node(number).is_some() { Met::Found } else { Met::NotFound });
        alike("node", &our.node(number), &their.node(number))?;
        if cell.is_island() { continue; }
        let (o, t) = (our.junction_of(area, number), their.junction_of(area, number));
        alike("junction_of", &o, &t)?;
        if let (Some(o), Some(t)) = (o, t) {
            for y in 0..o.heightmap.height as usize { alike("row", &o.heightmap.row(y), &t.heightmap.row(y))?; }
        }
    }
    Ok(())
}

/// The dictionary that is written, and what it means. T-05's field is set to 0 in the Rust's.
fn written(cell: &Cell, our: &ours::Ynd, their: &theirs::Ynd) -> Verdict {
    let (our, their) = (our.to_dictionary(), their.to_dictionary());
    if their.is_err() && write::has_late_post(cell) { return Ok(()); }
    alike("whether writing is refused", &our.is_err(), &their.is_err())?;
    let (Ok(our), Ok(mut their)) = (our, their) else { return Ok(()) };
    for n in their.nodes.iter_mut().filter(|n| n.link_count_flags < 8) { n.link_id = 0; }
    seen::note(Call::Write, &Ok(()));
    alike("the dictionary", &our, &their)?;
    let back = (ours::Ynd::from_dictionary(&our).ok(), theirs::Ynd::from_dictionary(&their).ok());
    alike("what the dictionary means", &back.0, &back.1)
}

/// The same lines on both.
macro_rules! edits {
    ($ynd:ident, $vectors:ident, $y:expr, $area:expr, $p:expr, $number:expr) => {{
        let position = $vectors::Vec3::new($p[0], $p[1], $p[2]);
        let node = $y.add_node($area, position);
        node.set_special($ynd::NodeSpecial::PedNodeRoadCrossing);
        node.set_heuristic_value(200);
        node.links.push($ynd::PathLink::to($area, $number));
        node.links[0].length = $ynd::PathLink::length_between(node.position, position);
        node.links[0].set_lane_count_forward(3);
        if let Some(j) = $y.junctions.first_mut() { j.position = $vectors::Vec2::new($p[1], $p[2]); }
        if let Some(r) = $y.junction_refs.first_mut() { r.unk0 ^= 1; }
    }};
}

fn edited(cell: &Cell, our: &mut ours::Ynd, their: &mut theirs::Ynd, r: &mut Rng) -> Verdict {
    let (area, number, p) = (cell.area(), r.u16(), crate::inputs::floats::position(r).map(f32::from_bits));
    edits!(ours, ours, our, area, p, number);
    edits!(theirs, math, their, area, p, number);
    alike("edits", our, their)
}
