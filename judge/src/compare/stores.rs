//! Words, lists and heightmaps stored as a whole: the port's memory, entry by entry, and the cell that it holds beside
//! the Rust's public fields.
use super::causes;
use super::memory::unchanged;
use super::seen::{self, Call};
use super::{same, Verdict, MODEL, PORT, RUST};
use crate::inputs::rng::Rng;
use crate::inputs::stores::{Store, Stores};
use crate::model::cell::{Cell, Link};
use crate::model::{read, refuse_if, room, Answer, MOST_LINKS, MOST_NODES};
use crate::port::memory::Memory;
use crate::port::words::{link_range, link_words, value_range};
use crate::rust;
use crate::ynd::{Heightmap, Ynd};

pub fn check(s: &Stores) -> Verdict {
    if read::read_into(&s.file.system, &s.file.graphics, s.lent).is_err() { return Ok(()); }
    let mut ynd = rust::read(&s.file.system, &s.file.graphics).unwrap_or_default();
    let mut r = Rng::new(s.file.aux);
    let mut memory = Memory::rubbish(&mut r, s.lent);
    same("reading's answer", PORT, &memory.read(&s.file.system, &s.file.graphics), MODEL, &Ok(()))?;
    for store in &s.stores {
        let answer = one(&mut memory, store)?;
        if answer.is_ok() { on_rust(&mut ynd, store); }
        let what = format!("the cell after {store:?}, answered {answer:?}");
        same(&what, PORT, &rust::masked(&memory.cell()), RUST, &rust::cell_of(&ynd))?;
    }
    Ok(())
}

pub fn in_any((memory, store): &(Memory, Store)) -> Verdict { one(&mut memory.clone(), store).map(|_| ()) }

/// One store, with every lent list afterwards.
fn one(memory: &mut Memory, store: &Store) -> Result<Answer<()>, super::Mismatch> {
    let before = memory.clone();
    let port = on_port(memory, store);
    seen::note(Call::Edit, &port);
    let Some(expected) = laid(&before, store) else { return Ok(port) };
    same(&format!("the answer of {store:?}"), PORT, &port, MODEL, &expected.as_ref().map(|_| ()).map_err(|e| *e))?;
    let what = format!("memory after {store:?}, answered {port:?}");
    match expected { Ok(m) => same(&what, PORT, memory, MODEL, &m), Err(_) => unchanged(&what, &before, memory) }?;
    Ok(port)
}

pub fn on_port(m: &mut Memory, store: &Store) -> Answer<()> {
    match store {
        Store::Vft(v) => m.set_vft(*v),
        Store::KindCount { peds, count } => m.set_kind_count(*peds, *count),
        Store::Unknowns(u) => m.set_unknowns(*u),
        Store::Truncate { list, count } => return m.truncate(*list, *count),
        Store::Links { place, links } => return m.put_links(*place, links),
        Store::Heightmap { place, size, values } => return m.put_heightmap(*place, *size, values),
        Store::AddNode(area) => return m.add_node(*area, [0; 3]),
        Store::AddLink { place, link } => return m.add_link(*place, link),
        Store::AddJunction(j) => return m.add_junction(j, 7),
        Store::Renumber => return m.renumber(&mut vec![0; MOST_NODES], &mut vec![0; m.counts()[0].min(MOST_NODES)]),
        Store::WriteRead => return m.write_then_read(&mut vec![0; 300_000]).map(|_| ()),
    }
    Ok(())
}

/// The memory that a store leaves, none for the calls that other families hold to the model.
fn laid(m: &Memory, store: &Store) -> Option<Answer<Memory>> {
    let mut n = m.clone();
    Some(match store {
        Store::Vft(v) => { n.ynd[0] = *v; Ok(n) }
        Store::KindCount { peds, count } => { n.ynd[1 + *peds as usize] = *count; Ok(n) }
        Store::Unknowns(u) => { n.ynd[3..10].copy_from_slice(u); Ok(n) }
        Store::Truncate { list, count } => truncated(n, *list, *count),
        Store::Links { place, links } => linked(n, *place, links),
        Store::Heightmap { place, size, values } => mapped(n, *place, *size, values),
        _ => return None,
    })
}

fn truncated(mut m: Memory, list: usize, count: usize) -> Answer<Memory> {
    refuse_if(count > m.counts()[list], 13, 0)?;
    causes::limits(&m)?;
    m.ynd[10 + list] = count as u32;
    Ok(m)
}

/// Where new entries start in place of `old` of a list of so many, and how many the list has then.
fn placed(old: (usize, usize), new: usize, count: usize) -> (usize, usize) {
    let held = old.1.min(count.saturating_sub(old.0));
    if new > held { (count, count + new) } else { (if new == 0 { 0 } else { old.0 }, count) }
}

fn linked(mut m: Memory, place: usize, links: &[Link]) -> Answer<Memory> {
    let [n, l, ..] = m.counts();
    refuse_if(place >= n, 13, 0)?;
    causes::limits(&m)?;
    refuse_if(links.len() > MOST_LINKS, 14, 0)?;
    let (at, after) = placed(m.nodes.get(place).map_or((0, 0), link_range), links.len(), l);
    refuse_if(after > u32::MAX as usize, 14, 0)?;
    room(0, &[n, after], &m.lent()[..2])?;
    m.ynd[11] = after as u32;
    m.nodes[place][6] = m.nodes[place][6] & 0xFF00_FFFF | (links.len() as u32) << 16;
    m.nodes[place][7] = at as u32;
    for (to, l) in m.links[at.min(after)..].iter_mut().zip(links) { *to = link_words(l); }
    Ok(m)
}

fn mapped(mut m: Memory, place: usize, size: [u8; 2], values: &[u8]) -> Answer<Memory> {
    let [_, _, j, h, _] = m.counts();
    refuse_if(place >= j, 13, 0)?;
    causes::limits(&m)?;
    let (at, after) = placed(m.junctions.get(place).map_or((0, 0), value_range), values.len(), h);
    refuse_if(after > u32::MAX as usize, 14, 0)?;
    refuse_if(values.len() != size[0] as usize * size[1] as usize, 12, 0)?;
    room(2, &[j, after], &m.lent()[2..4])?;
    m.ynd[13] = after as u32;
    m.junctions[place][4] = m.junctions[place][4] & 0xFFFF_0000 | size[0] as u32 | (size[1] as u32) << 8;
    m.junctions[place][5] = at as u32;
    for (to, v) in m.heights[at..].iter_mut().zip(values) { *to = *v; }
    Ok(m)
}

/// What an accepted store means for the cell; of the calls that other families have, nothing.
pub fn on_cell(cell: &mut Cell, store: &Store) {
    match store.clone() {
        Store::Vft(v) => cell.vft = v,
        Store::KindCount { peds: false, count } => cell.vehicle_node_count = count,
        Store::KindCount { peds: true, count } => cell.ped_node_count = count,
        Store::Unknowns(u) => cell.unknowns = u,
        Store::Truncate { list: 0, count } => cell.nodes.truncate(count),
        Store::Truncate { list: 2, count } => cell.junctions.truncate(count),
        Store::Truncate { count, .. } => cell.refs.truncate(count),
        Store::Links { place, links } => cell.nodes[place].links = links,
        Store::Heightmap { place, size: [width, height], values } => {
            let j = &mut cell.junctions[place];
            (j.width, j.height, j.values) = (width, height, values);
        }
        Store::AddNode(_) | Store::AddLink { .. } | Store::AddJunction(_) | Store::Renumber | Store::WriteRead => {}
    }
}

fn on_rust(ynd: &mut Ynd, store: &Store) {
    match store.clone() {
        Store::Vft(v) => ynd.vft = v,
        Store::KindCount { peds: false, count } => ynd.vehicle_node_count = count,
        Store::KindCount { peds: true, count } => ynd.ped_node_count = count,
        Store::Unknowns(u) => ynd.unknowns = u,
        Store::Truncate { list: 0, count } => ynd.nodes.truncate(count),
        Store::Truncate { list: 2, count } => ynd.junctions.truncate(count),
        Store::Truncate { count, .. } => ynd.junction_refs.truncate(count),
        Store::Links { place, links } => ynd.nodes[place].links = links.iter().map(rust::path_link).collect(),
        Store::Heightmap { place, size: [width, height], values } => {
            ynd.junctions[place].heightmap = Heightmap { width, height, values }
        }
        Store::AddNode(area) => { ynd.add_node(area, rust::vec3([0; 3])); }
        Store::AddLink { place, link } => ynd.nodes[place].links.push(rust::path_link(&link)),
        Store::AddJunction(j) => ynd.junctions.push(rust::path_junction(&j)),
        Store::Renumber => rust::renumber(ynd),
        Store::WriteRead => *ynd = rust::write(ynd).and_then(|b| rust::read(&b, &[])).unwrap_or_default(),
    }
}
