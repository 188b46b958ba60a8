//! Section 4: writing, with its refusals: 14, 8 and 9 node by node, 10, 11, then 7.
use super::cell::Cell;
use super::sections::{put_le, SYSTEM};
use super::{read, records, refuse_if, room, within, Answer};

/// The five blocks in the order in which they are laid, as places of the arrays: refs, heightmap bytes, junctions,
/// links, nodes.
const LAID: [usize; 5] = [4, 3, 2, 1, 0];
const PAGES: usize = 112;
const PAGES_LENGTH: usize = 1_040;

/// The bytes that the cell is written as.
pub fn written(cell: &Cell) -> Answer<Vec<u8>> {
    check(cell)?;
    let counts = cell.counts();
    let (at, end) = layout(counts);
    let mut out = vec![0; end];
    put_root(&mut out, cell, counts, at);
    out[PAGES + 8] = 128;
    put_arrays(&mut out, cell, at);
    Ok(out)
}

/// Where each array starts, each at the next multiple of 16, and where the last one ends. An empty array takes no
/// bytes.
pub fn layout(counts: [usize; 5]) -> ([usize; 5], usize) {
    let mut at = [0; 5];
    let mut end = PAGES + PAGES_LENGTH;
    for i in LAID {
        if counts[i] > 0 {
            at[i] = end.next_multiple_of(16);
            end = at[i] + counts[i] * records::WIDTHS[i] as usize;
        }
    }
    (at, end)
}

/// Writing into a lent section: later bytes stay.
pub fn write(cell: &Cell, section: &mut [u8]) -> Answer<usize> {
    let out = written(cell)?;
    room(5, &[out.len()], &[section.len()])?;
    section[..out.len()].copy_from_slice(&out);
    Ok(out.len())
}

/// One call: reads just the bytes it wrote, graphics empty, into memory of so many entries. A refusal changes nothing.
pub fn write_then_read(cell: &mut Cell, section: &mut [u8], lent: [usize; 5]) -> Answer<usize> {
    let out = written(cell)?;
    room(5, &[out.len()], &[section.len()])?;
    *cell = read::read_into(&out, &[], lent)?;
    section[..out.len()].copy_from_slice(&out);
    Ok(out.len())
}

pub fn check(cell: &Cell) -> Answer<()> {
    within(cell)?;
    let mut links = 0;
    for (place, n) in cell.nodes.iter().enumerate() {
        refuse_if(n.links.len() > 31, 8, place)?;
        // T-05: only a node with links.
        refuse_if(links > 65_535 && !n.links.is_empty(), 9, place)?;
        links += n.links.len();
    }
    let mut values = 0;
    for (place, j) in cell.junctions.iter().enumerate() {
        refuse_if(values > 65_535, 10, place)?;
        values += j.values.len();
    }
    refuse_if(cell.refs.len() > 65_535, 11, 0)
}

fn put_root(out: &mut [u8], cell: &Cell, counts: [usize; 5], at: [usize; 5]) {
    put_le(out, 0, 4, cell.vft as u64);
    put_le(out, 4, 4, 1);
    put_le(out, 8, 8, SYSTEM + PAGES as u64);
    put_le(out, 28, 4, cell.vehicle_node_count as u64);
    put_le(out, 32, 4, cell.ped_node_count as u64);
    for i in 0..5 {
        // An empty array has address 0.
        let address = if counts[i] == 0 { 0 } else { SYSTEM + at[i] as u64 };
        put_le(out, records::ADDRESS_AT[i], 8, address);
        put_le(out, records::COUNT_AT[i], records::COUNT_WIDTH[i], counts[i] as u64);
    }
    // Of the two ref counts both are written.
    put_le(out, 88, 2, counts[4] as u64);
    for (i, u) in cell.unknowns.iter().enumerate() { put_le(out, records::UNKNOWN_AT[i], 4, *u as u64); }
}

/// T-05: a node without links that has over 65,535 links before it. The Rust refuses such a cell.
pub fn has_late_post(cell: &Cell) -> bool {
    let mut links = 0;
    cell.nodes.iter().any(|n| {
        links += n.links.len();
        n.links.is_empty() && links > 65_535
    })
}

/// Links run in node order, heightmaps in junction order. T-05: a node without links stores start 0.
fn put_arrays(out: &mut [u8], cell: &Cell, at: [usize; 5]) {
    let mut link = 0;
    for (i, n) in cell.nodes.iter().enumerate() {
        let start = if n.links.is_empty() { 0 } else { link };
        records::put_node(&mut out[at[0] + i * 40..], n, start);
        for l in &n.links {
            records::put_link(&mut out[at[1] + link * 8..], l);
            link += 1;
        }
    }
    let mut value = 0;
    for (i, j) in cell.junctions.iter().enumerate() {
        records::put_junction(&mut out[at[2] + i * 12..], j, value);
        out[at[3] + value..at[3] + value + j.values.len()].copy_from_slice(&j.values);
        value += j.values.len();
    }
    for (i, r) in cell.refs.iter().enumerate() { records::put_ref(&mut out[at[4] + i * 8..], r); }
}
