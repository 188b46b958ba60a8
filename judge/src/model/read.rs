//! Section 4: reading, with every refusal in document 01's order: 2, 1, 3, 6, 4, 5, then 7. T-02: no system bytes at
//! all are a yard not drawn yet.
use super::cell::{Cell, Junction, Node};
use super::sections::{le, part};
use super::{records, refuse_if, room, Answer, Refused, MOST_JUNCTIONS, MOST_NODES, MOST_SECTION};

/// The five arrays as found: nodes, links, junctions, heightmap bytes, refs.
type Arrays<'a> = [&'a [u8]; 5];

pub fn read(system: &[u8], graphics: &[u8]) -> Answer<Cell> {
    let arrays = checked(system, graphics)?;
    if system.is_empty() { return Ok(Cell::undrawn()); }
    let word = |at| le(system, at, 4) as u32;
    Ok(Cell {
        vft: word(0),
        vehicle_node_count: word(28),
        ped_node_count: word(32),
        unknowns: records::UNKNOWN_AT.map(word),
        nodes: arrays[0].chunks(40).map(|b| node_with_links(b, arrays[1])).collect(),
        junctions: arrays[2].chunks(12).map(|b| junction_with_values(b, arrays[3])).collect(),
        refs: arrays[4].chunks(8).map(records::junction_ref).collect(),
    })
}

/// `cellsum`'s counts: reading's checks except 7. Nodes, links over all nodes, junctions, values over all junctions,
/// refs.
pub fn count(system: &[u8], graphics: &[u8]) -> Answer<[usize; 5]> {
    let [nodes, _, junctions, _, refs] = checked(system, graphics)?;
    let links = nodes.chunks(40).map(|b| records::link_range(b).1).sum();
    let values = junctions.chunks(12).map(|b| records::value_range(b).1).sum();
    Ok([nodes.len() / 40, links, junctions.len() / 12, values, refs.len() / 8])
}

/// Reading into lent memory of so many entries.
pub fn read_into(system: &[u8], graphics: &[u8], lent: [usize; 5]) -> Answer<Cell> {
    let cell = read(system, graphics)?;
    room(0, &cell.counts(), &lent)?;
    Ok(cell)
}

fn checked<'a>(system: &'a [u8], graphics: &'a [u8]) -> Answer<Arrays<'a>> {
    refuse_if(system.len() > MOST_SECTION, 2, 0)?;
    refuse_if(graphics.len() > MOST_SECTION, 2, 1)?;
    if system.is_empty() { return Ok([&[]; 5]); }
    refuse_if(system.len() < records::ROOT, 1, 0)?;
    let mut arrays: Arrays = [&[]; 5];
    for (i, array) in arrays.iter_mut().enumerate() {
        let address = le(system, records::ADDRESS_AT[i], 8);
        let count = le(system, records::COUNT_AT[i], records::COUNT_WIDTH[i]);
        *array = part(system, graphics, address, count, records::WIDTHS[i]).ok_or(Refused(3, i))?;
    }
    let [nodes, links, junctions, values, _] = arrays;
    refuse_if(nodes.len() / 40 > MOST_NODES, 6, 0)?;
    refuse_if(junctions.len() / 12 > MOST_JUNCTIONS, 6, 1)?;
    ranges(4, nodes.chunks(40).map(records::link_range), links.len() / 8)?;
    ranges(5, junctions.chunks(12).map(records::value_range), values.len())?;
    Ok(arrays)
}

/// A range whose start, or start plus count, is over the list's length, even if it is empty.
fn ranges(number: u32, ranges: impl Iterator<Item = (usize, usize)>, length: usize) -> Answer<()> {
    for (place, (start, count)) in ranges.enumerate() {
        refuse_if(start > length || start + count > length, number, place)?;
    }
    Ok(())
}

fn node_with_links(b: &[u8], links: &[u8]) -> Node {
    let (start, count) = records::link_range(b);
    Node { links: links[start * 8..(start + count) * 8].chunks(8).map(records::link).collect(), ..records::node(b) }
}

fn junction_with_values(b: &[u8], values: &[u8]) -> Junction {
    let (start, count) = records::value_range(b);
    Junction { values: values[start..start + count].to_vec(), ..records::junction(b) }
}
