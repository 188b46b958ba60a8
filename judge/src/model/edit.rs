//! Section 4: the other calls that change a cell. Of the caller's refusals 13 comes first, then 14, 12, 7.
use super::cell::{Cell, Junction, Link, Node, Ref};
use super::{refuse_if, room, steps, within, Answer, MOST_JUNCTIONS, MOST_LINKS, MOST_NODES};

/// The number is the place.
pub fn add_node(cell: &mut Cell, area_id: u16, position: [u32; 3], lent: [usize; 5]) -> Answer<()> {
    let place = cell.nodes.len();
    within(cell)?;
    refuse_if(place >= MOST_NODES, 14, 0)?;
    room(0, &[place + 1], &lent[..1])?;
    cell.nodes.push(Node { area_id, node_id: place as u16, position: steps::stored(position), ..Node::default() });
    Ok(())
}

pub fn set_position(cell: &mut Cell, place: usize, position: [u32; 3]) -> Answer<()> {
    refuse_if(place >= cell.nodes.len(), 13, 0)?;
    within(cell)?;
    cell.nodes[place].position = steps::stored(position);
    Ok(())
}

/// The new link comes last of its node's.
pub fn add_link(cell: &mut Cell, place: usize, link: Link, lent: [usize; 5]) -> Answer<()> {
    refuse_if(place >= cell.nodes.len(), 13, 0)?;
    within(cell)?;
    refuse_if(cell.nodes[place].links.len() >= MOST_LINKS, 14, 0)?;
    room(1, &[cell.counts()[1] + 1], &lent[1..2])?;
    cell.nodes[place].links.push(link);
    Ok(())
}

pub fn add_ref(cell: &mut Cell, r: Ref, lent: [usize; 5]) -> Answer<()> {
    within(cell)?;
    room(4, &[cell.refs.len() + 1], &lent[4..])?;
    cell.refs.push(r);
    Ok(())
}

pub fn add_junction(cell: &mut Cell, junction: Junction, lent: [usize; 5]) -> Answer<()> {
    within(cell)?;
    refuse_if(cell.junctions.len() >= MOST_JUNCTIONS, 14, 0)?;
    refuse_if(junction.values.len() != junction.width as usize * junction.height as usize, 12, 0)?;
    let counts = cell.counts();
    room(2, &[counts[2] + 1, counts[3] + junction.values.len()], &lent[2..4])?;
    cell.junctions.push(junction);
    Ok(())
}
