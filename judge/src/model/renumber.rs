//! Section 4: renumbering. Non-ped nodes first, then ped nodes, each group in old order, numbered by place.
use super::cell::{belongs, Cell};
use super::{room, within, Answer};

/// Renumbers, and gives each node's new place by its old one. The scratch must have 65,536 entries, the list one a
/// node.
pub fn renumber(cell: &mut Cell, scratch: usize, places: usize) -> Answer<Vec<usize>> {
    within(cell)?;
    room(6, &[65_536, cell.nodes.len()], &[scratch, places])?;
    let area = cell.area();
    let order: Vec<usize> = [false, true].into_iter()
        .flat_map(|ped| (0..cell.nodes.len()).filter(|&i| cell.nodes[i].is_ped() == ped).collect::<Vec<_>>())
        .collect();
    let mut new_place = vec![0; order.len()];
    for (new, &old) in order.iter().enumerate() { new_place[old] = new; }
    // Of equal old numbers the last node counts: a later one overwrites.
    let mut by_number = vec![None; 65_536];
    for (i, n) in cell.nodes.iter().enumerate() { by_number[n.node_id as usize] = Some(new_place[i] as u16); }
    let renamed = |area_id: u16, node_id: u16| {
        if belongs(area, area_id) { by_number[node_id as usize].unwrap_or(node_id) } else { node_id }
    };
    let old = std::mem::take(&mut cell.nodes);
    for (new, &i) in order.iter().enumerate() {
        let mut n = old[i].clone();
        n.node_id = new as u16;
        for l in &mut n.links { l.node_id = renamed(l.area_id, l.node_id); }
        cell.nodes.push(n);
    }
    for r in &mut cell.refs { r.node_id = renamed(r.area_id, r.node_id); }
    cell.ped_node_count = cell.nodes.iter().filter(|n| n.is_ped()).count() as u32;
    cell.vehicle_node_count = cell.nodes.len() as u32 - cell.ped_node_count;
    Ok(new_place)
}
