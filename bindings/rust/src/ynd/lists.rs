//! A cell's nodes with their links as the library's lists, and back.
use super::{link, records, NodeJunctionRef, PathJunction, PathNode, Ynd};
use crate::{Cell, Refusal};

const NODES_MOST: usize = 65_536;
const JUNCTIONS_MOST: usize = 4_096;

/// Nodes, links and refs alone. Refused: 14 over 65,536 nodes, or 255 links of a node.
pub(super) fn nodes_and_refs(ynd: &Ynd) -> Result<Cell, Refusal> {
    if ynd.nodes.len() > NODES_MOST || u32::try_from(ynd.junction_refs.len()).is_err() {
        return Err(Refusal::AtLimit);
    }
    let (mut nodes, mut links) = (
        Vec::with_capacity(ynd.nodes.len()),
        Vec::with_capacity(ynd.nodes.len()),
    );
    for n in &ynd.nodes {
        let count = u8::try_from(n.links.len()).map_err(|_| Refusal::AtLimit)?;
        nodes.push(n.entry(links.len() as u32, count));
        links.extend_from_slice(link::entries(&n.links));
    }
    Ok(Cell::of_lists(
        nodes,
        links,
        records::entries(&ynd.junction_refs).to_vec(),
    ))
}

/// Numbers, links and refs of a renumbered cell, into nodes that stand in its order.
pub(super) fn give_back(cell: &Cell, nodes: &mut [PathNode], refs: &mut [NodeJunctionRef]) {
    for (node, entry) in nodes.iter_mut().zip(&cell.nodes) {
        node.node_id = entry.node_id;
        let links = &cell.links[entry.link_start as usize..][..entry.link_count as usize];
        node.links.copy_from_slice(link::named(links));
    }
    records::entries_mut(refs).copy_from_slice(&cell.refs);
}

/// Refused: 14 over 65,536 nodes, 255 links of a node or 4,096 junctions; 12.
impl TryFrom<&Ynd> for Cell {
    type Error = Refusal;

    fn try_from(ynd: &Ynd) -> Result<Cell, Refusal> {
        let mut cell = nodes_and_refs(ynd)?;
        for (place, j) in ynd.junctions.iter().enumerate() {
            let map = &j.heightmap;
            if place == JUNCTIONS_MOST {
                return Err(Refusal::AtLimit);
            }
            if map.values.len() != map.width as usize * map.height as usize {
                return Err(Refusal::ValuesNotSize);
            }
            cell.push_junction(j.entry(), &map.values);
        }
        cell.set_vft(ynd.vft);
        cell.set_vehicle_node_count(ynd.vehicle_node_count);
        cell.set_ped_node_count(ynd.ped_node_count);
        cell.set_unknowns(ynd.unknowns);
        Ok(cell)
    }
}

/// A node's five unused fields are left behind: the Rust's node has none.
impl From<&Cell> for Ynd {
    fn from(cell: &Cell) -> Ynd {
        let [vehicle_node_count, ped_node_count] = cell.kind_counts();
        let values = |p| cell.values_of(p).expect("a junction's place");
        Ynd {
            vft: cell.vft(),
            vehicle_node_count,
            ped_node_count,
            nodes: cell
                .nodes()
                .iter()
                .map(|n| PathNode::of(n, cell.links_at(n)))
                .collect(),
            junctions: cell
                .junctions()
                .iter()
                .enumerate()
                .map(|(p, j)| PathJunction::of(j, values(p)))
                .collect(),
            junction_refs: records::named(cell.refs()).to_vec(),
            unknowns: cell.unknowns(),
        }
    }
}
