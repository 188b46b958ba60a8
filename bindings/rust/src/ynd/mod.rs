//! The Rust's `src/ynd.rs` over the proved calls: its names, types and answers, for code that was written over it.
//!
//! A program changes the line that brings the names in:
//!
//! | In the Rust | Here |
//! |---|---|
//! | `use rage_formats::ynd::..;` | `use bofrashem::ynd::..;` |
//! | `use rage_formats::math::{Vec2, Vec3};` | `use bofrashem::math::{Vec2, Vec3};` |
//!
//! `parse_ynd(file)?` and `serialize_ynd(&ynd)?` are there with the feature `container`, which takes flate2. Without
//! it a cell is opened by `Ynd::from_sections(system, graphics)?` of what the container holds, and written by
//! `ynd.to_section()?`, to be put into one.
//!
//! ```
//! use bofrashem::math::Vec3;
//! use bofrashem::ynd::{NodeSpecial, PathLink, Ynd};
//! let mut ynd = Ynd::from_sections(&std::fs::read("../../samples/dock.section")?, &[])?;
//! let area = ynd.area_id().unwrap() as u16;
//! let post = ynd.add_node(area, Vec3::new(1.3, -0.3, 2.0));
//! post.set_special(NodeSpecial::PedNodeRoadCrossing);
//! post.links.push(PathLink::to(area, 0));
//! assert_eq!(post.position, Vec3::new(1.25, -0.25, 2.0));
//! let number = post.node_id;
//! ynd.recalculate_node_indices();
//! assert!(ynd.node(number).is_some_and(|n| n.is_ped_node()));
//! assert_eq!(Ynd::from_sections(&ynd.to_section()?, &[])?, ynd);
//! # Ok::<(), Box<dyn std::error::Error>>(())
//! ```
//!
//! What is not here: XML (`ynd_to_xml`, `ynd_from_xml`, `dump_ynd_xml`, `build_ynd_from_xml`), the container of a
//! dictionary (`parse_node_dictionary`, `serialize_node_dictionary`) and the trait `Pod` of the container's blocks.
//! Where an answer is another than the Rust's is in docs/DIFFERENCES.md; what is refused there, and has no `Result`
//! here, panics with the refusal, at the caller's line. Each such function says so.
//!
//! A node's fields are where the library's entry has them, and links and refs are its entries, so that calls on them are
//! lent the caller's own memory. Of the whole cell `to_section` and `recalculate_node_indices` lend lists made for the
//! call; a program that makes many such calls takes a [`Cell`] itself: `Cell::try_from(&ynd)`, `Ynd::from(&cell)`.
#[cfg(feature = "container")]
mod file;
mod grid;
mod junction;
mod link;
mod lists;
mod node;
mod records;

pub use crate::math::{Vec2, Vec3};
#[cfg(feature = "container")]
pub use file::{parse_ynd, serialize_ynd, Unopened};
pub use grid::{
    area_id, area_id_from_file_name, cell_bounds, cell_file_name, cell_for_position, cell_of_area,
    is_island_area, same_cell, CELL_COUNT, CELL_HEIGHT, CELL_MIN_Z, CELL_ORIGIN, CELL_SIZE,
    ISLAND_FLAG,
};
pub use junction::{Heightmap, PathJunction};
pub use link::PathLink;
pub use node::{NodeSpecial, NodeSpeed, PathNode};
pub use records::{
    Node, NodeDictionary, NodeJunction, NodeJunctionRef, NodeLink, NODE_DICTIONARY_VFT,
};

use crate::{Cell, Refusal};

/// A path node cell.
#[derive(Debug, Clone, PartialEq)]
pub struct Ynd {
    /// The root's vft, as read.
    pub vft: u32,
    /// How many nodes are no ped nodes: as read, and set by renumbering.
    pub vehicle_node_count: u32,
    /// How many are.
    pub ped_node_count: u32,
    /// The nodes, each with its links.
    pub nodes: Vec<PathNode>,
    /// The junctions, each with its heightmap.
    pub junctions: Vec<PathJunction>,
    /// Which node each junction belongs to, by its place in `junctions`.
    pub junction_refs: Vec<NodeJunctionRef>,
    /// The root's words unk24, unk34, unk48, unk4c, unk5c, unk68 and unk6c.
    pub unknowns: [u32; 7],
}

impl Default for Ynd {
    fn default() -> Ynd {
        Ynd::from(&Cell::new())
    }
}

impl Ynd {
    /// An empty cell.
    pub fn new() -> Ynd {
        Ynd::default()
    }

    /// Reads a cell from its two sections. Refused as [`crate::count`] is.
    pub fn from_sections(system: &[u8], graphics: &[u8]) -> Result<Ynd, Refusal> {
        Ok(Ynd::from(&Cell::read(system, graphics)?))
    }

    /// The cell as a system section. Refused, in this order: 14 over 65,536 nodes, 255 links of a node or 4,096
    /// junctions, and 12, node by node and then junction by junction; 8 and 9 node by node, 10, 11.
    pub fn to_section(&self) -> Result<Vec<u8>, Refusal> {
        Cell::try_from(self)?.write()
    }

    /// The cell's own area, its first node's; none where it has no node.
    pub fn area_id(&self) -> Option<u32> {
        self.in_short().area()
    }

    /// The node that has a number: the one at that place if it has it, else the first. A look of its own, as the Rust
    /// has it: one comparison where numbers are places, as after renumbering; else a look at each node.
    #[inline]
    pub fn node(&self, node_id: u16) -> Option<&PathNode> {
        match self.nodes.get(node_id as usize) {
            Some(n) if n.node_id == node_id => Some(n),
            _ => self.first_with(node_id),
        }
    }

    /// Apart from [`Ynd::node`], so that a caller's loop has the comparison alone in line. Eight nodes are looked at
    /// for each branch.
    #[inline(never)]
    fn first_with(&self, node_id: u16) -> Option<&PathNode> {
        let has = |n: &&PathNode| n.node_id == node_id;
        let mut eights = self.nodes.chunks_exact(8);
        let found = eights.find(|part| part.iter().fold(false, |found, n| found | has(&n)));
        found.unwrap_or(eights.remainder()).iter().find(has)
    }

    /// The junction that the refs give to a node.
    ///
    /// # Panics
    /// Where the cell has over 4,096 junctions.
    #[track_caller]
    pub fn junction_of(&self, area_id: u16, node_id: u16) -> Option<&PathJunction> {
        let (refs, junctions) = (records::entries(&self.junction_refs), self.junctions.len());
        accepted(
            self.in_short()
                .junction_of_refs(refs, junctions, area_id, node_id),
        )
        .map(|p| &self.junctions[p])
    }

    /// A node more, behind all others, its position in whole steps; its number is its place.
    ///
    /// # Panics
    /// At 65,536 nodes.
    #[track_caller]
    pub fn add_node(&mut self, area_id: u16, position: Vec3) -> &mut PathNode {
        let number = accepted(u16::try_from(self.nodes.len()).map_err(|_| Refusal::AtLimit));
        self.nodes.push(PathNode::new(area_id, number, position));
        self.nodes.last_mut().expect("a node was added")
    }

    /// Renumbers the cell: nodes that are no ped nodes first, then ped nodes, each in their old order; links and refs
    /// of the own area follow, and both counts are set.
    ///
    /// # Panics
    /// Over 65,536 nodes, or 255 links of a node: [`Ynd::renumbered`] refuses instead.
    #[track_caller]
    pub fn recalculate_node_indices(&mut self) {
        accepted(self.renumbered());
    }

    /// The same; returns each node's new place, by its old one. Refused: 14 over 65,536 nodes, or 255 links of a node.
    pub fn renumbered(&mut self) -> Result<Vec<usize>, Refusal> {
        let mut cell = lists::nodes_and_refs(self)?;
        let places = cell.renumber()?;
        let [vehicles, peds] = cell.kind_counts();
        // nodes that are no ped nodes have the first places, and each kind keeps its order
        let (mut nodes, mut behind) = (
            Vec::with_capacity(self.nodes.len()),
            Vec::with_capacity(peds as usize),
        );
        for (node, &place) in std::mem::take(&mut self.nodes).into_iter().zip(&places) {
            if place < vehicles as usize {
                &mut nodes
            } else {
                &mut behind
            }
            .push(node);
        }
        nodes.append(&mut behind);
        lists::give_back(&cell, &mut nodes, &mut self.junction_refs);
        (self.nodes, self.vehicle_node_count, self.ped_node_count) = (nodes, vehicles, peds);
        Ok(places)
    }

    /// A cell with the first node alone, which says the area.
    fn in_short(&self) -> Cell {
        Cell::of_nodes(
            self.nodes
                .first()
                .map(|n| n.entry(0, 0))
                .into_iter()
                .collect(),
        )
    }
}

/// What the Rust has no refusal for.
#[track_caller]
fn accepted<T>(answer: Result<T, Refusal>) -> T {
    match answer {
        Ok(given) => given,
        Err(refusal) => panic!("{refusal}"),
    }
}
