//! A cell that owns its memory: renumbering, writing, lookups.
use crate::entries::{places, Junction, Link, Node, Ref, Words};
use crate::refusal::{answered, Refusal};
use bofrashem_sys as ffi;

/// What the scratch of renumbering and of the check of soundness has.
pub(crate) const SCRATCH: usize = 65_536;

/// Memory for it, which may hold anything.
pub(crate) fn scratch() -> Vec<u32> {
    Vec::with_capacity(SCRATCH)
}

/// A cell of path nodes, with its links, junctions, heightmaps and refs.
///
/// ```
/// use bofrashem::{Cell, End, Link, Refusal};
/// let mut cell = Cell::new();
/// let gate = cell.add_node(489, [10.0, 20.0, 0.0])?;
/// let ramp = cell.add_node(489, [13.0, 24.0, 0.0])?;
/// cell.add_link(gate, Link { length: 5, ..Link::to(489, ramp as u16) })?;
/// let walk = cell.walk(gate, &[0])?;
/// assert_eq!((walk.end, walk.visited), (End::Done, vec![0, 1]));
///
/// let section = cell.write()?;
/// assert_eq!(Cell::read(&section, &[])?, cell);
/// assert_eq!(cell.add_link(7, Link::to(489, 0)), Err(Refusal::NoSuchPlace));
/// # Ok::<(), Refusal>(())
/// ```
///
/// Lists grow where an edit needs room. A refused edit has grown none; an accepted one keeps what it took, until the
/// cell is dropped.
#[derive(Clone, Debug)]
pub struct Cell {
    // Each list has at least as many entries as the words say.
    pub(crate) words: Words,
    pub(crate) nodes: Vec<Node>,
    pub(crate) links: Vec<Link>,
    pub(crate) junctions: Vec<Junction>,
    pub(crate) heights: Vec<u8>,
    pub(crate) refs: Vec<Ref>,
}

impl Default for Cell {
    fn default() -> Cell {
        Cell::new()
    }
}

/// Equal words, nodes with equal links, junctions with equal values, equal refs; wherever they stand in memory.
impl PartialEq for Cell {
    fn eq(&self, o: &Cell) -> bool {
        let links = (0..self.nodes().len()).all(|p| self.links_of(p) == o.links_of(p));
        let values = (0..self.junctions().len()).all(|p| self.values_of(p) == o.values_of(p));
        let own = self.vft() == o.vft()
            && self.kind_counts() == o.kind_counts()
            && self.unknowns() == o.unknowns();
        let lists = self.nodes() == o.nodes()
            && self.junctions() == o.junctions()
            && self.refs() == o.refs();
        links && values && own && lists
    }
}

impl Cell {
    /// A cell that holds nothing.
    pub fn new() -> Cell {
        let mut words = Words::default();
        unsafe { ffi::ynd_new(&mut words) };
        let (nodes, links, junctions) = (Vec::new(), Vec::new(), Vec::new());
        Cell {
            words,
            nodes,
            links,
            junctions,
            heights: Vec::new(),
            refs: Vec::new(),
        }
    }

    /// A cell of these nodes, without links.
    pub(crate) fn of_nodes(nodes: Vec<Node>) -> Cell {
        let mut cell = Cell::new();
        cell.words.node_count = nodes.len() as u32;
        Cell { nodes, ..cell }
    }

    /// A cell of these nodes, whose links are of this list, and refs.
    pub(crate) fn of_lists(nodes: Vec<Node>, links: Vec<Link>, refs: Vec<Ref>) -> Cell {
        let mut cell = Cell::of_nodes(nodes);
        cell.words.link_count = links.len() as u32;
        cell.words.ref_count = refs.len() as u32;
        Cell {
            links,
            refs,
            ..cell
        }
    }

    /// A junction more in a cell whose lists have no free entries; width times height are the values.
    pub(crate) fn push_junction(&mut self, junction: Junction, values: &[u8]) {
        let heightmap_start = self.heights.len() as u32;
        self.junctions.push(Junction {
            heightmap_start,
            ..junction
        });
        self.heights.extend_from_slice(values);
        self.words.junction_count = self.junctions.len() as u32;
        self.words.heightmap_count = self.heights.len() as u32;
    }

    /// The nodes, by place.
    pub fn nodes(&self) -> &[Node] {
        &self.nodes[..self.words.node_count as usize]
    }

    /// The junctions, by place.
    pub fn junctions(&self) -> &[Junction] {
        &self.junctions[..self.words.junction_count as usize]
    }

    /// The refs, by place.
    pub fn refs(&self) -> &[Ref] {
        &self.refs[..self.words.ref_count as usize]
    }

    /// The links of the node at a place. Refused: 13.
    pub fn links_of(&self, at: usize) -> Result<&[Link], Refusal> {
        let node = self.nodes().get(at).ok_or(Refusal::NoSuchPlace)?;
        Ok(self.links_at(node))
    }

    /// The links of one of the nodes.
    pub(crate) fn links_at(&self, node: &Node) -> &[Link] {
        let links = &self.links[..self.words.link_count as usize];
        held(links, node.link_start as usize, node.link_count as usize)
    }

    /// The heightmap values of the junction at a place, row by row. Refused: 13.
    pub fn values_of(&self, at: usize) -> Result<&[u8], Refusal> {
        let j = self.junctions().get(at).ok_or(Refusal::NoSuchPlace)?;
        let values = &self.heights[..self.words.heightmap_count as usize];
        Ok(held(
            values,
            j.heightmap_start as usize,
            j.width as usize * j.height as usize,
        ))
    }

    /// How many links the cell holds over all nodes.
    pub fn link_count(&self) -> usize {
        self.nodes().iter().map(|n| n.link_count as usize).sum()
    }

    /// How many heightmap values the cell holds over all junctions.
    pub fn value_count(&self) -> usize {
        self.junctions()
            .iter()
            .map(|j| j.width as usize * j.height as usize)
            .sum()
    }

    /// The counts of nodes that are no ped nodes and of ped nodes: as read, and set by renumbering.
    pub fn kind_counts(&self) -> [u32; 2] {
        [self.words.vehicle_node_count, self.words.ped_node_count]
    }

    /// The root's words unk24, unk34, unk48, unk4c, unk5c, unk68 and unk6c.
    pub fn unknowns(&self) -> [u32; 7] {
        self.words.unknowns
    }

    /// Renumbers the cell: ped nodes come last. Returns each node's new place, by its old one. Refused: never for a
    /// cell made by these calls.
    ///
    /// ```
    /// use bofrashem::Cell;
    /// let mut cell = Cell::read(&std::fs::read("../../samples/hall.section")?, &[])?;
    /// let before = cell.walk(3, &[0, 1, 0])?;
    /// let places = cell.renumber()?;
    /// let after = cell.walk(places[3], &[0, 1, 0])?;
    /// let moved: Vec<usize> = before.visited.iter().map(|&p| places[p]).collect();
    /// assert_eq!((before.end, moved), (after.end, after.visited));
    /// # Ok::<(), Box<dyn std::error::Error>>(())
    /// ```
    pub fn renumber(&mut self) -> Result<Vec<usize>, Refusal> {
        let (mut scratch, mut new) = (scratch(), vec![0; self.nodes().len()]);
        answered(|place| unsafe {
            ffi::ynd_renumber(
                &mut self.words,
                self.nodes.as_mut_ptr().cast(),
                self.nodes.len(),
                self.links.as_mut_ptr().cast(),
                self.links.len(),
                self.junctions.as_ptr().cast(),
                self.junctions.len(),
                self.heights.as_ptr(),
                self.heights.len(),
                self.refs.as_mut_ptr().cast(),
                self.refs.len(),
                scratch.as_mut_ptr(),
                SCRATCH,
                new.as_mut_ptr(),
                new.len(),
                place,
            )
        })?;
        Ok(places(&new))
    }

    /// How long the cell is once it is written. Refused: 2 over 16,777,216 bytes, which writing is refused for, too.
    pub fn written_length(&self) -> Result<usize, Refusal> {
        let (w, links, values) = (
            &self.words,
            self.link_count() as u32,
            self.value_count() as u32,
        );
        Ok(lay_out([w.ref_count, values, w.junction_count, links, w.node_count])?.1)
    }

    /// A section for writing. Where the cell is too long to be written there is none: writing names the cause.
    fn section(&self) -> Vec<u8> {
        vec![0; self.written_length().unwrap_or(0)]
    }

    /// The cell as a system section. Refused: 8 and 9 node by node, 10, 11.
    pub fn write(&self) -> Result<Vec<u8>, Refusal> {
        let (mut section, mut length) = (self.section(), 0);
        answered(|place| unsafe {
            ffi::ynd_write(
                &self.words,
                self.nodes.as_ptr().cast(),
                self.nodes.len(),
                self.links.as_ptr().cast(),
                self.links.len(),
                self.junctions.as_ptr().cast(),
                self.junctions.len(),
                self.heights.as_ptr(),
                self.heights.len(),
                self.refs.as_ptr().cast(),
                self.refs.len(),
                section.as_mut_ptr(),
                section.len(),
                &mut length,
                place,
            )
        })?;
        section.truncate(length);
        Ok(section)
    }

    /// Writes the cell and reads it back; returns the section. Refused as [`Cell::write`] is.
    pub fn write_then_read(&mut self) -> Result<Vec<u8>, Refusal> {
        let (mut section, mut length) = (self.section(), 0);
        answered(|place| unsafe {
            ffi::ynd_write_then_read(
                &mut self.words,
                self.nodes.as_mut_ptr().cast(),
                self.nodes.len(),
                self.links.as_mut_ptr().cast(),
                self.links.len(),
                self.junctions.as_mut_ptr().cast(),
                self.junctions.len(),
                self.heights.as_mut_ptr(),
                self.heights.len(),
                self.refs.as_mut_ptr().cast(),
                self.refs.len(),
                section.as_mut_ptr(),
                section.len(),
                &mut length,
                place,
            )
        })?;
        section.truncate(length);
        Ok(section)
    }

    /// The place of the node that has a number.
    pub fn node(&self, node_id: u16) -> Option<usize> {
        self.find(node_id)
            .expect("the cell's lists hold its counts")
    }

    /// The same. Refused: 14 a cell of too many nodes, which only [`Cell::of_nodes`] makes.
    pub(crate) fn find(&self, node_id: u16) -> Result<Option<usize>, Refusal> {
        let (mut found, mut at) = (false, 0);
        answered(|place| unsafe {
            ffi::ynd_node(
                &self.words,
                self.nodes.as_ptr().cast(),
                self.nodes.len(),
                node_id,
                &mut found,
                &mut at,
                place,
            )
        })?;
        Ok(found.then_some(at))
    }

    /// The place of the junction that the refs give to a node.
    pub fn junction_of(&self, area_id: u16, node_id: u16) -> Option<usize> {
        let (mut found, mut at) = (false, 0);
        lookup(|place| unsafe {
            ffi::ynd_junction_of(
                &self.words,
                self.nodes.as_ptr().cast(),
                self.nodes.len(),
                self.refs.as_ptr().cast(),
                self.refs.len(),
                area_id,
                node_id,
                &mut found,
                &mut at,
                place,
            )
        });
        found.then_some(at)
    }

    /// The place of the junction that other refs give to a node, of so many junctions. Refused: 14 over 4,096
    /// junctions.
    pub(crate) fn junction_of_refs(
        &self,
        refs: &[Ref],
        junctions: usize,
        area_id: u16,
        node_id: u16,
    ) -> Result<Option<usize>, Refusal> {
        let (junction_count, ref_count) = (junctions as u32, refs.len() as u32);
        let (words, mut found, mut at) = (
            Words {
                junction_count,
                ref_count,
                ..self.words
            },
            false,
            0,
        );
        answered(|place| unsafe {
            let (nodes, n) = (self.nodes.as_ptr().cast(), self.nodes.len());
            let (refs, r) = (refs.as_ptr().cast(), refs.len());
            ffi::ynd_junction_of(
                &words, nodes, n, refs, r, area_id, node_id, &mut found, &mut at, place,
            )
        })?;
        Ok(found.then_some(at))
    }

    /// The cell's own area: the first node's.
    pub fn area(&self) -> Option<u32> {
        let (mut found, mut area) = (false, 0);
        lookup(|place| unsafe {
            ffi::ynd_area_of_cell(
                &self.words,
                self.nodes.as_ptr().cast(),
                self.nodes.len(),
                &mut found,
                &mut area,
                place,
            )
        });
        found.then_some(area)
    }
}

/// Where the blocks of a written section lie, by how many refs, heightmap values, junctions, links and nodes it has,
/// and its length.
pub(crate) fn lay_out(counts: [u32; 5]) -> Result<(ffi::ynd_addresses, usize), Refusal> {
    let [refs, values, junctions, links, nodes] = counts;
    let (mut addresses, mut total) = (ffi::ynd_addresses::default(), 0);
    answered(|place| unsafe {
        ffi::ynd_lay_out(
            refs,
            values,
            junctions,
            links,
            nodes,
            &mut addresses,
            &mut total,
            place,
        )
    })?;
    Ok((addresses, total))
}

/// A range of a list, cut where it leaves the list.
fn held<T>(list: &[T], start: usize, count: usize) -> &[T] {
    &list[start.min(list.len())..(start + count).min(list.len())]
}

/// A call that is refused only where a count passes its list or its limit, which a cell's own counts do not.
pub(crate) fn lookup(call: impl FnOnce(&mut usize) -> u32) {
    answered(call).expect("the cell's lists hold its counts")
}
