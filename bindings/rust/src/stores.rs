//! The cell's own words, and lists and heightmaps as a whole. Lists grow where a call asks for it.
use crate::cell::Cell;
use crate::edits::grow;
use crate::entries::{Junction, Link};
use crate::refusal::{answered, Refusal};
use bofrashem_sys as ffi;

impl Cell {
    /// The root's vft, as read.
    pub fn vft(&self) -> u32 {
        self.words.vft
    }

    /// Stores the root's vft.
    pub fn set_vft(&mut self, vft: u32) {
        unsafe { ffi::ynd_set_vft(&mut self.words, vft) }
    }

    /// Stores the count of nodes that are no ped nodes; renumbering sets it by the nodes.
    pub fn set_vehicle_node_count(&mut self, count: u32) {
        unsafe { ffi::ynd_set_vehicle_node_count(&mut self.words, count) }
    }

    /// Stores the count of ped nodes; renumbering sets it by the nodes.
    pub fn set_ped_node_count(&mut self, count: u32) {
        unsafe { ffi::ynd_set_ped_node_count(&mut self.words, count) }
    }

    /// Stores the root's words unk24, unk34, unk48, unk4c, unk5c, unk68 and unk6c.
    pub fn set_unknowns(&mut self, unknowns: [u32; 7]) {
        unsafe { ffi::ynd_set_unknowns(&mut self.words, &unknowns) }
    }

    /// The first nodes stay. Refused: 13 where there are fewer.
    pub fn truncate_nodes(&mut self, count: usize) -> Result<(), Refusal> {
        answered(|place| unsafe { ffi::ynd_truncate_nodes(&mut self.words, count, place) })
    }

    /// The first junctions stay. Refused: 13 where there are fewer.
    pub fn truncate_junctions(&mut self, count: usize) -> Result<(), Refusal> {
        answered(|place| unsafe { ffi::ynd_truncate_junctions(&mut self.words, count, place) })
    }

    /// The first refs stay. Refused: 13 where there are fewer.
    pub fn truncate_refs(&mut self, count: usize) -> Result<(), Refusal> {
        answered(|place| unsafe { ffi::ynd_truncate_refs(&mut self.words, count, place) })
    }

    /// The links of the node at a place are these, in their order. Refused: 13; 14 over 255 links.
    ///
    /// Where a node gets more links than it had, they go behind all others, and its old entries stay unused until
    /// [`Cell::write_then_read`].
    ///
    /// ```
    /// use bofrashem::{Cell, Link, Refusal};
    /// let mut cell = Cell::new();
    /// let post = cell.add_node(489, [0.0; 3])?;
    /// cell.set_links(post, &[Link::to(489, 1), Link::to(490, 7)])?;
    /// assert_eq!(cell.links_of(post)?.len(), 2);
    /// assert_eq!(cell.set_links(post, &[Link::to(489, 0); 256]), Err(Refusal::AtLimit));
    /// assert_eq!(cell.links_of(post)?.len(), 2);
    /// # Ok::<(), Refusal>(())
    /// ```
    pub fn set_links(&mut self, at: usize, links: &[Link]) -> Result<(), Refusal> {
        self.asked(
            |c| c.put_links(at, links),
            |c| grow(&mut c.links, c.words.link_count as usize + links.len()),
        )
    }

    /// The heightmap of the junction at a place is this one, row by row. Refused: 13; 12 where the values are not
    /// width × height.
    pub fn set_heightmap(
        &mut self,
        at: usize,
        width: u8,
        height: u8,
        values: &[u8],
    ) -> Result<(), Refusal> {
        let put = |c: &mut Cell| c.put_heightmap(at, width, height, values);
        self.asked(put, |c| {
            grow(
                &mut c.heights,
                c.words.heightmap_count as usize + values.len(),
            )
        })
    }

    fn put_links(&mut self, at: usize, given: &[Link]) -> Result<(), Refusal> {
        let (nodes, links) = (&mut self.nodes, &mut self.links);
        answered(|place| unsafe {
            ffi::ynd_put_links(
                &mut self.words,
                nodes.as_mut_ptr().cast(),
                nodes.len(),
                links.as_mut_ptr().cast(),
                links.len(),
                at,
                given.as_ptr().cast(),
                given.len(),
                place,
            )
        })
    }

    fn put_heightmap(
        &mut self,
        at: usize,
        width: u8,
        height: u8,
        values: &[u8],
    ) -> Result<(), Refusal> {
        let (junctions, heights): (&mut Vec<Junction>, &mut Vec<u8>) =
            (&mut self.junctions, &mut self.heights);
        answered(|place| unsafe {
            ffi::ynd_put_heightmap(
                &mut self.words,
                junctions.as_mut_ptr().cast(),
                junctions.len(),
                heights.as_mut_ptr(),
                heights.len(),
                at,
                width,
                height,
                values.as_ptr(),
                values.len(),
                place,
            )
        })
    }
}
