//! The cell's own words, lists and heightmaps as a whole.
use super::lent::Shown;
use super::memory::Memory;
use super::words::link_words;
use super::{answer, KEPT_PLACE};
use crate::model::cell::Link;
use crate::model::Answer;
use crate::slips;

type Words = [u32; 15];

extern "C" {
    fn ynd_set_vft(ynd: &mut Words, vft: u32);
    fn ynd_set_vehicle_node_count(ynd: &mut Words, count: u32);
    fn ynd_set_ped_node_count(ynd: &mut Words, count: u32);
    fn ynd_set_unknowns(ynd: &mut Words, unknowns: &[u32; 7]);
    fn ynd_truncate_nodes(ynd: &mut Words, count: usize, place: &mut usize) -> u32;
    fn ynd_truncate_junctions(ynd: &mut Words, count: usize, place: &mut usize) -> u32;
    fn ynd_truncate_refs(ynd: &mut Words, count: usize, place: &mut usize) -> u32;
    fn ynd_put_links(
        ynd: &mut Words, nodes: *mut [u32; 13], node_count: usize, links: *mut [u16; 4], link_count: usize, at: usize,
        given: *const [u16; 4], given_count: usize, place: &mut usize,
    ) -> u32;
    fn ynd_put_heightmap(
        ynd: &mut Words, junctions: *mut [u32; 6], junction_count: usize, heights: *mut u8, height_count: usize,
        at: usize, width: u8, height: u8, values: *const u8, value_count: usize, place: &mut usize,
    ) -> u32;
}

impl Memory {
    pub fn set_vft(&mut self, vft: u32) { unsafe { ynd_set_vft(&mut self.ynd, vft) } }

    /// Nodes that are no ped nodes, or ped nodes.
    pub fn set_kind_count(&mut self, peds: bool, count: u32) {
        let set = if peds { ynd_set_ped_node_count } else { ynd_set_vehicle_node_count };
        unsafe { set(&mut self.ynd, count) }
    }

    pub fn set_unknowns(&mut self, unknowns: [u32; 7]) { unsafe { ynd_set_unknowns(&mut self.ynd, &unknowns) } }

    /// List 0, 2 or 4: nodes, junctions or refs.
    pub fn truncate(&mut self, list: usize, count: usize) -> Answer<()> {
        let mut place = KEPT_PLACE;
        let cut = [ynd_truncate_nodes, ynd_truncate_junctions, ynd_truncate_refs][list / 2];
        answer(unsafe { cut(&mut self.ynd, count, &mut place) }, place, ())
    }

    pub fn put_links(&mut self, at: usize, links: &[Link]) -> Answer<()> {
        let mut place = KEPT_PLACE;
        let given: Vec<[u16; 4]> = links.iter().map(link_words).collect();
        let (n, l) = (self.nodes.len(), self.links.len());
        let before = slips::before(self);
        let (nodes, links, mut given) = (self.nodes.as_mut_ptr(), self.links.as_mut_ptr(), Shown::of(&given));
        let number = unsafe {
            ynd_put_links(&mut self.ynd, nodes, n, links, l, at, given.ptr(), given.len(), &mut place)
        };
        given.stays("ynd_put_links", "links given");
        if let Some(old) = before { slips::edits::links_appended(self, &old, at, number); }
        answer(number, place, ())
    }

    pub fn put_heightmap(&mut self, at: usize, [width, height]: [u8; 2], values: &[u8]) -> Answer<()> {
        let mut place = KEPT_PLACE;
        let (n, h) = (self.junctions.len(), self.heights.len());
        let (junctions, heights) = (self.junctions.as_mut_ptr(), self.heights.as_mut_ptr());
        let (before, mut given) = (slips::before(self), Shown::of(values));
        let (from, count) = (given.ptr(), given.len());
        let number = unsafe {
            ynd_put_heightmap(&mut self.ynd, junctions, n, heights, h, at, width, height, from, count, &mut place)
        };
        given.stays("ynd_put_heightmap", "values given");
        if let Some(old) = before { slips::edits::old_height(self, &old, at, number); }
        answer(number, place, ())
    }
}
