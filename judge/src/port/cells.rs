//! Reading, counting, renumbering, writing.
use super::lent::{Filled, Shown};
use super::memory::{Memory, ALL, HEIGHTS, JUNCTIONS};
use super::{answer, Junction, Link, Node, Ref, KEPT_PLACE};
use crate::model::Answer;
use crate::slips;

extern "C" {
    fn ynd_read(
        ynd: *mut u32, system: *const u8, system_length: usize, graphics: *const u8, graphics_length: usize,
        nodes: *mut Node, node_count: usize, links: *mut Link, link_count: usize, junctions: *mut Junction,
        junction_count: usize, heights: *mut u8, height_count: usize, refs: *mut Ref, ref_count: usize,
        place: &mut usize,
    ) -> u32;
    fn ynd_count(
        system: *const u8, system_length: usize, graphics: *const u8, graphics_length: usize, counts: &mut [usize; 5],
        place: &mut usize,
    ) -> u32;
    fn ynd_renumber(
        ynd: *mut u32, nodes: *mut Node, node_count: usize, links: *mut Link, link_count: usize,
        junctions: *const Junction, junction_count: usize, heights: *const u8, height_count: usize, refs: *mut Ref,
        ref_count: usize, scratch: *mut u32, scratch_count: usize, places: *mut u32, place_count: usize,
        place: &mut usize,
    ) -> u32;
    fn ynd_write(
        ynd: *const u32, nodes: *const Node, node_count: usize, links: *const Link, link_count: usize,
        junctions: *const Junction, junction_count: usize, heights: *const u8, height_count: usize, refs: *const Ref,
        ref_count: usize, section: *mut u8, section_length: usize, length: &mut usize, place: &mut usize,
    ) -> u32;
    fn ynd_write_then_read(
        ynd: *mut u32, nodes: *mut Node, node_count: usize, links: *mut Link, link_count: usize,
        junctions: *mut Junction, junction_count: usize, heights: *mut u8, height_count: usize, refs: *mut Ref,
        ref_count: usize, section: *mut u8, section_length: usize, length: &mut usize, place: &mut usize,
    ) -> u32;
}

/// Counts of nodes, links, junctions, heightmap values, refs; the second part says that a refusal left what was lent.
pub fn count(system: &[u8], graphics: &[u8]) -> (Answer<[usize; 5]>, bool) {
    if let Some(wrong) = slips::reading::section(system) { return count_right(&wrong, graphics); }
    count_right(system, graphics)
}

pub fn count_right(system: &[u8], graphics: &[u8]) -> (Answer<[usize; 5]>, bool) {
    let (mut counts, mut place) = ([KEPT_PLACE; 5], KEPT_PLACE);
    let (mut s, mut g) = (Shown::of(system), Shown::of(graphics));
    let number = unsafe { ynd_count(s.ptr(), s.len(), g.ptr(), g.len(), &mut counts, &mut place) };
    s.stays("ynd_count", "system section");
    g.stays("ynd_count", "graphics section");
    (answer(number, place, counts), number == 0 || counts == [KEPT_PLACE; 5])
}

impl Memory {
    pub fn read(&mut self, system: &[u8], graphics: &[u8]) -> Answer<()> {
        if slips::any() { return slips::reading::read(self, system, graphics); }
        self.read_right(system, graphics)
    }

    pub fn read_right(&mut self, system: &[u8], graphics: &[u8]) -> Answer<()> {
        let (mut place, kept, [n, l, j, h, x]) = (KEPT_PLACE, self.keep(0), self.lent());
        let (mut s, mut g) = (Shown::of(system), Shown::of(graphics));
        let number = unsafe {
            ynd_read(
                self.ynd.as_mut_ptr(), s.ptr(), s.len(), g.ptr(), g.len(), self.nodes.as_mut_ptr(), n,
                self.links.as_mut_ptr(), l, self.junctions.as_mut_ptr(), j, self.heights.as_mut_ptr(), h,
                self.refs.as_mut_ptr(), x, &mut place,
            )
        };
        s.stays("ynd_read", "system section");
        g.stays("ynd_read", "graphics section");
        self.stays("ynd_read", 0, kept);
        answer(number, place, ())
    }

    pub fn renumber(&mut self, scratch: &mut [u32], places: &mut [u32]) -> Answer<()> {
        if slips::any() { return slips::renumbering::renumber(self, scratch, places); }
        self.renumber_right(scratch, places)
    }

    /// The scratch is long: its guards are its owner's (compare/scratch.rs).
    pub fn renumber_right(&mut self, scratch: &mut [u32], places: &mut [u32]) -> Answer<()> {
        let mut place = KEPT_PLACE;
        let (kept, [n, l, j, h, x]) = (self.keep(JUNCTIONS | HEIGHTS), self.lent());
        let mut p = Filled::of(places);
        let number = unsafe {
            ynd_renumber(
                self.ynd.as_mut_ptr(), self.nodes.as_mut_ptr(), n, self.links.as_mut_ptr(), l,
                self.junctions.as_mut_ptr(), j, self.heights.as_mut_ptr(), h, self.refs.as_mut_ptr(), x,
                scratch.as_mut_ptr(), scratch.len(), p.ptr(), p.len(), &mut place,
            )
        };
        slips::renumbering::touches(&mut self.heights);
        p.back("ynd_renumber", "new places");
        self.stays("ynd_renumber", JUNCTIONS | HEIGHTS, kept);
        answer(number, place, ())
    }

    /// The length written.
    pub fn write(&self, section: &mut [u8]) -> Answer<usize> {
        if slips::any() { return slips::writing::write(self, section); }
        self.write_right(section)
    }

    pub fn write_right(&self, section: &mut [u8]) -> Answer<usize> {
        let (mut length, mut place) = (KEPT_PLACE, KEPT_PLACE);
        let (kept, [n, l, j, h, x]) = (self.keep(ALL), self.lent());
        let (mut ynd, mut to) = (Shown::of(&self.ynd), Filled::of(section));
        let number = unsafe {
            ynd_write(
                ynd.ptr(), self.nodes.as_ptr(), n, self.links.as_ptr(), l, self.junctions.as_ptr(), j,
                self.heights.as_ptr(), h, self.refs.as_ptr(), x, to.ptr(), to.len(), &mut length, &mut place,
            )
        };
        ynd.stays("ynd_write", "struct");
        to.back("ynd_write", "section");
        self.stays("ynd_write", ALL, kept);
        if number != 0 && length != KEPT_PLACE { return Ok(length); }
        answer(number, place, length)
    }

    /// The length written.
    pub fn write_then_read(&mut self, section: &mut [u8]) -> Answer<usize> {
        if slips::any() { return slips::writing::write_then_read(self, section); }
        self.write_then_read_right(section)
    }

    pub fn write_then_read_right(&mut self, section: &mut [u8]) -> Answer<usize> {
        let (mut length, mut place) = (KEPT_PLACE, KEPT_PLACE);
        let (kept, [n, l, j, h, x]) = (self.keep(0), self.lent());
        let mut to = Filled::of(section);
        let number = unsafe {
            ynd_write_then_read(
                self.ynd.as_mut_ptr(), self.nodes.as_mut_ptr(), n, self.links.as_mut_ptr(), l,
                self.junctions.as_mut_ptr(), j, self.heights.as_mut_ptr(), h, self.refs.as_mut_ptr(), x,
                to.ptr(), to.len(), &mut length, &mut place,
            )
        };
        to.back("ynd_write_then_read", "section");
        self.stays("ynd_write_then_read", 0, kept);
        if number != 0 && length != KEPT_PLACE { return Ok(length); }
        answer(number, place, length)
    }
}
