//! What a walk shows: of a node, of a junction, of its heightmap, of a link.
use super::lent::{Filled, Shown};
use super::memory::{Memory, HEIGHTS, JUNCTIONS, LINKS, NODES, REFS};
use super::{answer, Junction, Link, Node, Ref, KEPT, KEPT_PLACE};
use crate::model::Answer;

extern "C" {
    fn ynd_shown_node(
        ynd: *const u32, nodes: *const Node, node_count: usize, links: *const Link, link_count: usize,
        junctions: *const Junction, junction_count: usize, refs: *const Ref, ref_count: usize, at: usize,
        shown: &mut [usize; 19], place: &mut usize,
    ) -> u32;
    fn ynd_shown_junction(
        ynd: *const u32, junctions: *const Junction, junction_count: usize, at: usize, shown: &mut [u32; 6],
        place: &mut usize,
    ) -> u32;
    fn ynd_shown_values(
        ynd: *const u32, junctions: *const Junction, junction_count: usize, heights: *const u8, height_count: usize,
        at: usize, values: *mut u8, value_count: usize, count: &mut usize, place: &mut usize,
    ) -> u32;
    fn ynd_shown_link(
        ynd: *const u32, nodes: *const Node, node_count: usize, links: *const Link, link_count: usize, at: usize,
        choice: u8, shown: &mut [u8; 5], place: &mut usize,
    ) -> u32;
}

impl Memory {
    /// Area, street, position bits, flags0 to flags5, the unused fields, link count, 1 or 0 for a junction, its place.
    pub fn shown_node(&self, at: usize) -> (Answer<[usize; 19]>, bool) {
        let (mut shown, mut place) = ([KEPT_PLACE; 19], KEPT_PLACE);
        let lists = NODES | LINKS | JUNCTIONS | REFS;
        let (kept, mut ynd, [n, l, j, _, x]) = (self.keep(lists), Shown::of(&self.ynd), self.lent());
        let number = unsafe {
            ynd_shown_node(
                ynd.ptr(), self.nodes.as_ptr(), n, self.links.as_ptr(), l, self.junctions.as_ptr(), j,
                self.refs.as_ptr(), x, at, &mut shown, &mut place,
            )
        };
        ynd.stays("ynd_shown_node", "struct");
        self.stays("ynd_shown_node", lists, kept);
        (answer(number, place, shown), number == 0 || shown == [KEPT_PLACE; 19])
    }

    /// The bits of corner and heights, width, height.
    pub fn shown_junction(&self, at: usize) -> (Answer<[u32; 6]>, bool) {
        let (mut shown, mut place) = ([KEPT; 6], KEPT_PLACE);
        let (kept, mut ynd, j) = (self.keep(JUNCTIONS), Shown::of(&self.ynd), self.junctions.len());
        let number =
            unsafe { ynd_shown_junction(ynd.ptr(), self.junctions.as_ptr(), j, at, &mut shown, &mut place) };
        ynd.stays("ynd_shown_junction", "struct");
        self.stays("ynd_shown_junction", JUNCTIONS, kept);
        (answer(number, place, shown), number == 0 || shown == [KEPT; 6])
    }

    /// The heightmap values, in a lent list of so many entries; the second part says that what lies behind them
    /// stayed, or all where it was refused.
    pub fn shown_values(&self, at: usize, room: usize) -> (Answer<Vec<u8>>, bool) {
        let (mut values, mut count, mut place) = (vec![KEPT as u8; room], KEPT_PLACE, KEPT_PLACE);
        let (kept, mut ynd) = (self.keep(JUNCTIONS | HEIGHTS), Shown::of(&self.ynd));
        let mut to = Filled::of(&mut values);
        let number = unsafe {
            ynd_shown_values(
                ynd.ptr(), self.junctions.as_ptr(), self.junctions.len(), self.heights.as_ptr(), self.heights.len(),
                at, to.ptr(), room, &mut count, &mut place,
            )
        };
        ynd.stays("ynd_shown_values", "struct");
        to.back("ynd_shown_values", "values");
        self.stays("ynd_shown_values", JUNCTIONS | HEIGHTS, kept);
        let filled = if number == 0 { count.min(room) } else { 0 };
        let rest = values[filled..].iter().all(|&v| v == KEPT as u8);
        let kept = rest && (count == filled || (number != 0 && count == KEPT_PLACE));
        values.truncate(filled);
        (answer(number, place, values), kept)
    }

    /// 1, three flags and length, or five zeros.
    pub fn shown_link(&self, at: usize, choice: u8) -> (Answer<[u8; 5]>, bool) {
        let (mut shown, mut place) = ([KEPT as u8; 5], KEPT_PLACE);
        let (kept, mut ynd, [n, l, ..]) = (self.keep(NODES | LINKS), Shown::of(&self.ynd), self.lent());
        let (nodes, links) = (self.nodes.as_ptr(), self.links.as_ptr());
        let number = unsafe { ynd_shown_link(ynd.ptr(), nodes, n, links, l, at, choice, &mut shown, &mut place) };
        ynd.stays("ynd_shown_link", "struct");
        self.stays("ynd_shown_link", NODES | LINKS, kept);
        (answer(number, place, shown), number == 0 || shown == [KEPT as u8; 5])
    }
}
