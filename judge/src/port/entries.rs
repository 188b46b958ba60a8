//! Entries taken out: a node, a link, a ref, a junction, a heightmap value.
use super::lent::Shown;
use super::memory::{Memory, HEIGHTS, JUNCTIONS, LINKS, NODES, REFS};
use super::words;
use super::{answer, Junction, Link, Node, Ref, KEPT, KEPT_PLACE};
use crate::model::{cell, Answer};
use crate::slips;

extern "C" {
    fn ynd_get_node(
        ynd: *const u32, nodes: *const Node, node_count: usize, at: usize, node: &mut Node, place: &mut usize,
    ) -> u32;
    fn ynd_get_link(
        ynd: *const u32, nodes: *const Node, node_count: usize, links: *const Link, link_count: usize, at: usize,
        k: usize, link: &mut Link, place: &mut usize,
    ) -> u32;
    fn ynd_get_ref(
        ynd: *const u32, refs: *const Ref, ref_count: usize, at: usize, taken: &mut Ref, place: &mut usize,
    ) -> u32;
    fn ynd_get_junction(
        ynd: *const u32, junctions: *const Junction, junction_count: usize, at: usize, junction: &mut Junction,
        place: &mut usize,
    ) -> u32;
    fn ynd_get_height(
        ynd: *const u32, junctions: *const Junction, junction_count: usize, heights: *const u8, height_count: usize,
        at: usize, k: usize, value: &mut u8, place: &mut usize,
    ) -> u32;
}

/// An entry taken out; the second part says that a refusal left what was lent for it.
pub type Got<T> = (Answer<T>, bool);

impl Memory {
    /// A call that is lent lists for reading only: `lists` and the struct are held to what they were.
    fn only_read<T>(
        &self, call: &'static str, lists: u8, ask: impl FnOnce(*const u32, &mut usize) -> T,
    ) -> (T, usize) {
        let (kept, mut ynd, mut place) = (self.keep(lists), Shown::of(&self.ynd), KEPT_PLACE);
        let given = ask(ynd.ptr(), &mut place);
        ynd.stays(call, "struct");
        self.stays(call, lists, kept);
        (given, place)
    }

    pub fn get_node(&self, at: usize) -> Got<Node> {
        let mut w = [KEPT; 13];
        let (nodes, n) = (self.nodes.as_ptr(), self.nodes.len());
        let (number, place) =
            self.only_read("ynd_get_node", NODES, |y, p| unsafe { ynd_get_node(y, nodes, n, at, &mut w, p) });
        (answer(number, place, w), number == 0 || w == [KEPT; 13])
    }

    pub fn get_link(&self, at: usize, k: usize) -> Got<cell::Link> {
        if let Some(wrong) = slips::ranges::seen(self) { return wrong.get_link_right(at, k); }
        self.get_link_right(at, k)
    }

    fn get_link_right(&self, at: usize, k: usize) -> Got<cell::Link> {
        let mut w = [KEPT as u16; 4];
        let (nodes, n, links, l) = (self.nodes.as_ptr(), self.nodes.len(), self.links.as_ptr(), self.links.len());
        let (number, place) = self.only_read("ynd_get_link", NODES | LINKS, |y, p| unsafe {
            ynd_get_link(y, nodes, n, links, l, at, k, &mut w, p)
        });
        (answer(number, place, words::link(&w)), number == 0 || w == [KEPT as u16; 4])
    }

    pub fn get_ref(&self, at: usize) -> Got<cell::Ref> {
        let mut w = [KEPT as u16; 4];
        let (refs, x) = (self.refs.as_ptr(), self.refs.len());
        let (number, place) =
            self.only_read("ynd_get_ref", REFS, |y, p| unsafe { ynd_get_ref(y, refs, x, at, &mut w, p) });
        (answer(number, place, words::junction_ref(&w)), number == 0 || w == [KEPT as u16; 4])
    }

    pub fn get_junction(&self, at: usize) -> Got<Junction> {
        let mut w = [KEPT; 6];
        let (junctions, j) = (self.junctions.as_ptr(), self.junctions.len());
        let (number, place) = self.only_read("ynd_get_junction", JUNCTIONS, |y, p| unsafe {
            ynd_get_junction(y, junctions, j, at, &mut w, p)
        });
        (answer(number, place, w), number == 0 || w == [KEPT; 6])
    }

    pub fn get_height(&self, at: usize, k: usize) -> Got<u8> {
        if let Some(wrong) = slips::ranges::seen(self) { return wrong.get_height_right(at, k); }
        self.get_height_right(at, k)
    }

    fn get_height_right(&self, at: usize, k: usize) -> Got<u8> {
        let mut v = KEPT as u8;
        let (junctions, j, heights) = (self.junctions.as_ptr(), self.junctions.len(), self.heights.as_ptr());
        let h = self.heights.len();
        let (number, place) = self.only_read("ynd_get_height", JUNCTIONS | HEIGHTS, |y, p| unsafe {
            ynd_get_height(y, junctions, j, heights, h, at, k, &mut v, p)
        });
        (answer(number, place, v), number == 0 || v == KEPT as u8)
    }
}
