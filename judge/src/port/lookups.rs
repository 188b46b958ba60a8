//! The empty cell, `node`, `junction_of`, the cell's area.
use super::lent::Shown;
use super::memory::{Memory, NODES, REFS};
use super::{answer, Node, Ref, KEPT, KEPT_PLACE};
use crate::model::Answer;
use crate::slips;

type Words = [u32; 15];

extern "C" {
    fn ynd_new(ynd: &mut Words);
    fn ynd_node(
        ynd: *const u32, nodes: *const Node, node_count: usize, node_id: u16, found: &mut bool, at: &mut usize,
        place: &mut usize,
    ) -> u32;
    fn ynd_junction_of(
        ynd: *const u32, nodes: *const Node, node_count: usize, refs: *const Ref, ref_count: usize, area_id: u16,
        node_id: u16, found: &mut bool, at: &mut usize, place: &mut usize,
    ) -> u32;
    fn ynd_area_of_cell(
        ynd: *const u32, nodes: *const Node, node_count: usize, found: &mut bool, area: &mut u32, place: &mut usize,
    ) -> u32;
}

/// The empty cell's words.
pub fn new() -> Words {
    let mut ynd = [KEPT; 15];
    unsafe { ynd_new(&mut ynd) };
    slips::numbers::new(ynd)
}

/// A lookup's answer, and whether what was lent for it stayed where nothing was found.
pub type Found<T> = (Answer<Option<T>>, bool);

pub(super) fn found<T: PartialEq>(number: u32, place: usize, found: bool, at: T, kept: T) -> Found<T> {
    let stayed = at == kept;
    (answer(number, place, found.then_some(at)), (number == 0 && found) || stayed)
}

impl Memory {
    pub fn node(&self, node_id: u16) -> Found<usize> {
        if slips::any() { return slips::walks::node(self, node_id); }
        self.node_right(node_id)
    }

    pub fn node_right(&self, node_id: u16) -> Found<usize> {
        let (mut is, mut at, mut place) = (false, KEPT_PLACE, KEPT_PLACE);
        let (kept, mut ynd, n) = (self.keep(NODES), Shown::of(&self.ynd), self.nodes.len());
        let number = unsafe { ynd_node(ynd.ptr(), self.nodes.as_ptr(), n, node_id, &mut is, &mut at, &mut place) };
        ynd.stays("ynd_node", "struct");
        self.stays("ynd_node", NODES, kept);
        found(number, place, is, at, KEPT_PLACE)
    }

    /// The same as a program would ask it: the place, if there is one. What was lent is not looked at.
    pub fn place_of(&self, node_id: u16) -> Option<usize> {
        let (mut is, mut at, mut place) = (false, 0, 0);
        let (ynd, nodes, n) = (self.ynd.as_ptr(), self.nodes.as_ptr(), self.nodes.len());
        unsafe { ynd_node(ynd, nodes, n, node_id, &mut is, &mut at, &mut place) };
        is.then_some(at)
    }

    pub fn junction_of(&self, area_id: u16, node_id: u16) -> Found<usize> {
        if slips::any() { return slips::walks::junction_of(self, area_id, node_id); }
        self.junction_of_right(area_id, node_id)
    }

    pub fn junction_of_right(&self, area_id: u16, node_id: u16) -> Found<usize> {
        let (mut is, mut at, mut place) = (false, KEPT_PLACE, KEPT_PLACE);
        let (kept, mut ynd) = (self.keep(NODES | REFS), Shown::of(&self.ynd));
        let number = unsafe {
            ynd_junction_of(
                ynd.ptr(), self.nodes.as_ptr(), self.nodes.len(), self.refs.as_ptr(), self.refs.len(), area_id,
                node_id, &mut is, &mut at, &mut place,
            )
        };
        slips::walks::lookup_touches(self.refs.as_ptr(), self.refs.len());
        ynd.stays("ynd_junction_of", "struct");
        self.stays("ynd_junction_of", NODES | REFS, kept);
        found(number, place, is, at, KEPT_PLACE)
    }

    pub fn area(&self) -> Found<u32> {
        let (mut is, mut area, mut place) = (false, KEPT, KEPT_PLACE);
        let (kept, mut ynd, n) = (self.keep(NODES), Shown::of(&self.ynd), self.nodes.len());
        let number =
            unsafe { ynd_area_of_cell(ynd.ptr(), self.nodes.as_ptr(), n, &mut is, &mut area, &mut place) };
        ynd.stays("ynd_area_of_cell", "struct");
        self.stays("ynd_area_of_cell", NODES, kept);
        found(number, place, is, area, KEPT)
    }
}
