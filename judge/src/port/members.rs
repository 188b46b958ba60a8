//! The calls that look at one member of a set (T-09), writing among them, and a cell handed back. Each gives what the
//! cell's own call does (lookups.rs, entries.rs, shown.rs).
use super::entries::Got;
use super::lent::Filled;
use super::lookups::{found, Found};
use super::memory::Memory;
use super::sets::{Member, Set};
use super::words;
use super::{answer, Junction, Link, Node, Ref, KEPT, KEPT_PLACE};
use crate::model::{cell, Answer};
use crate::slips;

type Words = [u32; 15];

extern "C" {
    fn ynd_member_area(
        members: *const Member, members_len: usize, nodes: *const Node, nodes_len: usize, member: usize,
        found: &mut bool, area: &mut u32, place: &mut usize,
    ) -> u32;
    fn ynd_member_node(
        members: *const Member, members_len: usize, nodes: *const Node, nodes_len: usize, member: usize,
        node_id: u16, found: &mut bool, at: &mut usize, place: &mut usize,
    ) -> u32;
    fn ynd_member_junction_of(
        members: *const Member, members_len: usize, nodes: *const Node, nodes_len: usize, refs: *const Ref,
        refs_len: usize, member: usize, area_id: u16, node_id: u16, found: &mut bool, at: &mut usize,
        place: &mut usize,
    ) -> u32;
    fn ynd_member_get_cell(
        members: *const Member, members_len: usize, member: usize, ynd: &mut Words, place: &mut usize,
    ) -> u32;
    fn ynd_member_get_node(
        members: *const Member, members_len: usize, nodes: *const Node, nodes_len: usize, member: usize, at: usize,
        node: &mut Node, place: &mut usize,
    ) -> u32;
    fn ynd_member_get_link(
        members: *const Member, members_len: usize, nodes: *const Node, nodes_len: usize, links: *const Link,
        links_len: usize, member: usize, at: usize, k: usize, link: &mut Link, place: &mut usize,
    ) -> u32;
    fn ynd_member_get_ref(
        members: *const Member, members_len: usize, refs: *const Ref, refs_len: usize, member: usize, at: usize,
        taken: &mut Ref, place: &mut usize,
    ) -> u32;
    fn ynd_member_get_junction(
        members: *const Member, members_len: usize, junctions: *const Junction, junctions_len: usize, member: usize,
        at: usize, junction: &mut Junction, place: &mut usize,
    ) -> u32;
    fn ynd_member_get_height(
        members: *const Member, members_len: usize, junctions: *const Junction, junctions_len: usize,
        heights: *const u8, heights_len: usize, member: usize, at: usize, k: usize, value: &mut u8,
        place: &mut usize,
    ) -> u32;
    fn ynd_member_shown_node(
        members: *const Member, members_len: usize, nodes: *const Node, nodes_len: usize, links: *const Link,
        links_len: usize, junctions: *const Junction, junctions_len: usize, refs: *const Ref, refs_len: usize,
        member: usize, at: usize, shown: &mut [usize; 19], place: &mut usize,
    ) -> u32;
    fn ynd_member_shown_junction(
        members: *const Member, members_len: usize, junctions: *const Junction, junctions_len: usize, member: usize,
        at: usize, shown: &mut [u32; 6], place: &mut usize,
    ) -> u32;
    fn ynd_member_shown_values(
        members: *const Member, members_len: usize, junctions: *const Junction, junctions_len: usize,
        heights: *const u8, heights_len: usize, member: usize, at: usize, values: *mut u8, values_len: usize,
        count: &mut usize, place: &mut usize,
    ) -> u32;
    fn ynd_member_shown_link(
        members: *const Member, members_len: usize, nodes: *const Node, nodes_len: usize, links: *const Link,
        links_len: usize, member: usize, at: usize, choice: u8, shown: &mut [u8; 5], place: &mut usize,
    ) -> u32;
    fn ynd_member_write(
        members: *const Member, members_len: usize, nodes: *const Node, nodes_len: usize, links: *const Link,
        links_len: usize, junctions: *const Junction, junctions_len: usize, heights: *const u8, heights_len: usize,
        refs: *const Ref, refs_len: usize, member: usize, section: *mut u8, section_len: usize, length: &mut usize,
        place: &mut usize,
    ) -> u32;
    fn ynd_set_hand_back(
        members: *const Member, members_len: usize, nodes: *const Node, nodes_len: usize, links: *const Link,
        links_len: usize, junctions: *const Junction, junctions_len: usize, heights: *const u8, heights_len: usize,
        refs: *const Ref, refs_len: usize, area: u16, ynd: &mut Words, to_nodes: *mut Node, to_nodes_len: usize,
        to_links: *mut Link, to_links_len: usize, to_junctions: *mut Junction, to_junctions_len: usize,
        to_heights: *mut u8, to_heights_len: usize, to_refs: *mut Ref, to_refs_len: usize, place: &mut usize,
    ) -> u32;
}

impl Set {
    /// A call that gives something into a cell that holds `kept`.
    fn got<T: PartialEq + Copy>(
        &self, call: &'static str, kept: T, ask: impl FnOnce(&Self, &mut T, &mut usize) -> u32,
    ) -> Got<T> {
        let (mut at, mut place) = (kept, KEPT_PLACE);
        let number = ask(self, &mut at, &mut place);
        self.guarded(call);
        (answer(number, place, at), number == 0 || at == kept)
    }

    pub fn area(&self, member: usize) -> Found<u32> {
        let (mut is, mut area, mut place) = (false, KEPT, KEPT_PLACE);
        let (members, nodes, n) = (self.members.as_ptr(), self.nodes.as_ptr(), self.nodes.len());
        let number =
            unsafe { ynd_member_area(members, self.count, nodes, n, member, &mut is, &mut area, &mut place) };
        self.guarded("ynd_member_area");
        slips::sets::area(found(number, place, is, area, KEPT))
    }

    pub fn node(&self, member: usize, node_id: u16) -> Found<usize> {
        let (mut is, mut at, mut place) = (false, KEPT_PLACE, KEPT_PLACE);
        let (members, nodes, n) = (self.members.as_ptr(), self.nodes.as_ptr(), self.nodes.len());
        let number =
            unsafe { ynd_member_node(members, self.count, nodes, n, member, node_id, &mut is, &mut at, &mut place) };
        self.guarded("ynd_member_node");
        found(number, place, is, at, KEPT_PLACE)
    }

    pub fn junction_of(&self, member: usize, area_id: u16, node_id: u16) -> Found<usize> {
        let (mut is, mut at, mut place) = (false, KEPT_PLACE, KEPT_PLACE);
        let number = unsafe {
            ynd_member_junction_of(
                self.members.as_ptr(), self.count, self.nodes.as_ptr(), self.nodes.len(), self.refs.as_ptr(),
                self.refs.len(), member, area_id, node_id, &mut is, &mut at, &mut place,
            )
        };
        self.guarded("ynd_member_junction_of");
        found(number, place, is, at, KEPT_PLACE)
    }

    pub fn get_cell(&self, member: usize) -> Got<Words> {
        self.got("ynd_member_get_cell", [KEPT; 15], |s, w, p| unsafe {
            ynd_member_get_cell(s.members.as_ptr(), s.count, member, w, p)
        })
    }

    pub fn get_node(&self, member: usize, at: usize) -> Got<Node> {
        let (got, kept) = self.got("ynd_member_get_node", [KEPT; 13], |s, w, p| unsafe {
            ynd_member_get_node(s.members.as_ptr(), s.count, s.nodes.as_ptr(), s.nodes.len(), member, at, w, p)
        });
        (slips::sets::asked(self, member, 0, at, got), kept)
    }

    pub fn get_link(&self, member: usize, at: usize, k: usize) -> Got<cell::Link> {
        let (got, kept) = self.got("ynd_member_get_link", [KEPT as u16; 4], |s, w, p| unsafe {
            let (nodes, n, links, l) = (s.nodes.as_ptr(), s.nodes.len(), s.links.as_ptr(), s.links.len());
            ynd_member_get_link(s.members.as_ptr(), s.count, nodes, n, links, l, member, at, k, w, p)
        });
        (got.map(|w| words::link(&w)), kept)
    }

    pub fn get_ref(&self, member: usize, at: usize) -> Got<cell::Ref> {
        let (got, kept) = self.got("ynd_member_get_ref", [KEPT as u16; 4], |s, w, p| unsafe {
            ynd_member_get_ref(s.members.as_ptr(), s.count, s.refs.as_ptr(), s.refs.len(), member, at, w, p)
        });
        (got.map(|w| words::junction_ref(&w)), kept)
    }

    pub fn get_junction(&self, member: usize, at: usize) -> Got<Junction> {
        self.got("ynd_member_get_junction", [KEPT; 6], |s, w, p| unsafe {
            let (junctions, j) = (s.junctions.as_ptr(), s.junctions.len());
            ynd_member_get_junction(s.members.as_ptr(), s.count, junctions, j, member, at, w, p)
        })
    }

    pub fn get_height(&self, member: usize, at: usize, k: usize) -> Got<u8> {
        self.got("ynd_member_get_height", KEPT as u8, |s, v, p| unsafe {
            let (junctions, j) = (s.junctions.as_ptr(), s.junctions.len());
            let (heights, h) = (s.heights.as_ptr(), s.heights.len());
            ynd_member_get_height(s.members.as_ptr(), s.count, junctions, j, heights, h, member, at, k, v, p)
        })
    }

    pub fn shown_node(&self, member: usize, at: usize) -> Got<[usize; 19]> {
        self.got("ynd_member_shown_node", [KEPT_PLACE; 19], |s, shown, p| unsafe {
            ynd_member_shown_node(
                s.members.as_ptr(), s.count, s.nodes.as_ptr(), s.nodes.len(), s.links.as_ptr(), s.links.len(),
                s.junctions.as_ptr(), s.junctions.len(), s.refs.as_ptr(), s.refs.len(), member, at, shown, p,
            )
        })
    }

    pub fn shown_junction(&self, member: usize, at: usize) -> Got<[u32; 6]> {
        self.got("ynd_member_shown_junction", [KEPT; 6], |s, shown, p| unsafe {
            let (junctions, j) = (s.junctions.as_ptr(), s.junctions.len());
            ynd_member_shown_junction(s.members.as_ptr(), s.count, junctions, j, member, at, shown, p)
        })
    }

    /// In a lent list of so many entries; the second part is as for the cell's own call.
    pub fn shown_values(&self, member: usize, at: usize, room: usize) -> Got<Vec<u8>> {
        let (mut values, mut count, mut place) = (vec![KEPT as u8; room], KEPT_PLACE, KEPT_PLACE);
        let mut to = Filled::of(&mut values);
        let number = unsafe {
            ynd_member_shown_values(
                self.members.as_ptr(), self.count, self.junctions.as_ptr(), self.junctions.len(),
                self.heights.as_ptr(), self.heights.len(), member, at, to.ptr(), room, &mut count, &mut place,
            )
        };
        to.back("ynd_member_shown_values", "values");
        self.guarded("ynd_member_shown_values");
        let filled = if number == 0 { count.min(room) } else { 0 };
        let rest = values[filled..].iter().all(|&v| v == KEPT as u8);
        let kept = rest && (count == filled || (number != 0 && count == KEPT_PLACE));
        values.truncate(filled);
        (answer(number, place, values), kept)
    }

    pub fn shown_link(&self, member: usize, at: usize, choice: u8) -> Got<[u8; 5]> {
        self.got("ynd_member_shown_link", [KEPT as u8; 5], |s, shown, p| unsafe {
            let (nodes, n, links, l) = (s.nodes.as_ptr(), s.nodes.len(), s.links.as_ptr(), s.links.len());
            ynd_member_shown_link(s.members.as_ptr(), s.count, nodes, n, links, l, member, at, choice, shown, p)
        })
    }

    /// The length written; what a refusal leaves in it is an answer too.
    pub fn write(&self, member: usize, section: &mut [u8]) -> Answer<usize> {
        let (mut length, mut place, mut to) = (KEPT_PLACE, KEPT_PLACE, Filled::of(section));
        let number = unsafe {
            ynd_member_write(
                self.members.as_ptr(), self.count, self.nodes.as_ptr(), self.nodes.len(), self.links.as_ptr(),
                self.links.len(), self.junctions.as_ptr(), self.junctions.len(), self.heights.as_ptr(),
                self.heights.len(), self.refs.as_ptr(), self.refs.len(), member, to.ptr(), to.len(), &mut length,
                &mut place,
            )
        };
        to.back("ynd_member_write", "section");
        self.guarded("ynd_member_write");
        if number != 0 && length != KEPT_PLACE { return Ok(length); }
        answer(number, place, length)
    }

    /// The member of an area, copied into a cell's memory.
    pub fn hand_back(&self, area: u16, to: &mut Memory) -> Answer<()> {
        let mut place = KEPT_PLACE;
        let (kept, [n, l, j, h, x]) = (to.keep(0), to.lent());
        let number = unsafe {
            ynd_set_hand_back(
                self.members.as_ptr(), self.count, self.nodes.as_ptr(), self.nodes.len(), self.links.as_ptr(),
                self.links.len(), self.junctions.as_ptr(), self.junctions.len(), self.heights.as_ptr(),
                self.heights.len(), self.refs.as_ptr(), self.refs.len(), area, &mut to.ynd, to.nodes.as_mut_ptr(), n,
                to.links.as_mut_ptr(), l, to.junctions.as_mut_ptr(), j, to.heights.as_mut_ptr(), h,
                to.refs.as_mut_ptr(), x, &mut place,
            )
        };
        to.stays("ynd_set_hand_back", 0, kept);
        self.guarded("ynd_set_hand_back");
        let done = answer(number, place, ());
        slips::sets::handed_back(to, &done);
        done
    }
}
