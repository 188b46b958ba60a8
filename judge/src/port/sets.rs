//! A set of cells in six lists (T-09), each with rubbish behind what is used, between guards.
use super::lent::{hold, Filled, Lent, Shown};
use super::memory::Memory;
use super::walks::{ended, Walked};
use super::{answer, Link, Node, KEPT, KEPT_PLACE};
use crate::inputs::rng::Rng;
use crate::model::cell::Cell;
use crate::model::Answer;
use crate::slips;

pub type Member = [u32; 20];
type Junction = [u32; 6];

extern "C" {
    fn ynd_set_join(
        count: &mut usize, members: *mut Member, member_count: usize, nodes: *mut Node, node_count: usize,
        links: *mut Link, link_count: usize, junctions: *mut Junction, junction_count: usize, heights: *mut u8,
        height_count: usize, refs: *mut Link, ref_count: usize, ynd: *const u32, new_nodes: *const Node,
        new_node_count: usize, new_links: *const Link, new_link_count: usize, new_junctions: *const Junction,
        new_junction_count: usize, new_heights: *const u8, new_height_count: usize, new_refs: *const Link,
        new_ref_count: usize, sizes: *const usize, place: &mut usize,
    ) -> u32;
    fn ynd_set_leave(
        members: *mut Member, member_count: usize, nodes: *mut Node, node_count: usize, links: *mut Link,
        link_count: usize, junctions: *mut Junction, junction_count: usize, heights: *mut u8, height_count: usize,
        refs: *mut Link, ref_count: usize, area: u16, count: &mut usize, place: &mut usize,
    ) -> u32;
    fn ynd_set_renumber(
        members: *mut Member, member_count: usize, nodes: *mut Node, node_count: usize, links: *mut Link,
        link_count: usize, junctions: *const Junction, junction_count: usize, heights: *const u8, height_count: usize,
        refs: *mut Link, ref_count: usize, scratch: *mut u32, scratch_count: usize, places: *mut u32,
        place_count: usize, member: usize, place: &mut usize,
    ) -> u32;
    fn ynd_set_crossing_walk(
        members: *const Member, member_count: usize, nodes: *const Node, node_count: usize, links: *const Link,
        link_count: usize, member: usize, start: usize, choices: *const u8, choice_count: usize,
        visited: *mut [u32; 2], visited_count: usize, end: &mut [u32; 3], count: &mut usize, place: &mut usize,
    ) -> u32;
    fn ynd_set_sound(
        members: *const Member, member_count: usize, nodes: *const Node, node_count: usize, links: *const Link,
        link_count: usize, refs: *const Link, ref_count: usize, scratch: *mut u32, scratch_count: usize,
        sound: &mut bool, place: &mut usize,
    ) -> u32;
    fn ynd_set_member_of_area(
        members: *const Member, member_count: usize, nodes: *const Node, node_count: usize, area: u16,
        found: &mut bool, member: &mut usize,
    );
    fn ynd_set_follow_round(
        members: *const Member, member_count: usize, nodes: *const Node, node_count: usize, links: *const Link,
        link_count: usize, version: u16, area: u16, member: usize, start: u16, choices: *const u8,
        choice_count: usize, visited: *mut [u32; 2], visited_count: usize, end: &mut [u32; 3], count: &mut usize,
        place: &mut usize,
    ) -> u32;
}

#[derive(Debug, Clone, PartialEq, Eq)]
pub struct Set {
    pub count: usize,
    pub members: Lent<Member>,
    pub nodes: Lent<Node>,
    pub links: Lent<Link>,
    pub junctions: Lent<Junction>,
    pub heights: Lent<u8>,
    pub refs: Lent<Link>,
}

impl Set {
    /// No member yet, in lists of so many entries.
    pub fn rubbish(r: &mut Rng, members: usize, lent: [usize; 5]) -> Set {
        Set {
            count: 0,
            members: (0..members).map(|_| [0; 20].map(|_| r.u32())).collect(),
            nodes: (0..lent[0]).map(|_| [0; 13].map(|_| r.u32())).collect(),
            links: (0..lent[1]).map(|_| [0; 4].map(|_| r.u16())).collect(),
            junctions: (0..lent[2]).map(|_| [0; 6].map(|_| r.u32())).collect(),
            heights: Lent::of(&r.bytes(lent[3])),
            refs: (0..lent[4]).map(|_| [0; 4].map(|_| r.u16())).collect(),
        }
    }

    /// Holds a call to the guards of all six lists. To the lists as they were, where it only reads them, the
    /// comparisons hold it, several calls at once: a set is too long to be copied for each.
    pub(super) fn guarded(&self, call: &'static str) {
        let rows = self.members.guarded() && self.nodes.guarded() && self.links.guarded();
        let rest = self.junctions.guarded() && self.heights.guarded() && self.refs.guarded();
        hold(rows && rest, call, "the set's lists");
    }

    pub fn lent(&self) -> [usize; 5] {
        [self.nodes.len(), self.links.len(), self.junctions.len(), self.heights.len(), self.refs.len()]
    }

    /// How many entries a member holds, by its words.
    pub fn counts(&self, member: usize) -> [usize; 5] {
        [10, 11, 12, 13, 14].map(|k| self.members[member][k] as usize)
    }

    /// The sizes of the members' parts.
    pub fn sizes(&self) -> Vec<[usize; 5]> {
        self.members[..self.count].iter().map(|w| [15, 16, 17, 18, 19].map(|k| w[k] as usize)).collect()
    }

    pub fn used(&self) -> [usize; 5] { [0, 1, 2, 3, 4].map(|k| self.sizes().iter().map(|s| s[k]).sum()) }

    /// Where the parts of a member start.
    fn starts(&self, member: usize) -> [usize; 5] {
        [0, 1, 2, 3, 4].map(|k| self.sizes()[..member].iter().map(|s| s[k]).sum())
    }

    /// A member in memory of its own: its words, and its parts as the lists. A part that leaves its list is cut.
    pub fn memory(&self, member: usize) -> Memory {
        let (a, size) = (self.starts(member), self.sizes()[member]);
        Memory {
            ynd: self.members[member][..15].try_into().expect("fifteen words"),
            nodes: self.nodes.iter().skip(a[0]).take(size[0]).copied().collect(),
            links: self.links.iter().skip(a[1]).take(size[1]).copied().collect(),
            junctions: self.junctions.iter().skip(a[2]).take(size[2]).copied().collect(),
            heights: self.heights.iter().skip(a[3]).take(size[3]).copied().collect(),
            refs: self.refs.iter().skip(a[4]).take(size[4]).copied().collect(),
        }
    }

    /// The same, or memory of no entries where there is no such member.
    pub fn memory_or_none(&self, member: usize) -> Memory {
        if member < self.count { self.memory(member) } else { Memory::default() }
    }

    /// The set with this memory in a member's place, all else as it is.
    pub fn with(&self, member: usize, m: &Memory) -> Set {
        let (mut s, a) = (self.clone(), self.starts(member));
        s.members[member][..15].copy_from_slice(&m.ynd);
        for (to, x) in s.nodes.iter_mut().skip(a[0]).zip(m.nodes.iter()) { *to = *x; }
        for (to, x) in s.links.iter_mut().skip(a[1]).zip(m.links.iter()) { *to = *x; }
        for (to, x) in s.junctions.iter_mut().skip(a[2]).zip(m.junctions.iter()) { *to = *x; }
        for (to, x) in s.heights.iter_mut().skip(a[3]).zip(m.heights.iter()) { *to = *x; }
        for (to, x) in s.refs.iter_mut().skip(a[4]).zip(m.refs.iter()) { *to = *x; }
        s
    }

    /// The members' cells, each taken out of its parts.
    pub fn cells(&self) -> Vec<Cell> { (0..self.count).map(|i| self.memory(i).cell()).collect() }

    /// A list cut to so many entries.
    pub fn shorten(&mut self, list: usize, to: usize) {
        match list {
            0 => self.nodes.truncate(to),
            1 => self.links.truncate(to),
            2 => self.junctions.truncate(to),
            3 => self.heights.truncate(to),
            _ => self.refs.truncate(to),
        }
    }

    pub fn join(&mut self, m: &Memory, sizes: [usize; 5]) -> Answer<()> {
        let mut place = KEPT_PLACE;
        let number = unsafe {
            ynd_set_join(
                &mut self.count, self.members.as_mut_ptr(), self.members.len(), self.nodes.as_mut_ptr(),
                self.nodes.len(), self.links.as_mut_ptr(), self.links.len(), self.junctions.as_mut_ptr(),
                self.junctions.len(), self.heights.as_mut_ptr(), self.heights.len(), self.refs.as_mut_ptr(),
                self.refs.len(), m.ynd.as_ptr(), m.nodes.as_ptr(), m.nodes.len(), m.links.as_ptr(), m.links.len(),
                m.junctions.as_ptr(), m.junctions.len(), m.heights.as_ptr(), m.heights.len(), m.refs.as_ptr(),
                m.refs.len(), sizes.as_ptr(), &mut place,
            )
        };
        self.guarded("ynd_set_join");
        answer(number, place, ())
    }

    pub fn leave(&mut self, area: u16) -> Answer<()> {
        let (mut count, mut place) = (self.count, KEPT_PLACE);
        let number = unsafe {
            ynd_set_leave(
                self.members.as_mut_ptr(), self.count, self.nodes.as_mut_ptr(), self.nodes.len(),
                self.links.as_mut_ptr(), self.links.len(), self.junctions.as_mut_ptr(), self.junctions.len(),
                self.heights.as_mut_ptr(), self.heights.len(), self.refs.as_mut_ptr(), self.refs.len(), area,
                &mut count, &mut place,
            )
        };
        self.count = count;
        self.guarded("ynd_set_leave");
        answer(number, place, ())
    }

    pub fn renumber(&mut self, member: usize, scratch: &mut [u32], places: &mut [u32]) -> Answer<()> {
        let (mut place, before, mut told) = (KEPT_PLACE, slips::sets::before(self), Filled::of(places));
        let number = unsafe {
            ynd_set_renumber(
                self.members.as_mut_ptr(), self.count, self.nodes.as_mut_ptr(), self.nodes.len(),
                self.links.as_mut_ptr(), self.links.len(), self.junctions.as_ptr(), self.junctions.len(),
                self.heights.as_ptr(), self.heights.len(), self.refs.as_mut_ptr(), self.refs.len(),
                scratch.as_mut_ptr(), scratch.len(), told.ptr(), told.len(), member, &mut place,
            )
        };
        told.back("ynd_set_renumber", "new places");
        self.guarded("ynd_set_renumber");
        slips::sets::renumbered(before, self, member, answer(number, place, ()))
    }

    pub fn crossing(&self, start: (usize, usize), choices: &[u8], visited: &mut [[u32; 2]]) -> Walked {
        let (mut end, mut count, mut place) = ([KEPT; 3], KEPT_PLACE, KEPT_PLACE);
        let (mut by, mut over) = (Shown::of(choices), Filled::of(visited));
        let number = unsafe {
            ynd_set_crossing_walk(
                self.members.as_ptr(), self.count, self.nodes.as_ptr(), self.nodes.len(), self.links.as_ptr(),
                self.links.len(), start.0, start.1, by.ptr(), by.len(), over.ptr(), over.len(), &mut end, &mut count,
                &mut place,
            )
        };
        by.stays("ynd_set_crossing_walk", "choices");
        over.back("ynd_set_crossing_walk", "locations");
        self.guarded("ynd_set_crossing_walk");
        slips::sets::crossed(start.0, visited, number == 0);
        ended(number, place, end, count)
    }

    /// The member of an area; the second part says that where there is none the place lent for it stayed.
    pub fn member_of_area(&self, area: u16) -> (Option<usize>, bool) {
        let (mut found, mut member) = (false, KEPT_PLACE);
        let (members, nodes) = (self.members.as_ptr(), self.nodes.as_ptr());
        unsafe {
            ynd_set_member_of_area(members, self.count, nodes, self.nodes.len(), area, &mut found, &mut member);
        }
        (found.then_some(member), found || member == KEPT_PLACE)
    }

    /// A round, by its version's number and its area, in a member.
    pub fn follow(
        &self, (version, area): (u16, u16), member: usize, start: u16, choices: &[u8], visited: &mut [[u32; 2]],
    ) -> Walked {
        let (mut end, mut count, mut place) = ([KEPT; 3], KEPT_PLACE, KEPT_PLACE);
        let number = unsafe {
            ynd_set_follow_round(
                self.members.as_ptr(), self.count, self.nodes.as_ptr(), self.nodes.len(), self.links.as_ptr(),
                self.links.len(), version, area, member, start, choices.as_ptr(), choices.len(),
                visited.as_mut_ptr(), visited.len(), &mut end, &mut count, &mut place,
            )
        };
        ended(number, place, end, count)
    }

    pub fn sound(&self, scratch: &mut [u32]) -> Answer<bool> {
        let (mut sound, mut place) = (false, KEPT_PLACE);
        let number = unsafe {
            ynd_set_sound(
                self.members.as_ptr(), self.count, self.nodes.as_ptr(), self.nodes.len(), self.links.as_ptr(),
                self.links.len(), self.refs.as_ptr(), self.refs.len(), scratch.as_mut_ptr(), scratch.len(),
                &mut sound, &mut place,
            )
        };
        self.guarded("ynd_set_sound");
        answer(number, place, sound)
    }
}
