//! Walks and soundness.
use super::lent::{Filled, Shown};
use super::memory::{Memory, LINKS, NODES, REFS};
use super::{answer, Link, Node, Ref, KEPT, KEPT_PLACE};
use crate::model::walk::End;
use crate::model::Answer;
use crate::slips;

extern "C" {
    fn ynd_walk(
        ynd: *const u32, nodes: *const Node, node_count: usize, links: *const Link, link_count: usize, start: usize,
        choices: *const u8, choice_count: usize, visited: *mut u32, visited_count: usize, end: &mut [u32; 3],
        count: &mut usize, place: &mut usize,
    ) -> u32;
    fn ynd_walk_indexed(
        ynd: *const u32, nodes: *const Node, node_count: usize, links: *const Link, link_count: usize, start: usize,
        choices: *const u8, choice_count: usize, visited: *mut u32, visited_count: usize, scratch: *mut u32,
        scratch_count: usize, end: &mut [u32; 3], count: &mut usize, place: &mut usize,
    ) -> u32;
    fn ynd_sound(
        ynd: *const u32, nodes: *const Node, node_count: usize, links: *const Link, link_count: usize,
        refs: *const Ref, ref_count: usize, scratch: *mut u32, scratch_count: usize, sound: &mut bool,
        place: &mut usize,
    ) -> u32;
}

/// How a walk ended, and how many places it visited; the second part says that a refusal left what was lent for them.
pub type Walked = (Answer<(End, usize)>, bool);

/// What a walk or a round answered, by the numbers that it left.
pub fn ended(number: u32, place: usize, end: [u32; 3], count: usize) -> Walked {
    let kept = number == 0 || (end == [KEPT; 3] && count == KEPT_PLACE);
    let how = match end {
        [0, 0, 0] => End::Done,
        [1, 0, 0] => End::NoLink,
        [2, area, number] if area < 65_536 && number < 65_536 => End::Left(area as u16, number as u16),
        [3, 0, 0] => End::NoNode,
        _ => return (answer(number, place, (End::Done, KEPT_PLACE)), kept),
    };
    (answer(number, place, (how, count)), kept)
}

impl Memory {
    pub fn walk(&self, start: usize, choices: &[u8], visited: &mut [u32]) -> Walked {
        if slips::any() { return slips::walks::walk(self, start, choices, visited); }
        self.walk_right(start, choices, visited)
    }

    pub fn walk_right(&self, start: usize, choices: &[u8], visited: &mut [u32]) -> Walked {
        let (mut end, mut count, mut place) = ([KEPT; 3], KEPT_PLACE, KEPT_PLACE);
        let (kept, mut ynd) = (self.keep(NODES | LINKS), Shown::of(&self.ynd));
        let (mut by, mut to) = (Shown::of(choices), Filled::of(visited));
        let number = unsafe {
            ynd_walk(
                ynd.ptr(), self.nodes.as_ptr(), self.nodes.len(), self.links.as_ptr(), self.links.len(), start,
                by.ptr(), by.len(), to.ptr(), to.len(), &mut end, &mut count, &mut place,
            )
        };
        slips::walks::walk_touches(self.nodes.as_ptr(), self.nodes.len(), &mut to);
        ynd.stays("ynd_walk", "struct");
        by.stays("ynd_walk", "choices");
        to.back("ynd_walk", "visited");
        self.stays("ynd_walk", NODES | LINKS, kept);
        ended(number, place, end, count)
    }

    pub fn walk_indexed(&self, start: usize, choices: &[u8], visited: &mut [u32], scratch: &mut [u32]) -> Walked {
        if slips::any() { return slips::walks::walk(self, start, choices, visited); }
        let (mut end, mut count, mut place) = ([KEPT; 3], KEPT_PLACE, KEPT_PLACE);
        let (kept, mut ynd) = (self.keep(NODES | LINKS), Shown::of(&self.ynd));
        let (mut by, mut to) = (Shown::of(choices), Filled::of(visited));
        let number = unsafe {
            ynd_walk_indexed(
                ynd.ptr(), self.nodes.as_ptr(), self.nodes.len(), self.links.as_ptr(), self.links.len(), start,
                by.ptr(), by.len(), to.ptr(), to.len(), scratch.as_mut_ptr(), scratch.len(), &mut end, &mut count,
                &mut place,
            )
        };
        ynd.stays("ynd_walk_indexed", "struct");
        by.stays("ynd_walk_indexed", "choices");
        to.back("ynd_walk_indexed", "visited");
        self.stays("ynd_walk_indexed", NODES | LINKS, kept);
        ended(number, place, end, count)
    }

    pub fn sound(&self, scratch: &mut [u32]) -> Answer<bool> {
        if slips::any() { return slips::walks::sound(self, scratch); }
        self.sound_right(scratch)
    }

    pub fn sound_right(&self, scratch: &mut [u32]) -> Answer<bool> {
        let (mut sound, mut place) = (false, KEPT_PLACE);
        let (kept, mut ynd) = (self.keep(NODES | LINKS | REFS), Shown::of(&self.ynd));
        let number = unsafe {
            ynd_sound(
                ynd.ptr(), self.nodes.as_ptr(), self.nodes.len(), self.links.as_ptr(), self.links.len(),
                self.refs.as_ptr(), self.refs.len(), scratch.as_mut_ptr(), scratch.len(), &mut sound, &mut place,
            )
        };
        ynd.stays("ynd_sound", "struct");
        self.stays("ynd_sound", NODES | LINKS | REFS, kept);
        answer(number, place, sound)
    }
}
