//! Round files, and rounds followed.
use super::lent::{Filled, Shown};
use super::memory::{Memory, LINKS, NODES};
use super::walks::{ended, Walked};
use super::{answer, Link, Node, KEPT, KEPT_PLACE};
use crate::model::Answer;
use crate::slips;

extern "C" {
    fn ynd_read_round(
        file: *const u8, file_count: usize, choices: *mut u8, choice_count: usize, start: &mut u16, count: &mut usize,
        place: &mut usize,
    ) -> u32;
    fn ynd_write_round(
        start: u16, choices: *const u8, choice_count: usize, file: *mut u8, file_count: usize, length: &mut usize,
        place: &mut usize,
    ) -> u32;
    fn ynd_follow_round(
        ynd: *const u32, nodes: *const Node, node_count: usize, links: *const Link, link_count: usize, start: u16,
        choices: *const u8, choice_count: usize, visited: *mut u32, visited_count: usize, end: &mut [u32; 3],
        count: &mut usize, place: &mut usize,
    ) -> u32;
    fn ynd_follow_round_indexed(
        ynd: *const u32, nodes: *const Node, node_count: usize, links: *const Link, link_count: usize, start: u16,
        choices: *const u8, choice_count: usize, visited: *mut u32, visited_count: usize, scratch: *mut u32,
        scratch_count: usize, end: &mut [u32; 3], count: &mut usize, place: &mut usize,
    ) -> u32;
}

const KEPT_START: u16 = 0xA5A5;

/// The start number and how many choices; the second part says that a refusal left what was lent for them.
pub fn read(file: &[u8], choices: &mut [u8]) -> (Answer<(u16, usize)>, bool) {
    let old = slips::any().then(|| choices.to_vec());
    let right = read_right(file, choices);
    match old { Some(old) => slips::rounds::read(file, &old, choices, right), None => right }
}

pub fn read_right(file: &[u8], choices: &mut [u8]) -> (Answer<(u16, usize)>, bool) {
    let (mut start, mut count, mut place) = (KEPT_START, KEPT_PLACE, KEPT_PLACE);
    let (mut from, mut to) = (Shown::of(file), Filled::of(choices));
    let number = unsafe {
        ynd_read_round(from.ptr(), from.len(), to.ptr(), to.len(), &mut start, &mut count, &mut place)
    };
    from.stays("ynd_read_round", "file");
    to.back("ynd_read_round", "choices");
    let kept = number == 0 || (start == KEPT_START && count == KEPT_PLACE);
    (answer(number, place, (start, count)), kept)
}

/// How many bytes were written; the second part as above.
pub fn write(start: u16, choices: &[u8], file: &mut [u8]) -> (Answer<usize>, bool) {
    let right = write_right(start, choices, file);
    if slips::any() { slips::rounds::write(start, file, right) } else { right }
}

pub fn write_right(start: u16, choices: &[u8], file: &mut [u8]) -> (Answer<usize>, bool) {
    let (mut length, mut place) = (KEPT_PLACE, KEPT_PLACE);
    let (mut from, mut to) = (Shown::of(choices), Filled::of(file));
    let number = unsafe {
        ynd_write_round(start, from.ptr(), from.len(), to.ptr(), to.len(), &mut length, &mut place)
    };
    from.stays("ynd_write_round", "choices");
    to.back("ynd_write_round", "file");
    (answer(number, place, length), number == 0 || length == KEPT_PLACE)
}

impl Memory {
    pub fn follow(&self, start: u16, choices: &[u8], visited: &mut [u32]) -> Walked {
        if slips::any() { return slips::rounds::follow(self, start, choices, visited); }
        self.follow_right(start, choices, visited)
    }

    pub fn follow_right(&self, start: u16, choices: &[u8], visited: &mut [u32]) -> Walked {
        let (mut end, mut count, mut place) = ([KEPT; 3], KEPT_PLACE, KEPT_PLACE);
        let (kept, mut ynd) = (self.keep(NODES | LINKS), Shown::of(&self.ynd));
        let (mut by, mut to) = (Shown::of(choices), Filled::of(visited));
        let number = unsafe {
            ynd_follow_round(
                ynd.ptr(), self.nodes.as_ptr(), self.nodes.len(), self.links.as_ptr(), self.links.len(), start,
                by.ptr(), by.len(), to.ptr(), to.len(), &mut end, &mut count, &mut place,
            )
        };
        ynd.stays("ynd_follow_round", "struct");
        by.stays("ynd_follow_round", "choices");
        to.back("ynd_follow_round", "visited");
        self.stays("ynd_follow_round", NODES | LINKS, kept);
        ended(number, place, end, count)
    }

    pub fn follow_indexed(&self, start: u16, choices: &[u8], visited: &mut [u32], scratch: &mut [u32]) -> Walked {
        if slips::any() { return slips::rounds::follow(self, start, choices, visited); }
        let (mut end, mut count, mut place) = ([KEPT; 3], KEPT_PLACE, KEPT_PLACE);
        let (kept, mut ynd) = (self.keep(NODES | LINKS), Shown::of(&self.ynd));
        let (mut by, mut to) = (Shown::of(choices), Filled::of(visited));
        let number = unsafe {
            ynd_follow_round_indexed(
                ynd.ptr(), self.nodes.as_ptr(), self.nodes.len(), self.links.as_ptr(), self.links.len(), start,
                by.ptr(), by.len(), to.ptr(), to.len(), scratch.as_mut_ptr(), scratch.len(), &mut end, &mut count,
                &mut place,
            )
        };
        ynd.stays("ynd_follow_round_indexed", "struct");
        by.stays("ynd_follow_round_indexed", "choices");
        to.back("ynd_follow_round_indexed", "visited");
        self.stays("ynd_follow_round_indexed", NODES | LINKS, kept);
        ended(number, place, end, count)
    }
}
