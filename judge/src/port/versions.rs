//! Round files of either version (T-11).
use super::lent::{Filled, Shown};
use super::memory::{Memory, LINKS, NODES};
use super::walks::{ended, Walked};
use super::{answer, Link, Node, KEPT, KEPT_PLACE};
use crate::model::Answer;

extern "C" {
    fn ynd_read_round_versioned(
        file: *const u8, file_count: usize, choices: *mut u8, choice_count: usize, version: &mut u16, area: &mut u16,
        start: &mut u16, count: &mut usize, place: &mut usize,
    ) -> u32;
    fn ynd_write_round_versioned(
        version: u16, area: u16, start: u16, choices: *const u8, choice_count: usize, file: *mut u8, file_count: usize,
        length: &mut usize, place: &mut usize,
    ) -> u32;
    fn ynd_follow_round_versioned(
        ynd: *const u32, nodes: *const Node, node_count: usize, links: *const Link, link_count: usize, version: u16,
        area: u16, start: u16, choices: *const u8, choice_count: usize, visited: *mut u32, visited_count: usize,
        end: &mut [u32; 3], count: &mut usize, place: &mut usize,
    ) -> u32;
}

const KEPT_NUMBER: u16 = 0xA5A5;

/// Version, area, start number and how many choices; the second part says that a refusal left what was lent for them.
pub type Found = (u16, u16, u16, usize);

pub fn read(file: &[u8], choices: &mut [u8]) -> (Answer<Found>, bool) {
    let (mut version, mut area, mut start) = (KEPT_NUMBER, KEPT_NUMBER, KEPT_NUMBER);
    let (mut count, mut place) = (KEPT_PLACE, KEPT_PLACE);
    let (mut from, mut to) = (Shown::of(file), Filled::of(choices));
    let number = unsafe {
        ynd_read_round_versioned(
            from.ptr(), from.len(), to.ptr(), to.len(), &mut version, &mut area, &mut start, &mut count, &mut place,
        )
    };
    from.stays("ynd_read_round_versioned", "file");
    to.back("ynd_read_round_versioned", "choices");
    let stayed = [version, area, start] == [KEPT_NUMBER; 3] && count == KEPT_PLACE;
    (answer(number, place, (version, area, start, count)), number == 0 || stayed)
}

pub fn write(version: u16, area: u16, start: u16, choices: &[u8], file: &mut [u8]) -> (Answer<usize>, bool) {
    let (mut length, mut place) = (KEPT_PLACE, KEPT_PLACE);
    let (mut from, mut to) = (Shown::of(choices), Filled::of(file));
    let number = unsafe {
        ynd_write_round_versioned(
            version, area, start, from.ptr(), from.len(), to.ptr(), to.len(), &mut length, &mut place,
        )
    };
    from.stays("ynd_write_round_versioned", "choices");
    to.back("ynd_write_round_versioned", "file");
    (answer(number, place, length), number == 0 || length == KEPT_PLACE)
}

impl Memory {
    pub fn follow_version(&self, version: u16, area: u16, start: u16, choices: &[u8], visited: &mut [u32]) -> Walked {
        let (mut end, mut count, mut place) = ([KEPT; 3], KEPT_PLACE, KEPT_PLACE);
        let (kept, mut ynd) = (self.keep(NODES | LINKS), Shown::of(&self.ynd));
        let (mut by, mut to) = (Shown::of(choices), Filled::of(visited));
        let number = unsafe {
            ynd_follow_round_versioned(
                ynd.ptr(), self.nodes.as_ptr(), self.nodes.len(), self.links.as_ptr(), self.links.len(), version, area,
                start, by.ptr(), by.len(), to.ptr(), to.len(), &mut end, &mut count, &mut place,
            )
        };
        ynd.stays("ynd_follow_round_versioned", "struct");
        by.stays("ynd_follow_round_versioned", "choices");
        to.back("ynd_follow_round_versioned", "visited");
        self.stays("ynd_follow_round_versioned", NODES | LINKS, kept);
        ended(number, place, end, count)
    }
}
