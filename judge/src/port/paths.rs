//! Shortest paths between two places.
use super::lent::Filled;
use super::memory::{Memory, LINKS, NODES};
use super::{answer, KEPT, KEPT_PLACE};
use crate::model::Answer;
use crate::slips;

type Words = [u32; 15];

extern "C" {
    fn ynd_shortest_path(
        ynd: &Words, nodes: *const [u32; 13], node_count: usize, links: *const [u16; 4], link_count: usize, from: usize,
        to: usize, scratch: *mut u32, scratch_count: usize, choices: *mut u8, choice_count: usize, places: *mut u32,
        place_count: usize, distance: &mut u32, count: &mut usize, place: &mut usize,
    ) -> u32;
}

/// What is lent to the call, and what it leaves there.
#[derive(Clone, Debug, PartialEq, Eq)]
pub struct Lists {
    pub scratch: Vec<u32>,
    pub choices: Vec<u8>,
    pub places: Vec<u32>,
}

impl Memory {
    /// The distance and the number of links; the second part says that a refusal left both.
    pub fn shortest_path(&self, from: usize, to: usize, lists: &mut Lists) -> (Answer<(u32, usize)>, bool) {
        let (mut distance, mut count, mut place) = (KEPT, KEPT_PLACE, KEPT_PLACE);
        let kept = self.keep(NODES | LINKS);
        let (mut s, mut c, mut p) =
            (Filled::of(&mut lists.scratch), Filled::of(&mut lists.choices), Filled::of(&mut lists.places));
        let number = unsafe {
            ynd_shortest_path(
                &self.ynd, self.nodes.as_ptr(), self.nodes.len(), self.links.as_ptr(), self.links.len(), from, to,
                s.ptr(), s.len(), c.ptr(), c.len(), p.ptr(), p.len(), &mut distance, &mut count, &mut place,
            )
        };
        s.back("ynd_shortest_path", "scratch");
        c.back("ynd_shortest_path", "choices");
        p.back("ynd_shortest_path", "places");
        self.stays("ynd_shortest_path", NODES | LINKS, kept);
        let right = answer(number, place, (distance, count));
        let said = if slips::any() { slips::paths::shortest(self, from, to, lists, right) } else { right };
        (said, number == 0 || (distance == KEPT && count == KEPT_PLACE))
    }
}
