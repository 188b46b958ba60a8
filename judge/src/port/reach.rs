//! Nodes within reach of a point, and the nearest.
use super::lent::Filled;
use super::memory::{Memory, NODES};
use super::{answer, KEPT, KEPT_PLACE};
use crate::model::Answer;
use crate::slips;

type Words = [u32; 15];

extern "C" {
    fn ynd_within(
        ynd: &Words, nodes: *const [u32; 13], node_count: usize, x: i16, y: i16, radius: u16, places: *mut u32,
        place_count: usize, count: &mut usize, place: &mut usize,
    ) -> u32;
    fn ynd_nearest(
        ynd: &Words, nodes: *const [u32; 13], node_count: usize, x: i16, y: i16, found: &mut bool, at: &mut usize,
        square: &mut u64, place: &mut usize,
    ) -> u32;
}

impl Memory {
    /// The places listed in a list that is lent; the second part says that a refusal left `count`.
    pub fn within_into(&self, [x, y]: [i16; 2], radius: u16, places: &mut [u32]) -> (Answer<usize>, bool) {
        let (mut count, mut place) = (KEPT_PLACE, KEPT_PLACE);
        let (kept, mut to) = (self.keep(NODES), Filled::of(places));
        let number = unsafe {
            ynd_within(
                &self.ynd, self.nodes.as_ptr(), self.nodes.len(), x, y, radius, to.ptr(), to.len(), &mut count,
                &mut place,
            )
        };
        to.back("ynd_within", "places");
        self.stays("ynd_within", NODES, kept);
        let right = answer(number, place, count);
        let said = if slips::any() { slips::reach::within(self, [x, y], radius, places, right) } else { right };
        (said, number == 0 || count == KEPT_PLACE)
    }

    /// The same in a list of so many entries; the second part says that what lies behind the places stayed.
    pub fn within(&self, point: [i16; 2], radius: u16, room: usize) -> (Answer<Vec<u32>>, bool) {
        let mut places = vec![KEPT; room];
        let (counted, left) = self.within_into(point, radius, &mut places);
        let filled = counted.as_ref().map_or(0, |&n| n.min(room));
        let inside = counted.as_ref().map_or(true, |&n| n <= room);
        let kept = left && inside && places[filled..].iter().all(|&p| p == KEPT);
        places.truncate(filled);
        (counted.map(|_| places), kept)
    }

    /// The nearest node's place and squared distance; the second part says that nothing found left what was lent.
    pub fn nearest(&self, [x, y]: [i16; 2]) -> (Answer<Option<(usize, u64)>>, bool) {
        let (mut found, mut at, mut square, mut place) = (false, KEPT_PLACE, KEPT as u64, KEPT_PLACE);
        let held = self.keep(NODES);
        let number = unsafe {
            ynd_nearest(
                &self.ynd, self.nodes.as_ptr(), self.nodes.len(), x, y, &mut found, &mut at, &mut square, &mut place,
            )
        };
        self.stays("ynd_nearest", NODES, held);
        let kept = found || (at == KEPT_PLACE && square == KEPT as u64);
        let right = answer(number, place, found.then_some((at, square)));
        let said = if slips::any() { slips::reach::nearest(self, [x, y], right) } else { right };
        (said, kept && (number == 0 || !found))
    }
}
