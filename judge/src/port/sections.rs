//! Sections, the root and the four records.
use super::lent::Shown;
use super::KEPT_PLACE;
use crate::model::{Answer, Refused};
use crate::slips::sections as slips;

extern "C" {
    fn ynd_locate(address: u64, count: u32, width: u8, system: usize, graphics: usize, part: &mut [usize; 3]) -> bool;
    fn ynd_root(section: *const u8, length: usize, words: &mut [u32; 28], place: &mut usize) -> u32;
    fn ynd_node_record(section: *const u8, length: usize, at: u32, bytes: &mut [u8; 40], place: &mut usize) -> u32;
    fn ynd_link_record(section: *const u8, length: usize, at: u32, bytes: &mut [u8; 8], place: &mut usize) -> u32;
    fn ynd_junction_record(section: *const u8, length: usize, at: u32, bytes: &mut [u8; 12], place: &mut usize) -> u32;
    fn ynd_ref_record(section: *const u8, length: usize, at: u32, bytes: &mut [u8; 8], place: &mut usize) -> u32;
    fn ynd_lay_out(
        refs: u32, heightmap: u32, junctions: u32, links: u32, nodes: u32, addresses: &mut [u64; 5], total: &mut usize,
        place: &mut usize,
    ) -> u32;
}

/// Section, offset and length; the second part says that a bad address left what was lent.
pub fn locate(address: u64, count: u32, width: u8, system: usize, graphics: usize) -> (Option<[usize; 3]>, bool) {
    let mut part = [KEPT_PLACE; 3];
    let [s, g] = [system, graphics].map(slips::length);
    let good = unsafe { ynd_locate(slips::address(address), count, width, s, g, &mut part) };
    (good.then_some(part), good || part == [KEPT_PLACE; 3])
}

fn told<T>(number: u32, place: usize, value: T) -> Answer<T> {
    if number == 0 { Ok(value) } else { Err(Refused(number, place)) }
}

pub fn root(section: &[u8]) -> Answer<Vec<u32>> {
    let (mut words, mut place, mut lent) = ([0; 28], KEPT_PLACE, Shown::of(section));
    let number = unsafe { ynd_root(lent.ptr(), lent.len(), &mut words, &mut place) };
    lent.stays("ynd_root", "section");
    told(number, place, words.to_vec())
}

/// The record of an array, by its place among the five, at an offset of a section, as it is written.
pub fn record(array: usize, section: &[u8], at: u32) -> Answer<Vec<u8>> {
    let mut lent = Shown::of(section);
    let (s, n) = (lent.ptr(), lent.len());
    let (mut node, mut junction, mut eight, mut place) = ([0; 40], [0; 12], [0; 8], KEPT_PLACE);
    let number = unsafe {
        match array {
            0 => ynd_node_record(s, n, at, &mut node, &mut place),
            1 => ynd_link_record(s, n, at, &mut eight, &mut place),
            2 => ynd_junction_record(s, n, at, &mut junction, &mut place),
            _ => ynd_ref_record(s, n, at, &mut eight, &mut place),
        }
    };
    lent.stays("a record", "section");
    told(number, place, match array { 0 => node.to_vec(), 2 => junction.to_vec(), _ => eight.to_vec() })
}

/// From the counts of nodes, links, junctions, heightmap bytes and refs: their addresses in that order, and the
/// length.
pub fn lay_out([nodes, links, junctions, heightmap, refs]: [u32; 5]) -> Answer<([u64; 5], usize)> {
    let (mut a, mut total, mut place) = ([0; 5], 0, KEPT_PLACE);
    let number = unsafe { ynd_lay_out(refs, heightmap, junctions, links, nodes, &mut a, &mut total, &mut place) };
    told(number, place, ([a[4], a[3], a[2], a[1], a[0]], total))
}
