//! Kind 12: large files made from a few numbers, zeros but for some bytes, each at places a stride apart.
use super::cells::told;
use super::Field::{U32, U8};
use super::Records;
use crate::model::cell::{Cell, Ref};
use crate::model::records::{ADDRESS_AT, COUNT_AT, COUNT_WIDTH, ROOT, WIDTHS};
use crate::model::sections::SYSTEM;
use crate::model::{edit, read, write, Refused};
use crate::rust;

const LARGE: u8 = 12;

/// What the program has room for: nodes, links, junctions, heightmap values, refs; and the section.
const LENT: [usize; 5] = [3_900, 65_600, 300, 66_100, 65_537];
const SECTION: usize = 2_621_600;

#[derive(Clone, Copy)]
struct Patch { at: usize, stride: usize, times: usize, value: u8 }

#[derive(Clone, Default)]
struct Made { length: usize, patches: Vec<Patch> }

impl Made {
    fn new() -> Made { Made { length: ROOT, patches: Vec::new() } }

    /// A number that is the same in each of so many records: its bytes that are not zero.
    fn set(&mut self, at: usize, stride: usize, times: usize, number: u64) {
        for (i, value) in number.to_le_bytes().into_iter().enumerate() {
            if value != 0 { self.patches.push(Patch { at: at + i, stride, times, value }); }
        }
    }

    /// An array of so many records behind what is there; where it starts.
    fn array(&mut self, i: usize, count: usize) -> usize {
        let at = self.length;
        self.set(ADDRESS_AT[i], 1, 1, SYSTEM + at as u64);
        self.set(COUNT_AT[i], 1, 1, (count as u64) & ((1 << (8 * COUNT_WIDTH[i])) - 1));
        self.length += count * WIDTHS[i] as usize;
        at
    }

    /// So many nodes; each of the first ones has the same `links` links, and those behind them have none.
    fn nodes(mut self, count: usize, with: usize, links: usize) -> Made {
        let at = self.array(0, count);
        self.set(at + 37, 40, with, 8 * links as u64);
        if links > 0 { self.array(1, links); }
        self
    }

    /// So many junctions; each of the first ones has the same values, and those behind them have none.
    fn junctions(mut self, count: usize, with: usize, width: usize) -> Made {
        let at = self.array(2, count);
        self.set(at + 10, 12, with, (width + 256) as u64 * (width > 0) as u64);
        if width > 0 { self.array(3, width); }
        self
    }

    fn refs(mut self, count: usize) -> Made { self.array(4, count); self }

    fn bytes(&self) -> Vec<u8> {
        let mut section = vec![0; self.length];
        for p in &self.patches { for i in 0..p.times { section[p.at + i * p.stride] = p.value; } }
        section
    }
}

pub fn add(to: &mut Records) {
    for n in [65_536, 65_537] { large(to, Made::new().nodes(n, 0, 0), 0); }
    for n in [4_096, 4_097] { large(to, Made::new().junctions(n, 0, 0), 0); }
    // Both over their limits, in the same bytes: the lower place.
    let mut both = Made::new().nodes(65_537, 0, 0);
    both.set(ADDRESS_AT[2], 1, 1, SYSTEM + ROOT as u64);
    both.set(COUNT_AT[2], 1, 1, 4_097);
    large(to, both, 0);
    // 65,535 is 3,855 times 17, and 257 times 255.
    for (n, with) in [(3_856, 3_855), (3_856, 3_856), (3_857, 3_856), (3_857, 3_857)] {
        large(to, Made::new().nodes(n, with, 17), 0);
    }
    // T-05: behind 65,535 links, and 17 more, two posts; the same with links behind the first of them.
    for with in [3_855, 3_856] {
        large(to, Made::new().nodes(with + 2, with, 17), 0);
        let mut behind = Made::new().nodes(with + 2, with, 17);
        behind.set(ROOT + (with + 1) * 40 + 37, 1, 1, 8);
        large(to, behind, 0);
    }
    for n in [2_115, 2_116] { large(to, Made::new().nodes(n, n, 31), 0); }
    for (n, with) in [(258, 257), (258, 258), (259, 258), (259, 259)] {
        large(to, Made::new().junctions(n, with, 255), 0);
    }
    for n in [65_535, 65_536] { large(to, Made::new(), n); }
    for n in [0, 1] { large(to, Made::new().refs(65_535), n); }
    // Of several causes the first in document 01's order.
    large(to, Made::new().nodes(3_857, 3_857, 17).junctions(259, 259, 255), 65_536);
    large(to, Made::new().nodes(3, 3, 1).junctions(259, 259, 255), 65_536);
    // The last of a thousand records starts behind the end of its list, and has nothing.
    let mut over = Made::new().nodes(1_000, 999, 17);
    over.set(ROOT + 999 * 40 + 26, 1, 1, 18);
    large(to, over, 0);
    let mut over = Made::new().junctions(1_000, 999, 255);
    over.set(ROOT + 999 * 12 + 8, 1, 1, 256);
    large(to, over, 0);
}

/// The layout stands at the head of the program's large.rt.
fn large(to: &mut Records, made: Made, added: usize) {
    let section = made.bytes();
    assert!(section.len() <= SECTION);
    let counting = read::count(&section, &[]);
    let reading = read::read_into(&section, &[], LENT);
    let judged = rust::read(&section, &[]);
    if let Err(Refused(n, _)) = counting { assert!(n == 6 || judged.is_err()); }
    let mut writing = Err(Refused(0, 0));
    if let Ok(mut cell) = reading.clone() {
        let mut ynd = judged.expect("the Rust reads it too");
        add_refs(&mut cell, added);
        ynd.junction_refs.extend((0..added).map(|_| rust::path_ref(&Ref::default())));
        writing = write::write(&cell, &mut vec![0; SECTION]);
        // T-05: what the Rust refuses for a late post only is document 02's.
        let late = writing.is_ok() && write::has_late_post(&cell);
        assert_eq!(rust::write(&ynd).ok().map(|b| b.len()), writing.ok().filter(|_| !late));
    }
    let mut fields = vec![U32(section.len() as u32), U32(added as u32)];
    fields.extend(told(&counting));
    fields.extend(told(&reading));
    fields.extend(told(&writing));
    fields.extend(counting.unwrap_or([0; 5]).map(|n| U32(n as u32)));
    fields.push(U32(writing.unwrap_or(0) as u32));
    for p in &made.patches {
        fields.extend([U32(p.at as u32), U32(p.stride as u32), U32(p.times as u32), U8(p.value)]);
    }
    to.add(LARGE, &fields);
}

fn add_refs(cell: &mut Cell, n: usize) {
    for _ in 0..n { edit::add_ref(cell, Ref::default(), LENT).expect("room for the refs"); }
}
