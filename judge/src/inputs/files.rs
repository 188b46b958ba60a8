//! Valid files of many shapes: two sections with the five arrays anywhere in them.
use super::rng::Rng;
use crate::model::records::{ADDRESS_AT, COUNT_AT, COUNT_WIDTH, ROOT};
use crate::model::sections::{put_le, GRAPHICS, SYSTEM};

#[derive(Clone, PartialEq, Eq)]
pub struct File {
    pub system: Vec<u8>,
    pub graphics: Vec<u8>,
    /// Steers what else is lent to the calls: lengths, rubbish, choices.
    pub aux: u64,
}

impl std::fmt::Debug for File {
    fn fmt(&self, f: &mut std::fmt::Formatter) -> std::fmt::Result {
        writeln!(f, "aux {:#x}", self.aux)?;
        writeln!(f, "system, {} bytes: {}", self.system.len(), runs(&self.system))?;
        write!(f, "graphics, {} bytes: {}", self.graphics.len(), runs(&self.graphics))
    }
}

/// The bytes that are not zero, sixteen to a line, as `offset: hex`; at most 200 lines.
fn runs(bytes: &[u8]) -> String {
    let mut out = String::new();
    let held = bytes.chunks(16).enumerate().filter(|(_, c)| c.iter().any(|&b| b != 0));
    for (i, c) in held.take(200) {
        out += &format!("\n  {:>6}: {}", i * 16, c.iter().map(|b| format!("{b:02x}")).collect::<Vec<_>>().join(" "));
    }
    out
}

/// How many of each: nodes, links, junctions, heightmap bytes, refs.
#[derive(Clone, Copy, Debug)]
pub struct Shape(pub [usize; 5]);

impl Shape {
    /// Mostly small, so that much of what is asked meets, and now and then larger.
    pub fn random(r: &mut Rng) -> Shape {
        let size = r.pick(&[3, 3, 6, 6, 12, 12, 40, 200]);
        let mut of = |least: usize| if r.once_in(6) { 0 } else { r.within(least.min(size), size) };
        let (nodes, links, junctions, refs) = (of(1), of(1), of(1) % 12, of(1));
        let values = if r.once_in(5) { 0 } else { r.below(4 * size) };
        Shape([nodes, links * r.within(1, 3), junctions, values, refs])
    }
}

/// A valid file of a random shape.
pub fn valid(r: &mut Rng) -> File {
    let shape = Shape::random(r);
    let arrays = arrays(r, shape);
    lay(r, arrays)
}

/// A file whose cell is sound, mostly of a few nodes.
pub fn sound(r: &mut Rng) -> File {
    let size = if r.once_in(50) { r.within(20, 60) } else { r.within(1, 9) };
    let nodes = if r.once_in(200) { 0 } else { r.within(size / 2 + 1, size) };
    let shape = Shape([nodes, r.below(3 * size + 1), r.below(4), r.below(2 * size + 9), r.below(size + 2)]);
    let arrays = arrays_of(r, shape, true);
    lay(r, arrays)
}

/// The five arrays' bytes. Numbers repeat, areas differ, links and refs name nodes that are there and nodes that
/// aren't.
pub fn arrays(r: &mut Rng, shape: Shape) -> [Vec<u8>; 5] {
    let sound = r.once_in(3);
    arrays_of(r, shape, sound)
}

/// The same; of a sound cell, if it is to be one.
fn arrays_of(r: &mut Rng, Shape([nodes, links, junctions, values, refs]): Shape, sound: bool) -> [Vec<u8>; 5] {
    let any = r.u16();
    let own = r.pick(&[0u16, 489, 1177, 0xFFFF, any]);
    // T-07: an island's own links mostly name its area without the bit.
    let used = if own & 1024 != 0 && r.once_in(2) { own ^ 1024 } else { own };
    let numbers = numbers(r, nodes, sound);
    let named = |r: &mut Rng| {
        let any = r.u16();
        let area = if r.once_in(if sound { 6 } else { 3 }) {
            r.pick(&[own ^ 1, own, own ^ 1024, own ^ 2048, own ^ 3072, any])
        } else { used };
        let number = if numbers.is_empty() || (!sound && r.once_in(5)) { r.pick(&[0, 1, 0xFFFF, any ^ 0x5555]) } else {
            r.pick(&numbers)
        };
        (area, number)
    };
    let mut out: [Vec<u8>; 5] = Default::default();
    for number in &numbers { out[0].extend(node(r, own, *number, links, sound)); }
    for _ in 0..links {
        let mut b = r.bytes(8);
        let (area, number) = named(r);
        put_le(&mut b, 0, 2, area as u64);
        put_le(&mut b, 2, 2, number as u64);
        out[1].extend(b);
    }
    for _ in 0..junctions { out[2].extend(junction(r, values)); }
    out[3] = r.bytes(values);
    for _ in 0..refs {
        let mut b = r.bytes(8);
        let (area, number) = named(r);
        put_le(&mut b, 0, 2, area as u64);
        put_le(&mut b, 2, 2, number as u64);
        put_le(&mut b, 4, 2, r.below(junctions + 2) as u64);
        out[4].extend(b);
    }
    out
}

/// A node's record with some of so many links.
fn node(r: &mut Rng, own: u16, number: u16, links: usize, sound: bool) -> Vec<u8> {
    let mut b = r.bytes(40);
    let any = r.u16();
    put_le(&mut b, 16, 2, if sound || !r.once_in(8) { own } else { r.pick(&[any, own ^ 1024]) } as u64);
    put_le(&mut b, 18, 2, number as u64);
    let count = r.below(links.min(31) + 1).min(if r.once_in(3) { 31 } else { 4 });
    // Ranges overlap; a node with no links may start at the list's very end.
    let start = if count == 0 && r.once_in(2) { links } else { r.below(links - count + 1) };
    put_le(&mut b, 26, 2, start as u64);
    b[37] = (count * 8) as u8 + r.u8() % 8;
    b[33] = if r.once_in(2) { r.pick(&[10u8, 14, 18]) * 8 + r.u8() % 8 } else { r.u8() };
    b
}

/// A junction's record with some of so many values.
fn junction(r: &mut Rng, values: usize) -> Vec<u8> {
    let mut b = r.bytes(12);
    // Now and then over 255 values.
    let most = if r.once_in(6) { 40 } else { 5 };
    let (mut width, mut height) = (r.below(most), r.below(most));
    if width * height > values { (width, height) = r.pick(&[(0, 3), (255, 0), (0, 0)]); }
    put_le(&mut b, 8, 2, r.below(values - width * height + 1) as u64);
    (b[10], b[11]) = (width as u8, height as u8);
    b
}

fn numbers(r: &mut Rng, nodes: usize, differ: bool) -> Vec<u16> {
    let mut all: Vec<u16> = match r.below(if differ { 2 } else { 4 }) {
        0 => (0..nodes).map(|i| i as u16).collect(),
        1 => (0..nodes).map(|i| (i as u16).wrapping_mul(7919).wrapping_add(65_000)).collect(),
        2 => (0..nodes).map(|_| r.below(nodes / 2 + 1) as u16).collect(),
        _ => (0..nodes).map(|_| r.u16()).collect(),
    };
    if r.once_in(2) { for i in (1..all.len()).rev() { all.swap(i, r.below(i + 1)); } }
    all
}

/// Lays the arrays at any offsets of the two sections, aligned or not, with rubbish between, and writes the root.
pub fn lay(r: &mut Rng, arrays: [Vec<u8>; 5]) -> File {
    let mut sections = [r.bytes(ROOT), Vec::new()];
    let graphics_weight = r.pick(&[1, 1, 3, 1000]);
    let mut order = [0, 1, 2, 3, 4];
    for i in (1..5).rev() { order.swap(i, r.below(i + 1)); }
    let widths = [40, 8, 12, 1, 8];
    let mut places = [(0u64, 0u64); 5];
    for i in order {
        let which = if r.once_in(1 + graphics_weight) { 1 } else { 0 };
        let gap = if r.once_in(2) { 0 } else { r.below(24) };
        let rubbish = r.bytes(gap);
        sections[which].extend(rubbish);
        let address = [SYSTEM, GRAPHICS][which] + sections[which].len() as u64;
        let count = (arrays[i].len() / widths[i]) as u64;
        sections[which].extend(&arrays[i]);
        // An empty array may have any address with no count, or no address with any count.
        let any = r.next();
        places[i] = if count > 0 { (address, count) } else {
            r.pick(&[(0, 0), (address, 0), (any, 0), (0, any >> 33)])
        };
    }
    if r.once_in(3) { let n = r.below(60); let tail = r.bytes(n); sections[r.below(2)].extend(tail); }
    let [mut system, graphics] = sections;
    for i in 0..5 {
        put_le(&mut system, ADDRESS_AT[i], 8, places[i].0);
        put_le(&mut system, COUNT_AT[i], COUNT_WIDTH[i], places[i].1);
    }
    File { system, graphics, aux: r.next() }
}
