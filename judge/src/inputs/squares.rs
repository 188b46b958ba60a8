//! Pairs of positions whose s stands at the threshold of a length, or up to three patterns before or after it: random
//! positions almost never come so near to a square.
use super::rng::Rng;
use crate::model::length::{least_square, square};

pub type Pair = [[u32; 3]; 2];

/// Patterns on each side of a threshold, lengths that have one, and so how many targets there are.
const REACH: u32 = 3;
const EACH: u64 = 2 * REACH as u64 + 1;
pub const TARGETS: u64 = 255 * EACH;

/// How often a pair is looked for, how far around the root a coordinate is tried, and how often offsets are.
const TRIES: usize = 64;
const AROUND: u32 = 12;
const MOVES: usize = 6;

/// The least f32 whose rounded root is at least k, as a pattern.
pub fn threshold(k: u32) -> u32 {
    let least = least_square(k);
    let near = (least as f32).to_bits();
    if (f32::from_bits(near) as f64) < least { near + 1 } else { near }
}

/// The target of an index, and how many patterns it stands behind its threshold.
pub fn target(i: u64) -> (u32, i32) {
    let from = (i % EACH) as i32 - REACH as i32;
    let k = 1 + (i / EACH % 255) as u32;
    (threshold(k).wrapping_add_signed(from), from)
}

/// A pair whose s has just this pattern, if one is found: along one axis, or split over two or three, then moved.
pub fn pair(target: u32, r: &mut Rng) -> Option<Pair> {
    let axes = r.within(1, 3);
    let d = (0..TRIES).find_map(|k| difference(target, if k < TRIES / 2 { axes } else { 3 }, r))?;
    Some(moved(target, d, r))
}

/// A difference over so many axes.
fn difference(target: u32, axes: usize, r: &mut Rng) -> Option<[f32; 3]> {
    let s = f32::from_bits(target) as f64;
    let last = r.below(3);
    let mut d = [0f32; 3];
    for k in 1..axes { d[(last + k) % 3] = part(s.sqrt(), r); }
    let rest = s - d.iter().map(|&x| x as f64 * x as f64).sum::<f64>();
    if rest <= 0.0 { return None; }
    let root = (rest.sqrt() as f32).to_bits();
    let from = r.below(2 * AROUND as usize + 1) as u32;
    let found = (0..=2 * AROUND).find_map(|k| {
        let x = f32::from_bits(root.wrapping_sub(AROUND).wrapping_add((from + k) % (2 * AROUND + 1)));
        let mut e = d;
        e[last] = x;
        (square([0; 3], e.map(f32::to_bits)).to_bits() == target).then_some(e)
    })?;
    Some(found.map(|x| if r.once_in(2) { -x } else { x }))
}

/// A coordinate below the root: of its size, or much smaller, so that the sums round in many ways.
fn part(root: f64, r: &mut Rng) -> f32 {
    let share = (r.u32() >> 8) as f64 / 16_777_216.0;
    (root * share * r.pick(&[0.7, 0.7, 0.1, 0.01, 0.001])) as f32
}

/// The difference between two positions of which neither is 0, where such a pair keeps s.
fn moved(target: u32, d: [f32; 3], r: &mut Rng) -> Pair {
    for _ in 0..MOVES {
        let size = r.pick(&[8192.0f32, 1024.0, 64.0, 4.0, 0.25, 1e-3, 1e-6, 1e-7]);
        let a = [0; 3].map(|_| (r.u32() as i32) as f32 / 2_147_483_648.0 * size);
        let b = [0, 1, 2].map(|i| (a[i] + d[i]).to_bits());
        let a = a.map(f32::to_bits);
        if square(a, b).to_bits() == target { return [a, b]; }
    }
    [[0; 3], d.map(f32::to_bits)]
}
