//! The smallest input found: while some smaller one still fails, go on from it.
use super::files::File;
use crate::model::records::{ADDRESS_AT, COUNT_AT, COUNT_WIDTH, ROOT};
use crate::model::sections::{le, put_le};
use std::time::{Duration, Instant};

/// Takes the first smaller input that still fails, until none does or ten seconds have gone.
pub fn shrink<I: Clone>(input: I, smaller: impl Fn(&I) -> Vec<I>, fails: impl Fn(&I) -> bool) -> I {
    let until = Instant::now() + Duration::from_secs(10);
    let mut least = input;
    while Instant::now() < until {
        let Some(next) = smaller(&least).into_iter().take_while(|_| Instant::now() < until).find(|i| fails(i)) else {
            break
        };
        least = next;
    }
    least
}

/// Smaller files: sections cut, arrays shorter, words zeroed.
pub fn smaller_file(f: &File) -> Vec<File> {
    let mut out = Vec::new();
    let mut push = |g: File| if g != *f { out.push(g) };
    let with = |change: &dyn Fn(&mut File)| { let mut g = f.clone(); change(&mut g); g };
    for n in cuts(f.graphics.len()) { push(with(&|g| g.graphics.truncate(n))); }
    for n in cuts(f.system.len()) { push(with(&|g| g.system.truncate(n))); }
    if f.system.len() >= ROOT {
        for i in 0..5 {
            let count = le(&f.system, COUNT_AT[i], COUNT_WIDTH[i]);
            for c in [0, count / 2, count.saturating_sub(1)] {
                push(with(&|g| put_le(&mut g.system, COUNT_AT[i], COUNT_WIDTH[i], c)));
            }
            push(with(&|g| put_le(&mut g.system, ADDRESS_AT[i], 8, 0)));
        }
    }
    for width in [64, 8, 1] {
        for at in (0..f.system.len()).step_by(width) { push(with(&|g| zero(&mut g.system, at, width))); }
        for at in (0..f.graphics.len()).step_by(width) { push(with(&|g| zero(&mut g.graphics, at, width))); }
    }
    push(with(&|g| g.aux = 0));
    for bit in 0..64 { if f.aux >> bit & 1 == 1 { push(with(&|g| g.aux &= !(1 << bit))); } }
    out
}

fn cuts(n: usize) -> Vec<usize> {
    let mut all = vec![0, ROOT, n / 2, n.saturating_sub(40), n.saturating_sub(8), n.saturating_sub(1)];
    all.retain(|&m| m < n);
    all
}

fn zero(bytes: &mut [u8], at: usize, width: usize) {
    let end = (at + width).min(bytes.len());
    bytes[at..end].fill(0);
}
