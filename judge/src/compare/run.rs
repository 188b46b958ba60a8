//! Runs comparisons over their inputs, on two processors where there are as many, and stops at the first mismatch.
use super::families::{self, Family};
use super::report::Report;
use super::{seen, Mismatch, Verdict, MODEL, PORT};
use crate::inputs::rng::Rng;
use crate::inputs::shrink::shrink;
use crate::port::lent;
use crate::rust::SHARE;
use crate::slips;
use std::fmt::Debug;
use std::sync::atomic::{AtomicU64, Ordering::Relaxed};
use std::time::{Duration, Instant};

pub struct Run {
    pub seed: u64,
    pub full: bool,
    /// The one family that is run, if one is named.
    only: Option<String>,
    pub report: Report,
}

/// Inputs of a sweep between two looks at the clock, and random inputs between two looks at what was met.
const BLOCK: u64 = 1 << 20;
const LOOK_EVERY: u64 = 256;
/// A family that has not met what it must goes on for so many times its share before it fails.
const PATIENCE: f64 = 10.0;

impl Run {
    pub fn new(seed: u64, full: bool, only: Option<String>) -> Self {
        Run { seed, full, only, report: Report::new(seed, full) }
    }

    fn skips(&self, name: &str) -> bool { self.only.as_deref().is_some_and(|o| o != name) }

    /// Every so many of `total` numbers, with one stride for a short run and one for a full run; the seed says where
    /// it starts. An input that agrees costs no memory.
    pub fn sweep(&self, name: &str, total: u64, strides: [u64; 2], check: impl Fn(u64) -> Verdict + Sync) {
        if self.skips(name) { return; }
        let stride = strides[self.full as usize] * if total > BLOCK { SHARE } else { 1 };
        let first = if stride > 1 { self.seed % stride } else { 0 };
        let count = (total - first).div_ceil(stride);
        let next = AtomicU64::new(0);
        self.on_threads(|| loop {
            let from = next.fetch_add(BLOCK, Relaxed);
            if from >= count { break; }
            for k in from..(from + BLOCK).min(count) {
                let i = first + k * stride;
                if let Err(m) = watched(&check, &i) { self.report.fail(name, &format!("{i} = {i:#x}"), m); }
            }
            self.report.tell(name, from, count);
        });
        self.report.done(families::row(name), count);
    }

    /// Each input of a list.
    pub fn list<I>(&self, name: &str, inputs: &[(String, I)], check: impl Fn(&I) -> Verdict) {
        if self.skips(name) { return; }
        for (what, input) in inputs {
            lent::spoilt();
            if let Err(m) = check(input).and_then(|_| stayed()) { self.report.fail(name, what, m); }
        }
        self.report.done(families::row(name), inputs.len() as u64);
    }

    /// A family that cannot be run here.
    pub fn left_out(&self, name: &str, why: &str) { if !self.skips(name) { println!("{name}: left out, {why}"); } }

    /// Random inputs for so long, and until the family has met what it must. A mismatch is shrunk before it is shown.
    pub fn random<I: Clone + Debug>(
        &self, name: &str, seconds: f64, generate: impl Fn(&mut Rng) -> I + Sync, check: impl Fn(&I) -> Verdict + Sync,
        smaller: impl Fn(&I) -> Vec<I> + Sync,
    ) {
        let began = Instant::now();
        let share = Duration::from_secs_f64(seconds);
        let last = Duration::from_secs_f64(seconds * PATIENCE);
        let row = families::row(name);
        let more = |index| {
            let gone = began.elapsed();
            let looks = index % LOOK_EVERY == 0;
            gone < share || (gone < last && !(looks && seen::enough(row.must)))
        };
        self.drawn(row, more, generate, check, smaller);
    }

    /// So many random inputs.
    pub fn counted<I: Clone + Debug>(
        &self, name: &str, count: u64, generate: impl Fn(&mut Rng) -> I + Sync, check: impl Fn(&I) -> Verdict + Sync,
        smaller: impl Fn(&I) -> Vec<I> + Sync,
    ) {
        let count = count.div_ceil(SHARE);
        let more = |index| { if index % 4_096 == 0 { self.report.tell(name, index, count); } index < count };
        self.drawn(families::row(name), more, generate, check, smaller);
    }

    fn drawn<I: Clone + Debug>(
        &self, row: &Family, more: impl Fn(u64) -> bool + Sync, generate: impl Fn(&mut Rng) -> I + Sync,
        check: impl Fn(&I) -> Verdict + Sync, smaller: impl Fn(&I) -> Vec<I> + Sync,
    ) {
        if self.skips(row.name) { return; }
        let (next, compared) = (AtomicU64::new(0), AtomicU64::new(0));
        let ended = std::sync::atomic::AtomicBool::new(false);
        self.on_threads(|| loop {
            let index = next.fetch_add(1, Relaxed);
            if index % LOOK_EVERY == 0 { seen::give(); }
            if ended.load(Relaxed) || !more(index) { ended.store(true, Relaxed); break; }
            let input = generate(&mut Rng::for_input(self.seed, row.name, index));
            if let Err(m) = judged(&check, &input) { self.smallest(row.name, index, input, m, &check, &smaller); }
            compared.fetch_add(1, Relaxed);
        });
        self.report.done(row, compared.load(Relaxed));
    }

    /// Shows a mismatch on the smallest input found. Of a slip it is enough that it was caught.
    fn smallest<I: Clone + Debug>(
        &self, name: &str, index: u64, input: I, m: Mismatch, check: &impl Fn(&I) -> Verdict,
        smaller: &impl Fn(&I) -> Vec<I>,
    ) {
        if slips::any() { return self.report.fail(name, &format!("index {index}"), m); }
        let least = shrink(input, smaller, |i| judged(check, i).is_err());
        let Err(m) = judged(check, &least) else { unreachable!("a comparison that gives two answers") };
        self.report.fail(name, &format!("index {index}, shrunk to\n{least:?}"), m);
    }

    fn on_threads(&self, work: impl Fn() + Sync) {
        std::thread::scope(|s| for _ in 0..threads() { s.spawn(|| { work(); seen::give(); }); });
    }
}

/// A comparison, and then whether every call left what it may not change.
fn judged<I>(check: &impl Fn(&I) -> Verdict, input: &I) -> Verdict {
    lent::spoilt();
    check(input).and_then(|_| stayed())
}

/// The same of a number.
fn watched(check: &impl Fn(u64) -> Verdict, i: &u64) -> Verdict { check(*i).and_then(|_| stayed()) }

fn stayed() -> Verdict {
    let Some((call, what)) = lent::spoilt() else { return Ok(()) };
    let what = format!("{call}: {what}, which it may not change, or beyond its ends");
    Err(Mismatch { what, sides: [(PORT, "changed".into()), (MODEL, "as it was".into())] })
}

/// Two at most: others may be at work on the machine.
fn threads() -> u64 { std::thread::available_parallelism().map_or(1, |n| n.get().min(2) as u64) }
