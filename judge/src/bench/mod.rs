//! The Rust and the port from one driver, on the same inputs, in one run; printed as a table for docs/BENCHMARKS.md.
mod cells;
mod drop_in;
mod indexed;
mod numbers;
mod paths;
mod reach;
mod rounds;
mod sets;

use std::hint::black_box;
use std::time::{Duration, Instant};

pub const SIZES: [usize; 4] = [100, 1_000, 10_000, 60_000];

/// What a call's time is held to: a ratio to the Rust's, one to the floor, or nanoseconds.
#[derive(Clone, Copy)]
pub enum Goal { Ratio(f64), Floor(f64), Nanoseconds(f64), None }

/// One line of the table. A time is none where that side has no such call. The floor is plain Rust behind the port's
/// own C call, or a plain loop over the port's memory.
pub struct Row {
    pub call: &'static str,
    pub size: usize,
    pub rust: Option<f64>,
    pub floor: Option<f64>,
    pub port: Option<f64>,
    pub goal: Goal,
}

impl Row {
    fn line(&self) -> String {
        let [ratio, to_floor] = [self.rust, self.floor].map(|side| side.zip(self.port).map(|(s, p)| p / s));
        let (goal, met) = match self.goal {
            Goal::Ratio(g) => (format!("{g:.2}"), ratio.is_some_and(|r| r <= g)),
            Goal::Floor(g) => (format!("{g:.2} of the floor"), to_floor.is_some_and(|r| r <= g)),
            Goal::Nanoseconds(g) => (format!("{g:.0} ns"), self.port.is_some_and(|p| p <= g)),
            Goal::None => ("-".into(), true),
        };
        let shown = |n: Option<f64>, digits: usize| n.map_or("-".into(), |n| format!("{n:.digits$}"));
        let missed = if met { "" } else { " (missed)" };
        format!("| {} | {} | {} | {} | {} | {}{missed} | {} | {goal} |", self.call, self.size, shown(self.rust, 1),
            shown(self.floor, 1), shown(self.port, 1), shown(ratio, 2), shown(to_floor, 2))
    }
}

/// The rows whose call has these words; all where there are none.
pub struct Wanted(Option<String>);

impl Wanted {
    pub fn has(&self, call: &str) -> bool { self.0.as_ref().is_none_or(|words| call.contains(words.as_str())) }
}

pub fn bench(only: Option<String>) {
    crate::port::lent::measure();
    let wanted = Wanted(only);
    println!("| Call | Nodes | Rust, ns | Floor, ns | Port, ns | To the Rust | To the floor | Goal |");
    println!("|---|---|---|---|---|---|---|---|");
    let rows = numbers::rows(&wanted).into_iter().chain(cells::rows(&wanted)).chain(reach::rows(&wanted))
        .chain(rounds::rows(&wanted)).chain(indexed::rows(&wanted)).chain(paths::rows(&wanted))
        .chain(sets::rows(&wanted)).chain(drop_in::rows(&wanted));
    for row in rows { println!("{}", row.line()); }
    println!();
    print!("Nanoseconds a node, or a call for steps, grid and lengths; the fastest of {TURNS} turns, ");
    println!("each side in turn. Inputs are made once.\n{NOTES}");
    println!("{}\n{}\n{}\n{}\n{}", reach::NOTE, rounds::NOTE, indexed::NOTE, paths::NOTE, sets::NOTE);
}

const TURNS: usize = 41;

const NOTES: &str = "\
Steps, grid and lengths are called on both sides through a function pointer, one call an input, so that neither is
inlined. The floor of a call: the Rust's own expression in a function with the port's C signature, so with what it is
passed and what it stores, made for the processor that the archive is made for (x86-64-v2); for `node` the Rust's
lookup over the port's own words. That is what such a call takes at least if it does what the Rust does.
A walk's link: a walk through all nodes of a renumbered cell; near is within 16 places. The Rust has no walks; the
floor is Rust that goes the same way over the same memory by `links[nodes[p][7]][1]`, with no test but that of the
index, and stores the places.
node: by a call on both sides, or with the Rust's put in line in the loop that asks, as a caller in Rust has it.
The Rust's memory is its own, allocated in the call as it does; the port's is lent, not cleared first, and has been
used before.";

/// Nanoseconds an element on each side, the fastest of some turns, so that other work on the machine counts least. The
/// sides take turns, so that both meet the same machine; each says how long its own part took, so that making its
/// input is not counted.
pub fn both(count: usize, rust: impl FnMut() -> Duration, port: impl FnMut() -> Duration) -> (f64, f64) {
    both_in((20_000 / count.max(1)).max(1), count, rust, port)
}

/// The same of so many calls a turn.
pub fn both_in(
    rounds: usize, count: usize, mut rust: impl FnMut() -> Duration, mut port: impl FnMut() -> Duration,
) -> (f64, f64) {
    let [rust, port] = sides(rounds, count, [&mut rust, &mut port]);
    (rust, port)
}

/// The Rust, the floor and the port.
pub fn all_three(
    count: usize, mut rust: impl FnMut() -> Duration, mut floor: impl FnMut() -> Duration,
    mut port: impl FnMut() -> Duration,
) -> [Option<f64>; 3] {
    sides((20_000 / count.max(1)).max(1), count, [&mut rust, &mut floor, &mut port]).map(Some)
}

fn sides<const N: usize>(rounds: usize, count: usize, mut sides: [&mut dyn FnMut() -> Duration; N]) -> [f64; N] {
    let mut took = [const { Vec::new() }; N];
    for turn in 0..TURNS + 3 {
        for (side, took) in sides.iter_mut().zip(&mut took) {
            let x: Duration = (0..rounds).map(|_| side()).sum();
            // The first turns warm the caches.
            if turn >= 3 { took.push(x); }
        }
    }
    took.map(|all| fastest(all) / (rounds * count) as f64)
}

/// How long a call takes; what it gives is dropped afterwards.
pub fn timed<T>(f: impl FnOnce() -> T) -> Duration {
    let start = Instant::now();
    let given = black_box(f());
    let took = start.elapsed();
    drop(given);
    took
}

fn fastest(all: Vec<Duration>) -> f64 { all.into_iter().min().unwrap_or_default().as_nanos() as f64 }
