//! What a run says: a line a family, the table of what was met, the sums; and whether it fails.
use super::families::{Family, DOMAINS};
use super::page::grouped;
use super::{seen, Mismatch};
use crate::rust::NAME;
use std::sync::atomic::{AtomicU64, Ordering::Relaxed};
use std::sync::Mutex;
use std::time::Instant;

pub struct Report {
    seed: u64,
    full: bool,
    began: Instant,
    /// Seconds after which the last line on a long family's progress was printed.
    told: AtomicU64,
    /// Inputs by domain, and the kinds that were met too seldom.
    sums: Mutex<([u64; DOMAINS.len()], Vec<String>)>,
}

/// Seconds between two lines on a long family's progress.
const TELL_EVERY: u64 = 20;

impl Report {
    pub fn new(seed: u64, full: bool) -> Self {
        let sums = Mutex::new(([0; DOMAINS.len()], Vec::new()));
        println!("{:>8} {:>12}  family: kinds met; the one met least, and how often it must be", "seconds", "inputs");
        Report { seed, full, began: Instant::now(), told: AtomicU64::new(0), sums }
    }

    /// How far a long family is, now and then.
    pub fn tell(&self, name: &str, so_far: u64, count: u64) {
        let now = self.began.elapsed().as_secs();
        let told = self.told.load(Relaxed);
        if now < told + TELL_EVERY || self.told.compare_exchange(told, now, Relaxed, Relaxed).is_err() { return; }
        println!("{now:>8} {:>12}  {name}: {so_far} of {count}", "");
    }

    /// One line of the table: inputs, how many of the kinds were met often enough, and the one that was met least.
    pub fn done(&self, row: &Family, count: u64) {
        self.told.store(self.began.elapsed().as_secs(), Relaxed);
        let counts = seen::take();
        let mut sums = self.sums.lock().expect("one thread reports");
        sums.0[row.domain as usize] += count;
        let must = row.must.iter().map(|&(kind, least)| (kind, seen::share(least), counts.of(kind)));
        let short: Vec<_> = must.clone().filter(|(_, least, met)| met < least).collect();
        for (kind, least, met) in &short {
            sums.1.push(format!("{}: {kind} met {met} times, must be {least}", row.name));
        }
        let scarcest = must.min_by_key(|(_, least, met)| met * 1_000 / least.max(&1));
        let kinds = scarcest.map_or(String::new(), |(kind, least, met)| {
            let (met, least) = (grouped(met), grouped(least));
            format!(": {} of {} kinds; {kind}: {met} ({least})", row.must.len() - short.len(), row.must.len())
        });
        println!("{:>8.1} {count:>12}  {}{kinds}", self.began.elapsed().as_secs_f64(), row.name);
        if self.full { let all = counts.account(); if !all.is_empty() { println!("{:>22} {all}", ""); } }
    }

    /// The end of a run in which all sides agree: fails where a kind was met too seldom.
    pub fn close(&self) {
        let sums = self.sums.lock().expect("one thread reports");
        let parts = DOMAINS.iter().zip(sums.0).map(|(name, n)| format!("{} {name}", grouped(n)));
        let parts: Vec<String> = parts.collect();
        println!("seed {}: {} compared with {NAME}, all agree", self.seed, parts.join(", "));
        for line in &sums.1 { println!("MET TOO SELDOM: {line}"); }
        if !sums.1.is_empty() { std::process::exit(1); }
    }

    pub fn fail(&self, name: &str, input: &str, m: Mismatch) {
        let _held = self.sums.lock();
        println!("MISMATCH in {name}: {}", m.what);
        println!("after {:.1} s; again with --seed {}", self.began.elapsed().as_secs_f64(), self.seed);
        println!("input: {input}");
        for (side, answer) in m.sides { println!("{side} says: {answer}"); }
        std::process::exit(1);
    }
}
