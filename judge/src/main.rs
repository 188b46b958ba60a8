//! The Rust as judge: the Rust, a model of document 01 and the port on the same inputs.
#![cfg_attr(feature = "drop-in", allow(dead_code, unused_imports))]
#[cfg(not(feature = "drop-in"))]
include!(concat!(env!("OUT_DIR"), "/rust/modules.rs"));
#[cfg(feature = "drop-in")]
pub use bofrashem::{math, ynd};

#[cfg(not(feature = "drop-in"))]
mod bench;
mod compare;
mod inputs;
mod model;
mod port;
mod rust;
mod slips;
#[cfg(not(feature = "drop-in"))]
mod vectors;

const USE: &str = "judge diff [--seed N] [--seconds S] [--full] [--only FAMILY] [--slip NAME]
judge soak [--seed N] [--lists N]
judge slips [--seed N] [--only NAME]
judge families
judge bench [--only WORDS OF A CALL]
judge vectors FILE";

fn main() {
    let args: Vec<String> = std::env::args().skip(1).collect();
    let word = |name: &str| args.iter().position(|a| a == name).and_then(|i| args.get(i + 1)).cloned();
    let option = |name: &str| word(name).and_then(|v| v.parse::<f64>().ok());
    let seed = option("--seed").unwrap_or(1.0) as u64;
    let full = args.iter().any(|a| a == "--full");
    if let Some(name) = word("--slip") { slips::put_on(&name); }
    match args.first().map(String::as_str) {
        Some("diff") => compare::diff::diff(seed, option("--seconds").unwrap_or(100.0), full, word("--only")),
        Some("soak") => compare::diff::soak(seed, option("--lists").unwrap_or(1e6) as u64),
        Some("slips") => slips::run::slips(seed, word("--only")),
        Some("families") => print!("{}", compare::page::page()),
        #[cfg(not(feature = "drop-in"))]
        Some("bench") => bench::bench(word("--only")),
        #[cfg(not(feature = "drop-in"))]
        Some("vectors") if args.len() == 2 => vectors::write(&args[1]),
        _ => { eprintln!("{USE}"); std::process::exit(2); }
    }
}
