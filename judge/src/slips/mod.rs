//! Slips: believable wrong programs, each with one rule made wrong. A slip answers in the port's place, from the
//! port's own calls on a changed input or with a changed answer, and the family that claims its rule has to catch it
//! (`make slips`).
pub mod edits;
pub mod kept;
pub mod numbers;
pub mod paths;
pub mod programs;
pub mod ranges;
pub mod reach;
pub mod reading;
pub mod renumbering;
pub mod rounds;
pub mod run;
pub mod sections;
pub mod sets;
pub mod table;
pub mod vectors;
pub mod walks;
pub mod writing;

use crate::port::memory::Memory;
use std::sync::atomic::{AtomicU8, Ordering::Relaxed};
pub use table::Slip;

/// The slip that is on, by its place in the table, from 1; 0 is none.
static ON: AtomicU8 = AtomicU8::new(0);

pub fn any() -> bool { ON.load(Relaxed) != 0 }

pub fn on(slip: Slip) -> bool { ON.load(Relaxed) == slip as u8 + 1 }

/// The slip of this name changes nothing: what the others go through, with every rule right.
pub const CONTROL: &str = "control";

/// Puts the slip of this name on; ends where there is none.
pub fn put_on(name: &str) {
    if name == CONTROL { return ON.store(u8::MAX, Relaxed); }
    let Some(row) = table::SLIPS.iter().find(|r| r.1 == name) else {
        eprintln!("no slip named {name}");
        std::process::exit(2);
    };
    ON.store(row.0 as u8 + 1, Relaxed);
}

/// The memory before a call, where a slip may want it.
pub fn before(m: &Memory) -> Option<Memory> { any().then(|| m.clone()) }
