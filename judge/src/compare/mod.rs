//! Comparisons: each takes one input, asks every side and says where two answers differ.
pub mod access;
pub mod agree;
pub mod causes;
pub mod cells;
pub mod diff;
#[cfg(not(feature = "drop-in"))]
pub mod drop_in;
pub mod drawn;
pub mod families;
pub mod far;
pub mod files;
pub mod full_sets;
pub mod large;
pub mod lookups;
pub mod members;
pub mod memory;
pub mod numbers;
pub mod page;
pub mod posts;
pub mod printed;
pub mod programs;
pub mod paths;
pub mod reach;
#[cfg(not(feature = "drop-in"))]
pub mod records;
pub mod report;
pub mod rounds;
pub mod versions;
pub mod run;
pub mod scratch;
pub mod scripts;
pub mod set_lists;
pub mod sets;
pub mod seen;
pub mod shown;
pub mod soak;
pub mod stores;
pub mod walks;

use std::fmt::Debug;

/// Two answers that differ.
pub struct Mismatch {
    pub what: String,
    pub sides: [(&'static str, String); 2],
}

pub type Verdict = Result<(), Mismatch>;

/// The sides that are asked.
pub const MODEL: &str = "document 01";
pub use crate::rust::NAME as RUST;
pub const PORT: &str = "the port";

pub fn same<T: PartialEq + Debug>(what: &str, left: &'static str, l: &T, right: &'static str, r: &T) -> Verdict {
    if l == r { return Ok(()); }
    Err(Mismatch { what: what.into(), sides: [(left, shown(l, r)), (right, shown(r, l))] })
}

/// An answer's text, cut to the part around its first difference from the other's.
fn shown<T: Debug>(own: &T, other: &T) -> String {
    let (a, b) = (format!("{own:?}"), format!("{other:?}"));
    let first = a.bytes().zip(b.bytes()).position(|(x, y)| x != y).unwrap_or(a.len().min(b.len()));
    let from = a.floor_char_boundary(first.saturating_sub(300));
    let to = a.floor_char_boundary((first + 300).min(a.len()));
    format!("{}{}{}", if from > 0 { ".. " } else { "" }, &a[from..to], if to < a.len() { " .." } else { "" })
}
