//! Path node cells, read, renumbered, edited, written and walked by a library whose every function is proved to meet
//! its contract.
//!
//! A [`Cell`] owns its memory and lends it to the library's calls; a [`Yard`] owns a set of cells whose walks cross. A
//! refusal is a [`Refusal`] and changes nothing. The calls that need no cell (steps, grid, lengths, file names) are in
//! [`numbers`]. [`ynd`] has the names and types of the Rust that the library was moved from, for code written over it.
//!
//! ```
//! let mut cell = bofrashem::Cell::read(&std::fs::read("../../samples/dock.section")?, &[])?;
//! let first = cell.walk(0, &[0, 1, 1])?;
//! let places = cell.renumber()?;
//! let again = cell.walk(places[0], &[0, 1, 1])?;
//! assert_eq!(first.end, again.end);
//! # Ok::<(), Box<dyn std::error::Error>>(())
//! ```
//!
//! The wrapper is tested, not proved; the calls beneath it are `bofrashem-sys`, whose build script finds the library.
//! It is code for x86-64 or aarch64: `make archive` at the repository's root makes it.
#![deny(missing_docs, unsafe_op_in_unsafe_fn)]
mod cell;
#[cfg(feature = "container")]
pub mod container;
mod edits;
mod entries;
mod fields;
pub mod math;
mod member;
mod member_edits;
pub mod numbers;
mod paths;
mod reach;
mod read;
mod refusal;
mod rounds;
mod stores;
mod walks;
mod yard;
pub mod ynd;

pub use cell::Cell;
pub use entries::{Junction, Link, Location, Node, Ref};
pub use fields::special_is_ped;
pub use member::Member;
pub use member_edits::MemberMut;
pub use paths::Path;
pub use reach::NearNode;
pub use read::{count, Counts};
pub use refusal::Refusal;
pub use rounds::{Round, VersionedRound};
pub use walks::{End, SeenJunction, SeenLink, SeenNode, Walk};
pub use yard::{CrossingWalk, Yard};

/// The version of the library that is linked: its three numbers.
///
/// ```
/// assert!(bofrashem::version() >= [1, 0, 0]);
/// ```
pub fn version() -> [u32; 3] {
    let number = unsafe { bofrashem_sys::ynd_version() };
    [number / 10_000, number / 100 % 100, number % 100]
}
