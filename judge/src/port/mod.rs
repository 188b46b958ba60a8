//! The port's calls, as a C program makes them, in the model's words. What is lent is watched (lent.rs); where a slip
//! is on, its wrong program answers in the port's place (slips/).
pub mod access;
pub mod cells;
pub mod edits;
pub mod entries;
pub mod lent;
pub mod lookups;
pub mod member_edits;
pub mod members;
pub mod memory;
pub mod numbers;
pub mod paths;
pub mod reach;
pub mod rounds;
pub mod sets;
pub mod versions;
pub mod sections;
pub mod shown;
pub mod stores;
pub mod walks;
pub mod words;

use crate::model::{Answer, Refused};

/// A number that is 0 where the call was accepted, and the place that it left, which then is 0 too.
fn answer<T>(number: u32, place: usize, value: T) -> Answer<T> {
    if number == 0 && place == 0 { Ok(value) } else { Err(Refused(number, place)) }
}

/// What every lent cell holds before a call, so that a cell that should stay is seen to stay.
const KEPT: u32 = 0xA5A5_A5A5;
const KEPT_PLACE: usize = 0xA5A5_A5A5_A5A5;

/// Entries as they cross.
type Node = [u32; 13];
type Link = [u16; 4];
type Junction = [u32; 6];
type Ref = [u16; 4];
