//! A model of document 01, written from its text alone, plainly and without care for speed. It decides where the two
//! may differ; everywhere else it is itself held to the Rust.
pub mod agree;
pub mod cell;
pub mod edit;
pub mod grid;
pub mod length;
pub mod names;
pub mod paths;
pub mod printed;
pub mod reach;
pub mod read;
pub mod records;
pub mod renumber;
pub mod rounds;
pub mod sections;
pub mod sets;
pub mod steps;
pub mod walk;
pub mod write;

/// A refusal: document 01's number and place.
#[derive(Debug, Clone, Copy, PartialEq, Eq)]
pub struct Refused(pub u32, pub usize);

pub type Answer<T> = Result<T, Refused>;

/// Section 4's added limits.
pub const MOST_SECTION: usize = 16_777_216;
pub const MOST_NODES: usize = 65_536;
pub const MOST_JUNCTIONS: usize = 4_096;
pub const MOST_LINKS: usize = 255;

/// Refuses with `number` at `place` when `bad`.
pub fn refuse_if(bad: bool, number: u32, place: usize) -> Answer<()> {
    if bad { Err(Refused(number, place)) } else { Ok(()) }
}

/// Refusal 14 in every call on a cell: over a limit of section 4. Only a cell made by hand is.
pub fn within(cell: &cell::Cell) -> Answer<()> {
    refuse_if(cell.nodes.len() > MOST_NODES || cell.junctions.len() > MOST_JUNCTIONS, 14, 0)
}

/// Refusal 7: the lowest place whose lent entries are fewer than those needed.
pub fn room(first_place: usize, needed: &[usize], lent: &[usize]) -> Answer<()> {
    match needed.iter().zip(lent).position(|(n, l)| l < n) {
        Some(i) => Err(Refused(7, first_place + i)),
        None => Ok(()),
    }
}
