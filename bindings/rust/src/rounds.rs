//! Round files, and rounds followed in a cell.
use crate::cell::{scratch, Cell, SCRATCH};
use crate::refusal::{answered, Refusal};
use crate::walks::Walk;
use bofrashem_sys as ffi;

/// A round: the number of its start node, and a byte a choice.
///
/// It names a number, no node: renumbering gives nodes new numbers, so a file from before it starts at whichever node
/// then has that number. Write it again with the node's new number, which is its new place.
///
/// ```
/// use bofrashem::{Cell, End, Round};
/// let dock = Cell::read(&std::fs::read("../../samples/dock.section")?, &[])?;
/// let round = Round::from_bytes(&std::fs::read("../../samples/dock.round")?)?;
/// assert_eq!(dock.follow(&round)?.end, End::Done);
/// assert_eq!(round.to_bytes()?, std::fs::read("../../samples/dock.round")?);
/// # Ok::<(), Box<dyn std::error::Error>>(())
/// ```
#[derive(Clone, Debug, Default, PartialEq, Eq)]
#[allow(missing_docs)]
pub struct Round {
    pub start: u16,
    pub choices: Vec<u8>,
}

/// A round that may say which cell it is of. With an area its file is of version 2, without one of version 1.
///
/// ```
/// use bofrashem::{Cell, Refusal, Round, VersionedRound};
/// let mut cell = Cell::new();
/// cell.add_node(489, [0.0; 3])?;
/// let round = VersionedRound { area: Some(490), round: Round { start: 0, choices: vec![] } };
/// assert_eq!(VersionedRound::from_bytes(&round.to_bytes()?), Ok(round.clone()));
/// assert_eq!(cell.follow_versioned(&round), Err(Refusal::OtherArea));
/// # Ok::<(), Refusal>(())
/// ```
#[derive(Clone, Debug, Default, PartialEq, Eq)]
#[allow(missing_docs)]
pub struct VersionedRound {
    pub area: Option<u16>,
    pub round: Round,
}

/// The bytes of a round file before its choices.
const HEAD: usize = 9;
const HEAD_WITH_AREA: usize = 11;

impl Round {
    /// Reads a round file. Refused, in this order: 15 its first five bytes aren't the mark and version 1; 16 it has
    /// under 9 bytes, or not 9 plus its count.
    pub fn from_bytes(file: &[u8]) -> Result<Round, Refusal> {
        let (mut choices, mut start, mut count) = (vec![0; file.len()], 0, 0);
        answered(|place| unsafe {
            ffi::ynd_read_round(
                file.as_ptr(),
                file.len(),
                choices.as_mut_ptr(),
                choices.len(),
                &mut start,
                &mut count,
                place,
            )
        })?;
        choices.truncate(count);
        Ok(Round { start, choices })
    }

    /// The round file. Refused: 16 over 65,535 choices.
    pub fn to_bytes(&self) -> Result<Vec<u8>, Refusal> {
        let (mut file, mut length) = (vec![0; HEAD + self.choices.len()], 0);
        answered(|place| unsafe {
            ffi::ynd_write_round(
                self.start,
                self.choices.as_ptr(),
                self.choices.len(),
                file.as_mut_ptr(),
                file.len(),
                &mut length,
                place,
            )
        })?;
        file.truncate(length);
        Ok(file)
    }
}

impl VersionedRound {
    /// The version's number, and the area or 0.
    pub(crate) fn version(&self) -> (u16, u16) {
        self.area.map_or((1, 0), |area| (2, area))
    }

    /// Reads a round file of either version. Refused, in this order: 15 its first five bytes aren't the mark and
    /// version 1 or 2; 16 it has under 9 bytes, or not 9 plus its count (in version 2: 11).
    pub fn from_bytes(file: &[u8]) -> Result<VersionedRound, Refusal> {
        let (mut choices, mut version, mut area, mut start, mut count) =
            (vec![0; file.len()], 0, 0, 0, 0);
        answered(|place| unsafe {
            ffi::ynd_read_round_versioned(
                file.as_ptr(),
                file.len(),
                choices.as_mut_ptr(),
                choices.len(),
                &mut version,
                &mut area,
                &mut start,
                &mut count,
                place,
            )
        })?;
        choices.truncate(count);
        Ok(VersionedRound {
            area: (version == 2).then_some(area),
            round: Round { start, choices },
        })
    }

    /// The round file, of version 2 if the round has an area. Refused: 16 over 65,535 choices.
    pub fn to_bytes(&self) -> Result<Vec<u8>, Refusal> {
        let Round { start, choices } = &self.round;
        let (version, area) = self.version();
        let (mut file, mut length) = (vec![0; HEAD_WITH_AREA + choices.len()], 0);
        answered(|place| unsafe {
            ffi::ynd_write_round_versioned(
                version,
                area,
                *start,
                choices.as_ptr(),
                choices.len(),
                file.as_mut_ptr(),
                file.len(),
                &mut length,
                place,
            )
        })?;
        file.truncate(length);
        Ok(file)
    }
}

impl Cell {
    /// Walks a round from the node that [`Cell::node`] finds for its start. Refused: 13 no node has that number.
    pub fn follow(&self, round: &Round) -> Result<Walk, Refusal> {
        let choices = &round.choices;
        let (mut visited, mut end, mut n) =
            (vec![0; choices.len() + 1], ffi::ynd_walk_end::default(), 0);
        answered(|place| unsafe {
            ffi::ynd_follow_round(
                &self.words,
                self.nodes.as_ptr().cast(),
                self.nodes.len(),
                self.links.as_ptr().cast(),
                self.links.len(),
                round.start,
                choices.as_ptr(),
                choices.len(),
                visited.as_mut_ptr(),
                visited.len(),
                &mut end,
                &mut n,
                place,
            )
        })?;
        Ok(Walk::of(end, visited, n))
    }

    /// The same round, for long ones in a cell that isn't renumbered: as [`Cell::walk_indexed`]. Refused: 13 no node
    /// has that number.
    ///
    /// ```
    /// use bofrashem::{Cell, Link, Refusal, Round};
    /// let mut cell = Cell::new();
    /// for x in 0..2 { cell.add_node(489, [x as f32, 0.0, 0.0])?; }
    /// cell.add_link(0, Link::to(489, 1))?;
    /// cell.add_link(1, Link::to(489, 0))?;
    /// let round = Round { start: 1, choices: vec![0; 10_000] };
    /// assert_eq!(cell.follow_indexed(&round)?, cell.follow(&round)?);
    /// assert_eq!(cell.follow_indexed(&Round { start: 2, ..round }), Err(Refusal::NoSuchPlace));
    /// # Ok::<(), Refusal>(())
    /// ```
    pub fn follow_indexed(&self, round: &Round) -> Result<Walk, Refusal> {
        let choices = &round.choices;
        let (mut visited, mut end, mut n) =
            (vec![0; choices.len() + 1], ffi::ynd_walk_end::default(), 0);
        let mut scratch = scratch();
        answered(|place| unsafe {
            ffi::ynd_follow_round_indexed(
                &self.words,
                self.nodes.as_ptr().cast(),
                self.nodes.len(),
                self.links.as_ptr().cast(),
                self.links.len(),
                round.start,
                choices.as_ptr(),
                choices.len(),
                visited.as_mut_ptr(),
                visited.len(),
                scratch.as_mut_ptr(),
                SCRATCH,
                &mut end,
                &mut n,
                place,
            )
        })?;
        Ok(Walk::of(end, visited, n))
    }

    /// Walks a round as [`Cell::follow`] does; one with an area only in the cell whose own area it is, an island's bit
    /// with it (0 if the cell has no node). Refused, in this order: 19 the cell has another area; 13 no node has that
    /// number.
    pub fn follow_versioned(&self, versioned: &VersionedRound) -> Result<Walk, Refusal> {
        let Round { start, choices } = &versioned.round;
        let (version, area) = versioned.version();
        let (mut visited, mut end, mut n) =
            (vec![0; choices.len() + 1], ffi::ynd_walk_end::default(), 0);
        answered(|place| unsafe {
            ffi::ynd_follow_round_versioned(
                &self.words,
                self.nodes.as_ptr().cast(),
                self.nodes.len(),
                self.links.as_ptr().cast(),
                self.links.len(),
                version,
                area,
                *start,
                choices.as_ptr(),
                choices.len(),
                visited.as_mut_ptr(),
                visited.len(),
                &mut end,
                &mut n,
                place,
            )
        })?;
        Ok(Walk::of(end, visited, n))
    }

    /// The same walk, for long rounds in a cell that isn't renumbered: as [`Cell::walk_indexed`]. An empty round asks
    /// for the refusals, then the choices go by the index. Refused as [`Cell::follow_versioned`] is.
    ///
    /// ```
    /// use bofrashem::{Cell, Link, Refusal, Round, VersionedRound};
    /// let mut cell = Cell::new();
    /// for x in 0..2 { cell.add_node(489, [x as f32, 0.0, 0.0])?; }
    /// cell.add_link(0, Link::to(489, 1))?;
    /// cell.add_link(1, Link::to(489, 0))?;
    /// let round = |area, start| VersionedRound { area, round: Round { start, choices: vec![0; 10_000] } };
    /// let (here, other) = (round(Some(489), 1), round(Some(7), 1));
    /// assert_eq!(cell.follow_versioned_indexed(&here)?, cell.follow_versioned(&here)?);
    /// assert_eq!(cell.follow_versioned_indexed(&other), Err(Refusal::OtherArea));
    /// assert_eq!(cell.follow_versioned_indexed(&round(None, 9)), Err(Refusal::NoSuchPlace));
    /// # Ok::<(), Refusal>(())
    /// ```
    pub fn follow_versioned_indexed(&self, versioned: &VersionedRound) -> Result<Walk, Refusal> {
        let start = versioned.round.start;
        self.follow_versioned(&VersionedRound {
            area: versioned.area,
            round: Round {
                start,
                choices: Vec::new(),
            },
        })?;
        self.follow_indexed(&versioned.round)
    }
}
