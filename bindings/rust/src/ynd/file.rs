//! Files as the engine has them: a cell in its container.
use super::Ynd;
use crate::container::{self, Bad};
use crate::Refusal;
use std::fmt;

/// Why a file is no cell.
#[derive(Debug, Clone, Copy, PartialEq, Eq)]
pub enum Unopened {
    /// The container can't be opened.
    Container(Bad),
    /// Its sections are refused.
    Refused(Refusal),
}

impl fmt::Display for Unopened {
    fn fmt(&self, f: &mut fmt::Formatter<'_>) -> fmt::Result {
        match self {
            Unopened::Container(bad) => write!(f, "container: {bad}"),
            Unopened::Refused(refusal) => refusal.fmt(f),
        }
    }
}

impl std::error::Error for Unopened {}

/// The cell of a container's bytes. Refused as [`Ynd::from_sections`] is.
pub fn parse_ynd(data: &[u8]) -> Result<Ynd, Unopened> {
    let opened = container::open(data).map_err(Unopened::Container)?;
    Ynd::from_sections(&opened.system, &opened.graphics).map_err(Unopened::Refused)
}

/// The cell in a container, of resource version 1. Refused as [`Ynd::to_section`] is.
///
/// ```
/// use bofrashem::ynd::{parse_ynd, serialize_ynd, Ynd};
/// let ynd = Ynd::from_sections(&std::fs::read("../../samples/hall.section")?, &[])?;
/// assert_eq!(parse_ynd(&serialize_ynd(&ynd)?)?, ynd);
/// assert!(parse_ynd(b"no container at all").is_err());
/// # Ok::<(), Box<dyn std::error::Error>>(())
/// ```
pub fn serialize_ynd(ynd: &Ynd) -> Result<Vec<u8>, Refusal> {
    Ok(container::close(&ynd.to_section()?))
}
