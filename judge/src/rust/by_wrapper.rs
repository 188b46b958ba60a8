//! The wrapper's module `ynd` in the Rust's place. It goes by the documents where they differ from the Rust, and says
//! its refusals by number and place.
use crate::model::Refused;
use crate::ynd::Ynd;

pub const NAME: &str = "the drop-in";
pub const BY_THE_DOCUMENTS: bool = true;
pub const SHARE: u64 = 11;

pub type Answer<T> = Result<T, String>;

pub fn refusal(model: Refused, _: &str) -> String { format!("{} at {}", model.0, model.1) }

fn said<T>(answer: Result<T, bofrashem::Refusal>) -> Answer<T> {
    answer.map_err(|r| format!("{} at {}", r.number(), r.place()))
}

pub fn read(system: &[u8], graphics: &[u8]) -> Answer<Ynd> { said(Ynd::from_sections(system, graphics)) }

pub fn write(ynd: &Ynd) -> Answer<Vec<u8>> { said(ynd.to_section()) }
