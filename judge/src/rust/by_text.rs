//! The Rust's own text, through a container that is document 01's layout.
use crate::model::sections::{le, SYSTEM};
use crate::model::Refused;
use crate::resource::lend_sections;
use crate::ynd::{parse_node_dictionary, serialize_node_dictionary, Ynd};

pub const NAME: &str = "the Rust";
/// Whether document 02's answers are asked of it too: no system bytes, islands, late posts; and document 01's limits.
pub const BY_THE_DOCUMENTS: bool = false;
/// One in so many of the inputs of a run by the Rust's text.
pub const SHARE: u64 = 1;

/// It refuses in words; only that it refuses is compared.
pub type Answer<T> = Result<T, String>;

/// What it is to say where the model refuses: anything.
pub fn refusal(_: Refused, said: &str) -> String { said.into() }

/// `parse_node_dictionary`, then `from_dictionary`.
pub fn read(system: &[u8], graphics: &[u8]) -> Answer<Ynd> {
    lend_sections(system.to_vec(), graphics.to_vec());
    let dictionary = parse_node_dictionary(&[]).map_err(|e| e.0)?;
    Ynd::from_dictionary(&dictionary).map_err(|e| e.0)
}

/// `to_dictionary`, then the `Pod` writers through the block graph; the framing's system section. T-05's field is set
/// to 0 here: the Rust stores what stands before a node without links.
pub fn write(ynd: &Ynd) -> Answer<Vec<u8>> {
    let dictionary = ynd.to_dictionary().map_err(|e| e.0)?;
    let file = serialize_node_dictionary(&dictionary).map_err(|e| e.0)?;
    let length = u32::from_le_bytes(file[..4].try_into().unwrap()) as usize;
    if file.len() != 4 + length { return Err(format!("{} bytes of graphics", file.len() - 4 - length)); }
    let mut section = file[4..].to_vec();
    let nodes = le(&section, 16, 8).wrapping_sub(SYSTEM) as usize;
    for (i, _) in ynd.nodes.iter().enumerate().filter(|(_, n)| n.links.is_empty()) {
        section[nodes + 40 * i + 26..][..2].fill(0);
    }
    Ok(section)
}
