//! The engine's own container, as the wrapper opens and makes it.
pub use bofrashem::container::{close, is_container, open, section_size, Bad, Container, MARK, SECTION_MOST, VERSION};
