//! Wrong parts: which section an address names, and where a part may end.
use super::{on, Slip};

/// The address as the wrong program takes it.
pub fn address(a: u64) -> u64 {
    if on(Slip::GraphicsAt7) && a & 0xF000_0000 == 0x7000_0000 { return a ^ 0x1000_0000; }
    if on(Slip::HighBits) { return a & 0xFFFF_FFFF; }
    a
}

/// A section's length as the wrong program takes it.
pub fn length(n: usize) -> usize { if on(Slip::EndBefore) { n.saturating_sub(1) } else { n } }
