//! Reading a cell from its two sections.
use crate::cell::Cell;
use crate::refusal::{answered, Refusal};
use bofrashem_sys as ffi;

/// How many entries of each kind a file holds.
#[derive(Clone, Copy, Debug, Default, PartialEq, Eq)]
#[allow(missing_docs)]
pub struct Counts {
    pub nodes: usize,
    pub links: usize,
    pub junctions: usize,
    pub heights: usize,
    pub refs: usize,
}

/// Counts what two sections hold, with all of reading's checks. Refused: 2, 1, 3, 6, 4, 5, in this order.
///
/// Ranges may overlap, so that a small file can ask for much: 4,096 junctions over one range make 115 KB ask for 266 MB
/// of heightmap values. Nodes over one range of links ask for 16 MB at most. To bound what a file gets, count first.
///
/// ```
/// let section = std::fs::read("../../samples/dock.section")?;
/// let counts = bofrashem::count(&section, &[])?;
/// assert_eq!((counts.nodes, counts.links), (13, 22));
/// # Ok::<(), Box<dyn std::error::Error>>(())
/// ```
pub fn count(system: &[u8], graphics: &[u8]) -> Result<Counts, Refusal> {
    let mut counts = ffi::ynd_counts::default();
    let ((s, s_len), (g, g_len)) = (lent(system), lent(graphics));
    answered(|place| unsafe { ffi::ynd_count(s, s_len, g, g_len, &mut counts, place) })?;
    let ffi::ynd_counts {
        nodes,
        links,
        junctions,
        heights,
        refs,
    } = counts;
    Ok(Counts {
        nodes,
        links,
        junctions,
        heights,
        refs,
    })
}

impl Cell {
    /// Reads a cell from its two sections; no system bytes are the cell of [`Cell::new`]. Refused as [`count`] is.
    pub fn read(system: &[u8], graphics: &[u8]) -> Result<Cell, Refusal> {
        let c = count(system, graphics)?;
        let mut cell = Cell::new();
        let ((s, s_len), (g, g_len)) = (lent(system), lent(graphics));
        let (nodes, links) = (
            room(&mut cell.nodes, c.nodes),
            room(&mut cell.links, c.links),
        );
        let (junctions, refs) = (
            room(&mut cell.junctions, c.junctions),
            room(&mut cell.refs, c.refs),
        );
        let heights = room(&mut cell.heights, c.heights);
        answered(|place| unsafe {
            ffi::ynd_read(
                &mut cell.words,
                s,
                s_len,
                g,
                g_len,
                nodes.cast(),
                c.nodes,
                links.cast(),
                c.links,
                junctions.cast(),
                c.junctions,
                heights,
                c.heights,
                refs.cast(),
                c.refs,
                place,
            )
        })?;
        // an accepted call has stored as many entries as were counted, each in full
        unsafe {
            cell.nodes.set_len(c.nodes);
            cell.links.set_len(c.links);
            cell.junctions.set_len(c.junctions);
            cell.heights.set_len(c.heights);
            cell.refs.set_len(c.refs);
        }
        Ok(cell)
    }
}

/// Bytes as pointer and length.
fn lent(bytes: &[u8]) -> (*const u8, usize) {
    (bytes.as_ptr(), bytes.len())
}

/// Memory for so many entries, behind no other.
fn room<T>(list: &mut Vec<T>, n: usize) -> *mut T {
    list.reserve_exact(n);
    list.as_mut_ptr()
}
