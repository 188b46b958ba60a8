//! Shortest paths between two nodes.
use crate::cell::Cell;
use crate::entries::places;
use crate::refusal::{answered, Refusal};
use bofrashem_sys as ffi;

/// Entries of scratch for each node.
const SCRATCH: usize = 4;

/// A shortest path: `Cell::walk` from its first place by its choices visits its places and ends done.
#[derive(Clone, Debug, PartialEq, Eq)]
pub struct Path {
    /// The sum of its links' lengths, in metres.
    pub distance: u32,
    /// A byte for each link, which chooses it by its place among the node's links.
    pub choices: Vec<u8>,
    /// The places visited, the start first, none of them twice.
    pub places: Vec<usize>,
}

impl Cell {
    /// A walk between the nodes at two places by the cell's own links whose lengths add up to least. Refused: 13 where
    /// either place has no node, 17 where no walk joins them.
    ///
    /// ```
    /// use bofrashem::{Cell, End, Link, Refusal};
    /// let mut cell = Cell::new();
    /// for x in 0..3 { cell.add_node(489, [x as f32, 0.0, 0.0])?; }
    /// let link = |to, length| Link { length, ..Link::to(489, to) };
    /// cell.set_links(0, &[link(2, 9), link(1, 3)])?;
    /// cell.set_links(1, &[link(2, 4)])?;
    /// let path = cell.shortest_path(0, 2)?;
    /// assert_eq!((path.distance, &path.places), (7, &vec![0, 1, 2]));
    /// assert_eq!(cell.walk(0, &path.choices)?.end, End::Done);
    /// assert_eq!(cell.shortest_path(2, 0), Err(Refusal::Unreachable));
    /// # Ok::<(), Refusal>(())
    /// ```
    pub fn shortest_path(&self, from: usize, to: usize) -> Result<Path, Refusal> {
        let n = self.nodes().len();
        let (mut scratch, mut choices, mut way) = (vec![0; SCRATCH * n], vec![0; n], vec![0; n]);
        let (mut distance, mut count) = (0, 0);
        answered(|place| unsafe {
            ffi::ynd_shortest_path(
                &self.words,
                self.nodes.as_ptr().cast(),
                self.nodes.len(),
                self.links.as_ptr().cast(),
                self.links.len(),
                from,
                to,
                scratch.as_mut_ptr(),
                scratch.len(),
                choices.as_mut_ptr(),
                choices.len(),
                way.as_mut_ptr(),
                way.len(),
                &mut distance,
                &mut count,
                place,
            )
        })?;
        choices.truncate(count);
        Ok(Path {
            distance,
            choices,
            places: places(&way[..=count]),
        })
    }
}
