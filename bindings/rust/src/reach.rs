//! Nodes within reach of a point, the nearest first, and the nearest. Points, radii and distances count quarter-metre
//! steps.
use crate::cell::{lookup, Cell};
use crate::entries::places;
use bofrashem_sys as ffi;

/// A node by its place, with its squared distance from a point.
#[derive(Clone, Copy, Debug, PartialEq, Eq)]
#[allow(missing_docs)]
pub struct NearNode {
    pub place: usize,
    pub squared_distance: u64,
}

impl Cell {
    /// The places of all nodes whose stored x and y lie at most the radius from the point, each once and no other.
    /// The nearest comes first: they ascend by squared distance, equal distances by place.
    ///
    /// ```
    /// # use bofrashem::{Cell, Refusal};
    /// let mut cell = Cell::new();
    /// for x in [40.0, 10.0, 11.0] { cell.add_node(489, [x, 0.0, 0.0])?; }
    /// let [x, y, _] = bofrashem::numbers::quantise([10.5, 0.0, 0.0]);
    /// assert_eq!(cell.within([x, y], 4), [1, 2]);
    /// assert_eq!(cell.nearest([x, y]).map(|n| (n.place, n.squared_distance)), Some((1, 4)));
    /// # Ok::<(), Refusal>(())
    /// ```
    pub fn within(&self, point: [i16; 2], radius: u16) -> Vec<usize> {
        let [x, y] = point;
        let (mut near, mut count) = (vec![0; self.nodes().len()], 0);
        lookup(|place| unsafe {
            ffi::ynd_within(
                &self.words,
                self.nodes.as_ptr().cast(),
                self.nodes.len(),
                x,
                y,
                radius,
                near.as_mut_ptr(),
                near.len(),
                &mut count,
                place,
            )
        });
        places(&near[..count])
    }

    /// The node nearest to the point, the lowest place where distances are equal; none in a cell without nodes.
    pub fn nearest(&self, point: [i16; 2]) -> Option<NearNode> {
        let [x, y] = point;
        let (mut found, mut place, mut squared_distance) = (false, 0, 0);
        lookup(|refused| unsafe {
            ffi::ynd_nearest(
                &self.words,
                self.nodes.as_ptr().cast(),
                self.nodes.len(),
                x,
                y,
                &mut found,
                &mut place,
                &mut squared_distance,
                refused,
            )
        });
        found.then_some(NearNode {
            place,
            squared_distance,
        })
    }
}
