//! Entries added and stored. Lists grow as they need to.
use crate::cell::Cell;
use crate::entries::{Junction, Link, Node, Ref};
use crate::refusal::{answered, Refusal};
use bofrashem_sys as ffi;

impl Cell {
    /// Adds a node behind all others, its position in whole steps; its number is its place, which is returned.
    /// Refused: 14 at 65,536 nodes.
    pub fn add_node(&mut self, area_id: u16, [x, y, z]: [f32; 3]) -> Result<usize, Refusal> {
        let add = |c: &mut Cell| {
            answered(|place| unsafe {
                ffi::ynd_add_node(
                    &mut c.words,
                    c.nodes.as_mut_ptr().cast(),
                    c.nodes.len(),
                    area_id,
                    x,
                    y,
                    z,
                    place,
                )
            })
        };
        self.asked(add, |c| grow(&mut c.nodes, c.words.node_count as usize + 1))?;
        Ok(self.words.node_count as usize - 1)
    }

    /// Adds a link, the last of the node at a place. Refused: 13; 14 at 255 links of the node.
    pub fn add_link(&mut self, at: usize, link: Link) -> Result<(), Refusal> {
        let add = |c: &mut Cell| {
            answered(|place| unsafe {
                let (nodes, links) = (c.nodes.as_mut_ptr().cast(), c.links.as_mut_ptr().cast());
                ffi::ynd_add_link(
                    &mut c.words,
                    nodes,
                    c.nodes.len(),
                    links,
                    c.links.len(),
                    at,
                    link.raw(),
                    place,
                )
            })
        };
        self.asked(add, |c| grow(&mut c.links, c.words.link_count as usize + 1))
    }

    /// Adds a ref behind all others.
    pub fn add_ref(&mut self, added: Ref) -> Result<(), Refusal> {
        let add = |c: &mut Cell| {
            answered(|place| unsafe {
                ffi::ynd_add_ref(
                    &mut c.words,
                    c.refs.as_mut_ptr().cast(),
                    c.refs.len(),
                    added.raw(),
                    place,
                )
            })
        };
        self.asked(add, |c| grow(&mut c.refs, c.words.ref_count as usize + 1))
    }

    /// Adds a junction with its heightmap values, row by row; returns its place. Refused: 14 at 4,096 junctions; 12
    /// where the values are not width × height.
    pub fn add_junction(&mut self, junction: Junction, values: &[u8]) -> Result<usize, Refusal> {
        let add = |c: &mut Cell| {
            answered(|place| unsafe {
                ffi::ynd_add_junction(
                    &mut c.words,
                    c.junctions.as_mut_ptr().cast(),
                    c.junctions.len(),
                    c.heights.as_mut_ptr(),
                    c.heights.len(),
                    junction.raw(),
                    values.as_ptr(),
                    values.len(),
                    place,
                )
            })
        };
        self.asked(add, |c| {
            grow(&mut c.junctions, c.words.junction_count as usize + 1);
            grow(
                &mut c.heights,
                c.words.heightmap_count as usize + values.len(),
            );
        })?;
        Ok(self.words.junction_count as usize - 1)
    }

    /// Asks first, and lets lists grow only where the call says that they are too short. 7 is the last cause, so what
    /// is refused for another one leaves the lists as long as they were.
    pub(crate) fn asked<T>(
        &mut self,
        call: impl Fn(&mut Cell) -> Result<T, Refusal>,
        room: impl FnOnce(&mut Cell),
    ) -> Result<T, Refusal> {
        match call(self) {
            Err(Refusal::LentTooShort(_)) => {
                room(self);
                call(self)
            }
            answer => answer,
        }
    }

    /// Stores every field of the node at a place; it keeps its links. Refused: 13.
    pub fn put_node(&mut self, at: usize, node: Node) -> Result<(), Refusal> {
        answered(|place| unsafe {
            ffi::ynd_put_node(
                &self.words,
                self.nodes.as_mut_ptr().cast(),
                self.nodes.len(),
                at,
                node.raw(),
                place,
            )
        })
    }

    /// Stores a position, in whole steps, of the node at a place. Refused: 13.
    pub fn set_position(&mut self, at: usize, [x, y, z]: [f32; 3]) -> Result<(), Refusal> {
        answered(|place| unsafe {
            ffi::ynd_set_position(
                &self.words,
                self.nodes.as_mut_ptr().cast(),
                self.nodes.len(),
                at,
                x,
                y,
                z,
                place,
            )
        })
    }

    /// Stores link k of the node at a place. Refused: 13.
    pub fn put_link(&mut self, at: usize, k: usize, link: Link) -> Result<(), Refusal> {
        answered(|place| unsafe {
            ffi::ynd_put_link(
                &self.words,
                self.nodes.as_ptr().cast(),
                self.nodes.len(),
                self.links.as_mut_ptr().cast(),
                self.links.len(),
                at,
                k,
                link.raw(),
                place,
            )
        })
    }

    /// Stores the ref at a place. Refused: 13.
    pub fn put_ref(&mut self, at: usize, put: Ref) -> Result<(), Refusal> {
        answered(|place| unsafe {
            ffi::ynd_put_ref(
                &self.words,
                self.refs.as_mut_ptr().cast(),
                self.refs.len(),
                at,
                put.raw(),
                place,
            )
        })
    }

    /// Stores every field of the junction at a place; it keeps its values. Refused: 13; 12 where width × height is not
    /// what it was.
    pub fn put_junction(&mut self, at: usize, junction: Junction) -> Result<(), Refusal> {
        answered(|place| unsafe {
            ffi::ynd_put_junction(
                &self.words,
                self.junctions.as_mut_ptr().cast(),
                self.junctions.len(),
                at,
                junction.raw(),
                place,
            )
        })
    }

    /// Stores heightmap value k of the junction at a place. Refused: 13.
    pub fn put_height(&mut self, at: usize, k: usize, value: u8) -> Result<(), Refusal> {
        answered(|place| unsafe {
            ffi::ynd_put_height(
                &self.words,
                self.junctions.as_ptr().cast(),
                self.junctions.len(),
                self.heights.as_mut_ptr(),
                self.heights.len(),
                at,
                k,
                value,
                place,
            )
        })
    }
}

/// At least so many entries.
pub(crate) fn grow<T: Clone + Default>(list: &mut Vec<T>, n: usize) {
    if list.len() < n {
        list.resize(n, T::default());
    }
}

#[cfg(test)]
mod tests {
    use super::*;

    fn lengths(c: &Cell) -> [usize; 5] {
        [
            c.nodes.len(),
            c.links.len(),
            c.junctions.len(),
            c.heights.len(),
            c.refs.len(),
        ]
    }

    #[test]
    fn a_refused_edit_leaves_the_lists_as_long_as_they_were() {
        let mut cell = Cell::new();
        cell.add_node(5, [0.0; 3]).unwrap();
        for _ in 0..255 {
            cell.add_link(0, Link::to(5, 0)).unwrap();
        }
        let (before, held) = (cell.clone(), lengths(&cell));
        assert_eq!(cell.add_link(99, Link::to(5, 0)).unwrap_err().number(), 13);
        assert_eq!(cell.add_link(0, Link::to(5, 0)).unwrap_err().number(), 14);
        let wide = Junction {
            width: 200,
            height: 200,
            ..Junction::default()
        };
        assert_eq!(cell.add_junction(wide, &[1; 3]).unwrap_err().number(), 12);
        assert_eq!((lengths(&cell), &cell), (held, &before));
    }

    #[test]
    fn a_full_cell_takes_no_node() {
        let mut cell = Cell::new();
        for _ in 0..65_536 {
            cell.add_node(5, [0.0; 3]).unwrap();
        }
        let held = lengths(&cell);
        assert_eq!(cell.add_node(5, [0.0; 3]).unwrap_err().number(), 14);
        assert_eq!(lengths(&cell), held);
    }
}
