//! Walks, what they show, and soundness.
use crate::cell::{scratch, Cell, SCRATCH};
use crate::entries::places;
use crate::refusal::{answered, Refusal};
use bofrashem_sys as ffi;

/// How a walk ended.
#[derive(Clone, Copy, Debug, PartialEq, Eq)]
pub enum End {
    /// All choices are used up.
    Done,
    /// A choice beyond the node's links.
    NoLink,
    /// A link to another area: the area and the number that it names.
    Left(u16, u16),
    /// A link to a number that no node has.
    NoNode,
}

/// A walk: how it ended, and the places visited, one more than the links followed.
#[derive(Clone, Debug, PartialEq, Eq)]
#[allow(missing_docs)]
pub struct Walk {
    pub end: End,
    pub visited: Vec<usize>,
}

/// What a walk shows of a node: its position by its bits, its junction by its place.
#[derive(Clone, Copy, Debug, PartialEq, Eq)]
#[allow(missing_docs)]
pub struct SeenNode {
    pub area_id: u16,
    pub street_name: u32,
    pub position: [u32; 3],
    pub flags: [u8; 6],
    pub unused0: u32,
    pub unused1: u32,
    pub unused2: u32,
    pub unused3: u32,
    pub unused4: u16,
    pub link_count: usize,
    pub junction: Option<usize>,
}

/// What a walk shows of a junction: corner and heights by their bits, and its heightmap values.
#[derive(Clone, Debug, PartialEq, Eq)]
#[allow(missing_docs)]
pub struct SeenJunction {
    pub corner: [u32; 2],
    pub min_z: u32,
    pub max_z: u32,
    pub width: u8,
    pub height: u8,
    pub values: Vec<u8>,
}

/// What a walk shows of the link chosen.
#[derive(Clone, Copy, Debug, PartialEq, Eq)]
#[allow(missing_docs)]
pub struct SeenLink {
    pub flags: [u8; 3],
    pub length: u8,
}

impl End {
    /// An end by its words.
    pub(crate) fn of(end: ffi::ynd_walk_end) -> End {
        match end.how {
            ffi::YND_DONE => End::Done,
            ffi::YND_NO_LINK => End::NoLink,
            ffi::YND_LEFT => End::Left(end.area_id as u16, end.node_id as u16),
            _ => End::NoNode,
        }
    }
}

impl Walk {
    /// The end's words, and the places, as many as were visited.
    pub(crate) fn of(end: ffi::ynd_walk_end, visited: Vec<u32>, count: usize) -> Walk {
        Walk {
            end: End::of(end),
            visited: places(&visited[..count]),
        }
    }
}

impl SeenNode {
    pub(crate) fn of(s: ffi::ynd_seen_node) -> SeenNode {
        SeenNode {
            area_id: s.area_id as u16,
            street_name: s.street_name as u32,
            position: [s.x_bits, s.y_bits, s.z_bits].map(|x| x as u32),
            flags: s.flags.map(|x| x as u8),
            unused0: s.unused[0] as u32,
            unused1: s.unused[1] as u32,
            unused2: s.unused[2] as u32,
            unused3: s.unused[3] as u32,
            unused4: s.unused[4] as u16,
            link_count: s.link_count,
            junction: (s.has_junction == 1).then_some(s.junction),
        }
    }
}

impl SeenJunction {
    /// How many values it has.
    pub(crate) fn size(s: &ffi::ynd_seen_junction) -> usize {
        s.width as usize * s.height as usize
    }

    pub(crate) fn of(s: ffi::ynd_seen_junction, values: Vec<u8>) -> SeenJunction {
        let (min_z, max_z, width, height) =
            (s.min_z_bits, s.max_z_bits, s.width as u8, s.height as u8);
        SeenJunction {
            corner: [s.x_bits, s.y_bits],
            min_z,
            max_z,
            width,
            height,
            values,
        }
    }
}

impl SeenLink {
    /// None where nothing was found.
    pub(crate) fn of(s: ffi::ynd_seen_link) -> Option<SeenLink> {
        (s.found == 1).then_some(SeenLink {
            flags: [s.flags0, s.flags1, s.flags2],
            length: s.length,
        })
    }
}

impl Cell {
    /// Walks from the node at a place; each byte chooses a link by its place among the node's links. Refused: 13.
    pub fn walk(&self, start: usize, choices: &[u8]) -> Result<Walk, Refusal> {
        let (mut visited, mut end, mut n) =
            (vec![0; choices.len() + 1], ffi::ynd_walk_end::default(), 0);
        answered(|place| unsafe {
            ffi::ynd_walk(
                &self.words,
                self.nodes.as_ptr().cast(),
                self.nodes.len(),
                self.links.as_ptr().cast(),
                self.links.len(),
                start,
                choices.as_ptr(),
                choices.len(),
                visited.as_mut_ptr(),
                visited.len(),
                &mut end,
                &mut n,
                place,
            )
        })?;
        Ok(Walk::of(end, visited, n))
    }

    /// The same walk, for long ones in a cell that isn't renumbered: an index of the numbers is made first, then each
    /// choice takes what it takes in a renumbered cell. Refused: 13.
    ///
    /// ```
    /// use bofrashem::{Cell, Link, Refusal};
    /// let mut cell = Cell::new();
    /// for x in 0..2 { cell.add_node(489, [x as f32, 0.0, 0.0])?; }
    /// cell.add_link(0, Link::to(489, 1))?;
    /// cell.add_link(1, Link::to(489, 0))?;
    /// let choices = vec![0; 10_000];
    /// assert_eq!(cell.walk_indexed(0, &choices)?, cell.walk(0, &choices)?);
    /// assert_eq!(cell.walk_indexed(2, &choices), Err(Refusal::NoSuchPlace));
    /// # Ok::<(), Refusal>(())
    /// ```
    pub fn walk_indexed(&self, start: usize, choices: &[u8]) -> Result<Walk, Refusal> {
        let (mut visited, mut end, mut n) =
            (vec![0; choices.len() + 1], ffi::ynd_walk_end::default(), 0);
        let mut scratch = scratch();
        answered(|place| unsafe {
            ffi::ynd_walk_indexed(
                &self.words,
                self.nodes.as_ptr().cast(),
                self.nodes.len(),
                self.links.as_ptr().cast(),
                self.links.len(),
                start,
                choices.as_ptr(),
                choices.len(),
                visited.as_mut_ptr(),
                visited.len(),
                scratch.as_mut_ptr(),
                SCRATCH,
                &mut end,
                &mut n,
                place,
            )
        })?;
        Ok(Walk::of(end, visited, n))
    }

    /// Whether all nodes have one area, numbers differ, and each own link and own ref names a node of the cell.
    pub fn is_sound(&self) -> bool {
        let (mut scratch, mut sound) = (scratch(), false);
        answered(|place| unsafe {
            ffi::ynd_sound(
                &self.words,
                self.nodes.as_ptr().cast(),
                self.nodes.len(),
                self.links.as_ptr().cast(),
                self.links.len(),
                self.refs.as_ptr().cast(),
                self.refs.len(),
                scratch.as_mut_ptr(),
                SCRATCH,
                &mut sound,
                place,
            )
        })
        .expect("the cell's lists hold its counts");
        sound
    }

    /// What a walk shows of the node at a place. Refused: 13.
    pub fn shown_node(&self, at: usize) -> Result<SeenNode, Refusal> {
        let mut s = ffi::ynd_seen_node::default();
        answered(|place| unsafe {
            ffi::ynd_shown_node(
                &self.words,
                self.nodes.as_ptr().cast(),
                self.nodes.len(),
                self.links.as_ptr().cast(),
                self.links.len(),
                self.junctions.as_ptr().cast(),
                self.junctions.len(),
                self.refs.as_ptr().cast(),
                self.refs.len(),
                at,
                &mut s,
                place,
            )
        })?;
        Ok(SeenNode::of(s))
    }

    /// What a walk shows of the junction at a place. Refused: 13.
    pub fn shown_junction(&self, at: usize) -> Result<SeenJunction, Refusal> {
        let (mut s, mut n) = (ffi::ynd_seen_junction::default(), 0);
        answered(|place| unsafe {
            ffi::ynd_shown_junction(
                &self.words,
                self.junctions.as_ptr().cast(),
                self.junctions.len(),
                at,
                &mut s,
                place,
            )
        })?;
        let mut values = vec![0; SeenJunction::size(&s)];
        answered(|place| unsafe {
            ffi::ynd_shown_values(
                &self.words,
                self.junctions.as_ptr().cast(),
                self.junctions.len(),
                self.heights.as_ptr(),
                self.heights.len(),
                at,
                values.as_mut_ptr(),
                values.len(),
                &mut n,
                place,
            )
        })?;
        values.truncate(n);
        Ok(SeenJunction::of(s, values))
    }

    /// What a walk shows of the link that a byte chooses at a place; none where there is no such link. Refused: 13.
    pub fn shown_link(&self, at: usize, choice: u8) -> Result<Option<SeenLink>, Refusal> {
        let mut s = ffi::ynd_seen_link::default();
        answered(|place| unsafe {
            ffi::ynd_shown_link(
                &self.words,
                self.nodes.as_ptr().cast(),
                self.nodes.len(),
                self.links.as_ptr().cast(),
                self.links.len(),
                at,
                choice,
                &mut s,
                place,
            )
        })?;
        Ok(SeenLink::of(s))
    }
}
