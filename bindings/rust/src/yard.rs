//! Sets of cells whose walks cross from one into another.
use crate::cell::{lay_out, scratch, Cell, SCRATCH};
use crate::edits::grow;
use crate::entries::{places, size, Entry, Junction, Link, Location, Node, Ref};
use crate::member::Member;
use crate::member_edits::MemberMut;
use crate::refusal::{answered, Refusal};
use crate::rounds::{Round, VersionedRound};
use crate::walks::End;
use bofrashem_sys as ffi;
use std::ops::Range;

/// A set of up to nine cells, its members, of at most 65,536 nodes together. A member is named by its place in the
/// order of joining; its area is its cell's own, 0 if it has no node, and no two cells of one area join.
///
/// A walk that crosses ([`Yard::crossing_walk`]) goes the same way after members of a sound yard were renumbered. A
/// plain walk in one cell ([`Cell::walk`]) may then end with another number where it leaves: it isn't protected.
///
/// ```
/// use bofrashem::{Cell, End, Link, Refusal, Yard};
/// let mut cells = [Cell::new(), Cell::new()];
/// for (cell, [own, other]) in cells.iter_mut().zip([[489, 490], [490, 489]]) {
///     cell.add_node(own, [0.0; 3])?;
///     cell.add_link(0, Link::to(other, 0))?;
/// }
/// let mut yard = Yard::new();
/// for cell in &cells { yard.join(cell)?; }
/// assert!(yard.is_sound());
/// assert_eq!(yard.crossing_walk(0, 0, &[0, 0, 0])?.end, End::Done);
/// assert_eq!(cells[0].walk(0, &[0, 0, 0])?.end, End::Left(490, 0));
///
/// let mut member = yard.member_mut(1)?;
/// member.add_node(490, [1.0, 0.0, 0.0])?;
/// assert_eq!(member.look().counts().nodes, 2);
/// assert_eq!(yard.join(&cells[0]), Err(Refusal::AreaInSet));
/// # Ok::<(), Refusal>(())
/// ```
///
/// Parts grow where an edit or a cell that joins needs room. A refused call has grown none.
#[derive(Clone, Debug, Default)]
pub struct Yard {
    // Each list has at least as many entries as the members' parts together.
    pub(crate) members: Vec<Entry>,
    pub(crate) nodes: Vec<Node>,
    pub(crate) links: Vec<Link>,
    pub(crate) junctions: Vec<Junction>,
    pub(crate) heights: Vec<u8>,
    pub(crate) refs: Vec<Ref>,
}

/// A crossing walk: how it ended, and the nodes visited, one more than the links followed.
#[derive(Clone, Debug, PartialEq, Eq)]
#[allow(missing_docs)]
pub struct CrossingWalk {
    pub end: End,
    pub visited: Vec<Location>,
}

impl CrossingWalk {
    fn of(end: ffi::ynd_walk_end, visited: &[ffi::ynd_location]) -> CrossingWalk {
        CrossingWalk {
            end: End::of(end),
            visited: visited.iter().map(|&l| l.into()).collect(),
        }
    }
}

impl Yard {
    /// A set without members.
    pub fn new() -> Yard {
        Yard::default()
    }

    /// How many members there are.
    pub fn len(&self) -> usize {
        self.members.len()
    }

    /// Whether there are none.
    pub fn is_empty(&self) -> bool {
        self.members.is_empty()
    }

    /// A cell joins as the last member, whose place is returned. The cell is copied. Refused: 18 a member has its
    /// area; 14 a tenth member, or more than 65,536 nodes together.
    pub fn join(&mut self, cell: &Cell) -> Result<usize, Refusal> {
        let w = &cell.words;
        let sizes = [
            w.node_count,
            w.link_count,
            w.junction_count,
            w.heightmap_count,
            w.ref_count,
        ]
        .map(|n| n as usize);
        let place = self.members.len();
        self.members.push(Entry::default());
        let mut answer = self.join_as(place, cell, &sizes);
        // 7 is the last cause: what is refused for another one leaves the lists as long as they were
        if let Err(Refusal::LentTooShort(_)) = answer {
            let [nodes, links, junctions, heights, refs] =
                [0, 1, 2, 3, 4].map(|k| self.total(k) + sizes[k]);
            grow(&mut self.nodes, nodes);
            grow(&mut self.links, links);
            grow(&mut self.junctions, junctions);
            grow(&mut self.heights, heights);
            grow(&mut self.refs, refs);
            answer = self.join_as(place, cell, &sizes);
        }
        if answer.is_err() {
            self.members.pop();
        }
        answer.map(|_| place)
    }

    fn join_as(&mut self, mut count: usize, c: &Cell, sizes: &[usize; 5]) -> Result<(), Refusal> {
        answered(|place| unsafe {
            ffi::ynd_set_join(
                &mut count,
                self.members.as_mut_ptr(),
                self.members.len(),
                self.nodes.as_mut_ptr().cast(),
                self.nodes.len(),
                self.links.as_mut_ptr().cast(),
                self.links.len(),
                self.junctions.as_mut_ptr().cast(),
                self.junctions.len(),
                self.heights.as_mut_ptr(),
                self.heights.len(),
                self.refs.as_mut_ptr().cast(),
                self.refs.len(),
                &c.words,
                c.nodes.as_ptr().cast(),
                c.nodes.len(),
                c.links.as_ptr().cast(),
                c.links.len(),
                c.junctions.as_ptr().cast(),
                c.junctions.len(),
                c.heights.as_ptr(),
                c.heights.len(),
                c.refs.as_ptr().cast(),
                c.refs.len(),
                std::ptr::from_ref(sizes).cast(),
                place,
            )
        })
    }

    /// The member of an area leaves, and its cell is handed back. Refused: 13 no member has the area.
    pub fn leave(&mut self, area: u16) -> Result<Cell, Refusal> {
        let cell = self.cell_of(area)?;
        let (mut count, m) = (0, self.members.len());
        answered(|place| unsafe {
            ffi::ynd_set_leave(
                self.members.as_mut_ptr(),
                m,
                self.nodes.as_mut_ptr().cast(),
                self.nodes.len(),
                self.links.as_mut_ptr().cast(),
                self.links.len(),
                self.junctions.as_mut_ptr().cast(),
                self.junctions.len(),
                self.heights.as_mut_ptr(),
                self.heights.len(),
                self.refs.as_mut_ptr().cast(),
                self.refs.len(),
                area,
                &mut count,
                place,
            )
        })?;
        self.members.truncate(count);
        let [nodes, links, junctions, heights, refs] = [0, 1, 2, 3, 4].map(|k| self.total(k));
        self.nodes.truncate(nodes);
        self.links.truncate(links);
        self.junctions.truncate(junctions);
        self.heights.truncate(heights);
        self.refs.truncate(refs);
        Ok(cell)
    }

    /// A copy of the cell that would leave. Refused: 13 no member has the area.
    pub fn cell_of(&self, area: u16) -> Result<Cell, Refusal> {
        let mut c = Cell::new();
        // whichever member it is, it has no more entries than all together
        c.nodes.resize(self.nodes.len(), Node::default());
        c.links.resize(self.links.len(), Link::default());
        c.junctions
            .resize(self.junctions.len(), Junction::default());
        c.heights.resize(self.heights.len(), 0);
        c.refs.resize(self.refs.len(), Ref::default());
        answered(|place| unsafe {
            ffi::ynd_set_hand_back(
                self.members.as_ptr(),
                self.members.len(),
                self.nodes.as_ptr().cast(),
                self.nodes.len(),
                self.links.as_ptr().cast(),
                self.links.len(),
                self.junctions.as_ptr().cast(),
                self.junctions.len(),
                self.heights.as_ptr(),
                self.heights.len(),
                self.refs.as_ptr().cast(),
                self.refs.len(),
                area,
                &mut c.words,
                c.nodes.as_mut_ptr().cast(),
                c.nodes.len(),
                c.links.as_mut_ptr().cast(),
                c.links.len(),
                c.junctions.as_mut_ptr().cast(),
                c.junctions.len(),
                c.heights.as_mut_ptr(),
                c.heights.len(),
                c.refs.as_mut_ptr().cast(),
                c.refs.len(),
                place,
            )
        })?;
        c.nodes.truncate(c.words.node_count as usize);
        c.links.truncate(c.words.link_count as usize);
        c.junctions.truncate(c.words.junction_count as usize);
        c.heights.truncate(c.words.heightmap_count as usize);
        c.refs.truncate(c.words.ref_count as usize);
        Ok(c)
    }

    /// Renumbers a member: ped nodes come last. Links of the other members that name it follow, where it is the first
    /// of its area and they aren't of their own cell; refs of others don't. Returns each node's new place, by its old
    /// one. Refused: 13 no such member.
    pub fn renumber(&mut self, member: usize) -> Result<Vec<usize>, Refusal> {
        let count = self.member(member)?.counts().nodes;
        let (mut scratch, mut new) = (scratch(), vec![0; count]);
        answered(|place| unsafe {
            ffi::ynd_set_renumber(
                self.members.as_mut_ptr(),
                self.members.len(),
                self.nodes.as_mut_ptr().cast(),
                self.nodes.len(),
                self.links.as_mut_ptr().cast(),
                self.links.len(),
                self.junctions.as_ptr().cast(),
                self.junctions.len(),
                self.heights.as_ptr(),
                self.heights.len(),
                self.refs.as_mut_ptr().cast(),
                self.refs.len(),
                scratch.as_mut_ptr(),
                SCRATCH,
                new.as_mut_ptr(),
                new.len(),
                member,
                place,
            )
        })?;
        Ok(places(&new))
    }

    /// Walks from the node at a place of a member; a link that leads out of its cell goes on in the first member of
    /// the area that it names. It ends left where no member has it. Refused: 13 no such member or place.
    pub fn crossing_walk(
        &self,
        member: usize,
        start: usize,
        choices: &[u8],
    ) -> Result<CrossingWalk, Refusal> {
        let mut visited = vec![ffi::ynd_location::default(); choices.len() + 1];
        let (mut end, mut n) = (ffi::ynd_walk_end::default(), 0);
        answered(|place| unsafe {
            ffi::ynd_set_crossing_walk(
                self.members.as_ptr(),
                self.members.len(),
                self.nodes.as_ptr().cast(),
                self.nodes.len(),
                self.links.as_ptr().cast(),
                self.links.len(),
                member,
                start,
                choices.as_ptr(),
                choices.len(),
                visited.as_mut_ptr(),
                visited.len(),
                &mut end,
                &mut n,
                place,
            )
        })?;
        Ok(CrossingWalk::of(end, &visited[..n]))
    }

    /// The member of an area, the first joined of several. An empty member's area is 0.
    pub fn member_of_area(&self, area: u16) -> Option<usize> {
        let (mut found, mut member) = (false, 0);
        unsafe {
            ffi::ynd_set_member_of_area(
                self.members.as_ptr(),
                self.members.len(),
                self.nodes.as_ptr().cast(),
                self.nodes.len(),
                area,
                &mut found,
                &mut member,
            );
        }
        found.then_some(member)
    }

    /// Follows a round across the yard, as [`Yard::crossing_walk`] walks: one with an area from its start number in
    /// the member of that area, one without in the member named. Refused, in this order: 19 no member has the area; 13
    /// no such member, or none of its nodes has the number.
    pub fn follow(
        &self,
        versioned: &VersionedRound,
        member: usize,
    ) -> Result<CrossingWalk, Refusal> {
        let Round { start, choices } = &versioned.round;
        let (version, area) = versioned.version();
        let mut visited = vec![ffi::ynd_location::default(); choices.len() + 1];
        let (mut end, mut n) = (ffi::ynd_walk_end::default(), 0);
        answered(|place| unsafe {
            ffi::ynd_set_follow_round(
                self.members.as_ptr(),
                self.members.len(),
                self.nodes.as_ptr().cast(),
                self.nodes.len(),
                self.links.as_ptr().cast(),
                self.links.len(),
                version,
                area,
                member,
                *start,
                choices.as_ptr(),
                choices.len(),
                visited.as_mut_ptr(),
                visited.len(),
                &mut end,
                &mut n,
                place,
            )
        })?;
        Ok(CrossingWalk::of(end, &visited[..n]))
    }

    /// Whether each member is sound as a cell, and each link that leads into a member names a node there.
    pub fn is_sound(&self) -> bool {
        let (mut scratch, mut sound) = (scratch(), false);
        answered(|place| unsafe {
            ffi::ynd_set_sound(
                self.members.as_ptr(),
                self.members.len(),
                self.nodes.as_ptr().cast(),
                self.nodes.len(),
                self.links.as_ptr().cast(),
                self.links.len(),
                self.refs.as_ptr().cast(),
                self.refs.len(),
                scratch.as_mut_ptr(),
                SCRATCH,
                &mut sound,
                place,
            )
        })
        .expect("the yard's lists hold its members");
        sound
    }

    /// A member as a system section. Refused: 13 no such member; 8 and 9 node by node, 10, 11.
    pub fn write(&self, member: usize) -> Result<Vec<u8>, Refusal> {
        let (mut section, mut length) = (self.section(member)?, 0);
        answered(|place| unsafe {
            ffi::ynd_member_write(
                self.members.as_ptr(),
                self.members.len(),
                self.nodes.as_ptr().cast(),
                self.nodes.len(),
                self.links.as_ptr().cast(),
                self.links.len(),
                self.junctions.as_ptr().cast(),
                self.junctions.len(),
                self.heights.as_ptr(),
                self.heights.len(),
                self.refs.as_ptr().cast(),
                self.refs.len(),
                member,
                section.as_mut_ptr(),
                section.len(),
                &mut length,
                place,
            )
        })?;
        section.truncate(length);
        Ok(section)
    }

    /// Writes a member and reads it back; returns the section. Refused as [`Yard::write`] is, and then no member has
    /// changed.
    pub fn write_then_read(&mut self, member: usize) -> Result<Vec<u8>, Refusal> {
        let (mut section, mut length) = (self.section(member)?, 0);
        answered(|place| unsafe {
            ffi::ynd_member_write_then_read(
                self.members.as_mut_ptr(),
                self.members.len(),
                self.nodes.as_mut_ptr().cast(),
                self.nodes.len(),
                self.links.as_mut_ptr().cast(),
                self.links.len(),
                self.junctions.as_mut_ptr().cast(),
                self.junctions.len(),
                self.heights.as_mut_ptr(),
                self.heights.len(),
                self.refs.as_mut_ptr().cast(),
                self.refs.len(),
                member,
                section.as_mut_ptr(),
                section.len(),
                &mut length,
                place,
            )
        })?;
        section.truncate(length);
        Ok(section)
    }

    /// A section for writing a member, whose nodes' links and junctions' values are counted. Where the member is too
    /// long to be written there is none: writing names the cause. Refused: 13 no such member.
    fn section(&self, member: usize) -> Result<Vec<u8>, Refusal> {
        let w = Member::of(self, member)?.words();
        let nodes = self.nodes[self.part(member, 0)]
            .iter()
            .take(w.node_count as usize);
        let junctions = self.junctions[self.part(member, 2)]
            .iter()
            .take(w.junction_count as usize);
        let links = nodes.map(|n| n.link_count as u32).sum();
        let values = junctions.map(|j| j.width as u32 * j.height as u32).sum();
        let laid_out = lay_out([w.ref_count, values, w.junction_count, links, w.node_count]);
        Ok(vec![0; laid_out.map_or(0, |(_, total)| total)])
    }

    /// A member to look at, by the order of joining. Refused: 13 no such member.
    pub fn member(&self, place: usize) -> Result<Member<'_>, Refusal> {
        Member::of(self, place)
    }

    /// A member to edit. Refused: 13 no such member.
    pub fn member_mut(&mut self, place: usize) -> Result<MemberMut<'_>, Refusal> {
        MemberMut::of(self, place)
    }

    /// How many entries the members' parts of a list have together.
    fn total(&self, list: usize) -> usize {
        self.members.iter().map(|m| size(m, list)).sum()
    }

    /// Where the part of a member in a list stands.
    pub(crate) fn part(&self, member: usize, list: usize) -> Range<usize> {
        let start = self.members[..member].iter().map(|m| size(m, list)).sum();
        start..start + size(&self.members[member], list)
    }
}

#[cfg(test)]
mod tests {
    use super::*;
    use crate::Refusal::{AreaInSet, AtLimit, NoSuchPlace, ValuesNotSize};

    fn lengths(y: &Yard) -> [usize; 6] {
        [
            y.members.len(),
            y.nodes.len(),
            y.links.len(),
            y.junctions.len(),
            y.heights.len(),
            y.refs.len(),
        ]
    }

    /// One node and one link, in lists that are just long enough.
    fn cell(area: u16) -> Cell {
        let mut cell = Cell::new();
        cell.add_node(area, [0.0; 3]).unwrap();
        cell.add_link(0, Link::to(area, 0)).unwrap();
        cell
    }

    #[test]
    fn a_refused_call_leaves_the_lists_as_long_as_they_were() {
        let mut yard = Yard::new();
        for area in [1, 2] {
            yard.join(&cell(area)).unwrap();
        }
        let held = lengths(&yard);
        assert_eq!(yard.join(&cell(2)), Err(AreaInSet));
        let mut m = yard.member_mut(0).unwrap();
        assert_eq!(m.add_link(1, Link::to(1, 0)), Err(NoSuchPlace));
        assert_eq!(m.set_links(0, &[Link::default(); 256]), Err(AtLimit));
        assert_eq!(
            m.add_junction(Junction::new([0.0; 2], [0.0; 2], 200, 200), &[1; 3]),
            Err(ValuesNotSize)
        );
        assert_eq!(m.set_heightmap(0, 1, 1, &[1]), Err(NoSuchPlace));
        assert_eq!(lengths(&yard), held);
    }
}
