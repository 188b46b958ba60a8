//! Edits of a member of a yard. Its parts grow as they need to.
use crate::entries::{add_to_size, Junction, Link, Node, Ref};
use crate::member::Member;
use crate::refusal::{answered, Refusal};
use crate::yard::Yard;
use bofrashem_sys as ffi;

/// A member of a [`Yard`], to edit. The other members stay as they are.
#[derive(Debug)]
pub struct MemberMut<'a> {
    yard: &'a mut Yard,
    at: usize,
}

impl MemberMut<'_> {
    pub(crate) fn of(yard: &mut Yard, at: usize) -> Result<MemberMut<'_>, Refusal> {
        if at < yard.len() {
            Ok(MemberMut { yard, at })
        } else {
            Err(Refusal::NoSuchPlace)
        }
    }

    /// The same member, to look at.
    pub fn look(&self) -> Member<'_> {
        Member::of(self.yard, self.at).expect("a member stays")
    }

    /// Adds a node behind all others, its position in whole steps; its number is its place, which is returned.
    /// Refused: 14 where the yard has 65,536 nodes together.
    pub fn add_node(&mut self, area_id: u16, [x, y, z]: [f32; 3]) -> Result<usize, Refusal> {
        let at = self.look().counts().nodes;
        self.asked(&[(0, at + 1)], |s, m| {
            answered(|place| unsafe {
                let (members, count) = (s.members.as_mut_ptr(), s.members.len());
                ffi::ynd_member_add_node(
                    members,
                    count,
                    s.nodes.as_mut_ptr().cast(),
                    s.nodes.len(),
                    m,
                    area_id,
                    x,
                    y,
                    z,
                    place,
                )
            })
        })?;
        Ok(at)
    }

    /// Adds a link, the last of the node at a place. Refused: 13; 14 at 255 links of the node.
    pub fn add_link(&mut self, at: usize, link: Link) -> Result<(), Refusal> {
        let need = self.look().counts().links + 1;
        self.asked(&[(1, need)], |s, m| {
            answered(|place| unsafe {
                ffi::ynd_member_add_link(
                    s.members.as_mut_ptr(),
                    s.members.len(),
                    s.nodes.as_mut_ptr().cast(),
                    s.nodes.len(),
                    s.links.as_mut_ptr().cast(),
                    s.links.len(),
                    m,
                    at,
                    link.raw(),
                    place,
                )
            })
        })
    }

    /// The links of the node at a place are these, in their order. Refused: 13; 14 over 255 links.
    pub fn set_links(&mut self, at: usize, given: &[Link]) -> Result<(), Refusal> {
        let need = self.look().counts().links + given.len();
        self.asked(&[(1, need)], |s, m| {
            answered(|place| unsafe {
                ffi::ynd_member_put_links(
                    s.members.as_mut_ptr(),
                    s.members.len(),
                    s.nodes.as_mut_ptr().cast(),
                    s.nodes.len(),
                    s.links.as_mut_ptr().cast(),
                    s.links.len(),
                    m,
                    at,
                    given.as_ptr().cast(),
                    given.len(),
                    place,
                )
            })
        })
    }

    /// Adds a ref behind all others.
    pub fn add_ref(&mut self, added: Ref) -> Result<(), Refusal> {
        let need = self.look().counts().refs + 1;
        self.asked(&[(4, need)], |s, m| {
            answered(|place| unsafe {
                let (members, count) = (s.members.as_mut_ptr(), s.members.len());
                ffi::ynd_member_add_ref(
                    members,
                    count,
                    s.refs.as_mut_ptr().cast(),
                    s.refs.len(),
                    m,
                    added.raw(),
                    place,
                )
            })
        })
    }

    /// Adds a junction with its heightmap values, row by row; returns its place. Refused: 14 at 4,096 junctions; 12
    /// where the values are not width × height.
    pub fn add_junction(&mut self, junction: Junction, values: &[u8]) -> Result<usize, Refusal> {
        let held = self.look().counts();
        self.asked(
            &[(2, held.junctions + 1), (3, held.heights + values.len())],
            |s, m| {
                answered(|place| unsafe {
                    ffi::ynd_member_add_junction(
                        s.members.as_mut_ptr(),
                        s.members.len(),
                        s.junctions.as_mut_ptr().cast(),
                        s.junctions.len(),
                        s.heights.as_mut_ptr(),
                        s.heights.len(),
                        m,
                        junction.raw(),
                        values.as_ptr(),
                        values.len(),
                        place,
                    )
                })
            },
        )?;
        Ok(held.junctions)
    }

    /// The heightmap of the junction at a place is this one, row by row. Refused: 13; 12 where the values are not
    /// width × height.
    pub fn set_heightmap(
        &mut self,
        at: usize,
        width: u8,
        height: u8,
        values: &[u8],
    ) -> Result<(), Refusal> {
        let need = self.look().counts().heights + values.len();
        self.asked(&[(3, need)], |s, m| {
            answered(|place| unsafe {
                ffi::ynd_member_put_heightmap(
                    s.members.as_mut_ptr(),
                    s.members.len(),
                    s.junctions.as_mut_ptr().cast(),
                    s.junctions.len(),
                    s.heights.as_mut_ptr(),
                    s.heights.len(),
                    m,
                    at,
                    width,
                    height,
                    values.as_ptr(),
                    values.len(),
                    place,
                )
            })
        })
    }

    /// Stores every field of the node at a place; it keeps its links. Refused: 13.
    pub fn put_node(&mut self, at: usize, node: Node) -> Result<(), Refusal> {
        let s = &mut *self.yard;
        answered(|place| unsafe {
            let (members, count) = (s.members.as_ptr(), s.members.len());
            ffi::ynd_member_put_node(
                members,
                count,
                s.nodes.as_mut_ptr().cast(),
                s.nodes.len(),
                self.at,
                at,
                node.raw(),
                place,
            )
        })
    }

    /// Stores a position, in whole steps, of the node at a place. Refused: 13.
    pub fn set_position(&mut self, at: usize, [x, y, z]: [f32; 3]) -> Result<(), Refusal> {
        let s = &mut *self.yard;
        answered(|place| unsafe {
            let (nodes, n) = (s.nodes.as_mut_ptr().cast(), s.nodes.len());
            ffi::ynd_member_set_position(
                s.members.as_ptr(),
                s.members.len(),
                nodes,
                n,
                self.at,
                at,
                x,
                y,
                z,
                place,
            )
        })
    }

    /// Stores link k of the node at a place. Refused: 13.
    pub fn put_link(&mut self, at: usize, k: usize, link: Link) -> Result<(), Refusal> {
        let s = &mut *self.yard;
        answered(|place| unsafe {
            ffi::ynd_member_put_link(
                s.members.as_ptr(),
                s.members.len(),
                s.nodes.as_ptr().cast(),
                s.nodes.len(),
                s.links.as_mut_ptr().cast(),
                s.links.len(),
                self.at,
                at,
                k,
                link.raw(),
                place,
            )
        })
    }

    /// Stores the ref at a place. Refused: 13.
    pub fn put_ref(&mut self, at: usize, put: Ref) -> Result<(), Refusal> {
        let s = &mut *self.yard;
        answered(|place| unsafe {
            let (members, count) = (s.members.as_ptr(), s.members.len());
            ffi::ynd_member_put_ref(
                members,
                count,
                s.refs.as_mut_ptr().cast(),
                s.refs.len(),
                self.at,
                at,
                put.raw(),
                place,
            )
        })
    }

    /// Stores every field of the junction at a place; it keeps its values. Refused: 13; 12 where width × height is not
    /// what it was.
    pub fn put_junction(&mut self, at: usize, junction: Junction) -> Result<(), Refusal> {
        let s = &mut *self.yard;
        answered(|place| unsafe {
            let (members, m) = (s.members.as_ptr(), s.members.len());
            let (junctions, n) = (s.junctions.as_mut_ptr().cast(), s.junctions.len());
            ffi::ynd_member_put_junction(
                members,
                m,
                junctions,
                n,
                self.at,
                at,
                junction.raw(),
                place,
            )
        })
    }

    /// Stores heightmap value k of the junction at a place. Refused: 13.
    pub fn put_height(&mut self, at: usize, k: usize, value: u8) -> Result<(), Refusal> {
        let s = &mut *self.yard;
        answered(|place| unsafe {
            ffi::ynd_member_put_height(
                s.members.as_ptr(),
                s.members.len(),
                s.junctions.as_ptr().cast(),
                s.junctions.len(),
                s.heights.as_mut_ptr(),
                s.heights.len(),
                self.at,
                at,
                k,
                value,
                place,
            )
        })
    }

    /// The first nodes stay. Refused: 13 where there are fewer.
    pub fn truncate_nodes(&mut self, count: usize) -> Result<(), Refusal> {
        let s = &mut *self.yard;
        answered(|place| unsafe {
            ffi::ynd_member_truncate_nodes(
                s.members.as_mut_ptr(),
                s.members.len(),
                self.at,
                count,
                place,
            )
        })
    }

    /// The first junctions stay. Refused: 13 where there are fewer.
    pub fn truncate_junctions(&mut self, count: usize) -> Result<(), Refusal> {
        let s = &mut *self.yard;
        answered(|place| unsafe {
            ffi::ynd_member_truncate_junctions(
                s.members.as_mut_ptr(),
                s.members.len(),
                self.at,
                count,
                place,
            )
        })
    }

    /// The first refs stay. Refused: 13 where there are fewer.
    pub fn truncate_refs(&mut self, count: usize) -> Result<(), Refusal> {
        let s = &mut *self.yard;
        answered(|place| unsafe {
            ffi::ynd_member_truncate_refs(
                s.members.as_mut_ptr(),
                s.members.len(),
                self.at,
                count,
                place,
            )
        })
    }

    /// Stores the root's vft, the counts of nodes that are no ped nodes and of ped nodes (renumbering sets both), and
    /// the words unk24, unk34, unk48, unk4c, unk5c, unk68 and unk6c.
    pub fn put_words(
        &mut self,
        vft: u32,
        [vehicles, peds]: [u32; 2],
        unknowns: [u32; 7],
    ) -> Result<(), Refusal> {
        let s = &mut *self.yard;
        answered(|place| unsafe {
            let (members, count) = (s.members.as_mut_ptr(), s.members.len());
            ffi::ynd_member_put_words(
                members, count, self.at, vft, vehicles, peds, &unknowns, place,
            )
        })
    }

    /// Asks first, and lets parts (a list, and how many entries are needed) grow only where the call says that they
    /// are too short. 7 is the last cause, so what is refused for another one leaves them as long as they were.
    fn asked(
        &mut self,
        needs: &[(usize, usize)],
        call: impl Fn(&mut Yard, usize) -> Result<(), Refusal>,
    ) -> Result<(), Refusal> {
        match call(self.yard, self.at) {
            Err(Refusal::LentTooShort(_)) => {
                for &(list, need) in needs {
                    self.grow(list, need)
                }
                call(self.yard, self.at)
            }
            answer => answer,
        }
    }

    /// The member's part of a list has at least so many entries, and half as many more for what is yet to come.
    fn grow(&mut self, list: usize, need: usize) {
        let part = self.yard.part(self.at, list);
        if need <= part.len() {
            return;
        }
        let (at, more) = (part.end, need - part.len() + need / 2);
        let s = &mut *self.yard;
        match list {
            0 => insert(&mut s.nodes, at, more),
            1 => insert(&mut s.links, at, more),
            2 => insert(&mut s.junctions, at, more),
            3 => insert(&mut s.heights, at, more),
            _ => insert(&mut s.refs, at, more),
        }
        add_to_size(&mut s.members[self.at], list, more);
    }
}

/// So many entries before the one at a place.
fn insert<T: Clone + Default>(list: &mut Vec<T>, at: usize, more: usize) {
    list.splice(at..at, vec![T::default(); more]);
}
