//! A member of a yard: lookups, entries, and what a walk shows.
use crate::cell::lookup;
use crate::entries::{Junction, Link, Node, Ref, Words};
use crate::read::Counts;
use crate::refusal::{answered, Refusal};
use crate::walks::{SeenJunction, SeenLink, SeenNode};
use crate::yard::Yard;
use bofrashem_sys as ffi;

/// A member of a [`Yard`], to look at.
#[derive(Clone, Copy, Debug)]
pub struct Member<'a> {
    yard: &'a Yard,
    at: usize,
}

impl Member<'_> {
    pub(crate) fn of(yard: &Yard, at: usize) -> Result<Member<'_>, Refusal> {
        if at < yard.len() {
            Ok(Member { yard, at })
        } else {
            Err(Refusal::NoSuchPlace)
        }
    }

    pub(crate) fn words(&self) -> Words {
        let (y, mut words) = (self.yard, Words::default());
        lookup(|place| unsafe {
            ffi::ynd_member_get_cell(y.members.as_ptr(), y.len(), self.at, &mut words, place)
        });
        words
    }

    /// How many entries the member holds. Links and values count also those that no node or junction has any more.
    pub fn counts(&self) -> Counts {
        let w = self.words();
        Counts {
            nodes: w.node_count as usize,
            links: w.link_count as usize,
            junctions: w.junction_count as usize,
            heights: w.heightmap_count as usize,
            refs: w.ref_count as usize,
        }
    }

    /// The root's vft.
    pub fn vft(&self) -> u32 {
        self.words().vft
    }

    /// The counts of nodes that are no ped nodes and of ped nodes: as read, and set by renumbering.
    pub fn kind_counts(&self) -> [u32; 2] {
        [self.words().vehicle_node_count, self.words().ped_node_count]
    }

    /// The root's words unk24, unk34, unk48, unk4c, unk5c, unk68 and unk6c.
    pub fn unknowns(&self) -> [u32; 7] {
        self.words().unknowns
    }

    /// The member's own area: its first node's.
    pub fn area(&self) -> Option<u32> {
        let (y, mut found, mut area) = (self.yard, false, 0);
        lookup(|place| unsafe {
            let (nodes, n) = (y.nodes.as_ptr().cast(), y.nodes.len());
            ffi::ynd_member_area(
                y.members.as_ptr(),
                y.len(),
                nodes,
                n,
                self.at,
                &mut found,
                &mut area,
                place,
            )
        });
        found.then_some(area)
    }

    /// The place of the node that has a number.
    pub fn node(&self, node_id: u16) -> Option<usize> {
        let (y, mut found, mut at) = (self.yard, false, 0);
        lookup(|place| unsafe {
            let (nodes, n) = (y.nodes.as_ptr().cast(), y.nodes.len());
            ffi::ynd_member_node(
                y.members.as_ptr(),
                y.len(),
                nodes,
                n,
                self.at,
                node_id,
                &mut found,
                &mut at,
                place,
            )
        });
        found.then_some(at)
    }

    /// The place of the junction that the refs give to a node.
    pub fn junction_of(&self, area_id: u16, node_id: u16) -> Option<usize> {
        let (y, mut found, mut at) = (self.yard, false, 0);
        lookup(|place| unsafe {
            ffi::ynd_member_junction_of(
                y.members.as_ptr(),
                y.len(),
                y.nodes.as_ptr().cast(),
                y.nodes.len(),
                y.refs.as_ptr().cast(),
                y.refs.len(),
                self.at,
                area_id,
                node_id,
                &mut found,
                &mut at,
                place,
            )
        });
        found.then_some(at)
    }

    /// The node at a place. Refused: 13.
    pub fn get_node(&self, at: usize) -> Result<Node, Refusal> {
        let (y, mut node) = (self.yard, Node::default());
        answered(|place| unsafe {
            let (nodes, n) = (y.nodes.as_ptr().cast(), y.nodes.len());
            ffi::ynd_member_get_node(
                y.members.as_ptr(),
                y.len(),
                nodes,
                n,
                self.at,
                at,
                node.raw_mut(),
                place,
            )
        })?;
        Ok(node)
    }

    /// Link k of the node at a place. Refused: 13.
    pub fn get_link(&self, at: usize, k: usize) -> Result<Link, Refusal> {
        let (y, mut link) = (self.yard, Link::default());
        answered(|place| unsafe {
            ffi::ynd_member_get_link(
                y.members.as_ptr(),
                y.len(),
                y.nodes.as_ptr().cast(),
                y.nodes.len(),
                y.links.as_ptr().cast(),
                y.links.len(),
                self.at,
                at,
                k,
                link.raw_mut(),
                place,
            )
        })?;
        Ok(link)
    }

    /// The ref at a place. Refused: 13.
    pub fn get_ref(&self, at: usize) -> Result<Ref, Refusal> {
        let (y, mut taken) = (self.yard, Ref::default());
        answered(|place| unsafe {
            let (refs, n) = (y.refs.as_ptr().cast(), y.refs.len());
            ffi::ynd_member_get_ref(
                y.members.as_ptr(),
                y.len(),
                refs,
                n,
                self.at,
                at,
                taken.raw_mut(),
                place,
            )
        })?;
        Ok(taken)
    }

    /// The junction at a place. Refused: 13.
    pub fn get_junction(&self, at: usize) -> Result<Junction, Refusal> {
        let (y, mut junction) = (self.yard, Junction::default());
        answered(|place| unsafe {
            let (junctions, n) = (y.junctions.as_ptr().cast(), y.junctions.len());
            ffi::ynd_member_get_junction(
                y.members.as_ptr(),
                y.len(),
                junctions,
                n,
                self.at,
                at,
                junction.raw_mut(),
                place,
            )
        })?;
        Ok(junction)
    }

    /// Heightmap value k of the junction at a place. Refused: 13.
    pub fn get_height(&self, at: usize, k: usize) -> Result<u8, Refusal> {
        let (y, mut value) = (self.yard, 0);
        answered(|place| unsafe {
            ffi::ynd_member_get_height(
                y.members.as_ptr(),
                y.len(),
                y.junctions.as_ptr().cast(),
                y.junctions.len(),
                y.heights.as_ptr(),
                y.heights.len(),
                self.at,
                at,
                k,
                &mut value,
                place,
            )
        })?;
        Ok(value)
    }

    /// What a walk shows of the node at a place. Refused: 13.
    pub fn shown_node(&self, at: usize) -> Result<SeenNode, Refusal> {
        let (y, mut s) = (self.yard, ffi::ynd_seen_node::default());
        answered(|place| unsafe {
            ffi::ynd_member_shown_node(
                y.members.as_ptr(),
                y.len(),
                y.nodes.as_ptr().cast(),
                y.nodes.len(),
                y.links.as_ptr().cast(),
                y.links.len(),
                y.junctions.as_ptr().cast(),
                y.junctions.len(),
                y.refs.as_ptr().cast(),
                y.refs.len(),
                self.at,
                at,
                &mut s,
                place,
            )
        })?;
        Ok(SeenNode::of(s))
    }

    /// What a walk shows of the junction at a place. Refused: 13.
    pub fn shown_junction(&self, at: usize) -> Result<SeenJunction, Refusal> {
        let (y, mut s, mut n) = (self.yard, ffi::ynd_seen_junction::default(), 0);
        let (junctions, j) = (y.junctions.as_ptr().cast(), y.junctions.len());
        answered(|place| unsafe {
            ffi::ynd_member_shown_junction(
                y.members.as_ptr(),
                y.len(),
                junctions,
                j,
                self.at,
                at,
                &mut s,
                place,
            )
        })?;
        let mut values = vec![0; SeenJunction::size(&s)];
        answered(|place| unsafe {
            ffi::ynd_member_shown_values(
                y.members.as_ptr(),
                y.len(),
                junctions,
                j,
                y.heights.as_ptr(),
                y.heights.len(),
                self.at,
                at,
                values.as_mut_ptr(),
                values.len(),
                &mut n,
                place,
            )
        })?;
        values.truncate(n);
        Ok(SeenJunction::of(s, values))
    }

    /// What a walk shows of the link that a byte chooses at a place; none where there is no such link. Refused: 13.
    pub fn shown_link(&self, at: usize, choice: u8) -> Result<Option<SeenLink>, Refusal> {
        let (y, mut s) = (self.yard, ffi::ynd_seen_link::default());
        answered(|place| unsafe {
            ffi::ynd_member_shown_link(
                y.members.as_ptr(),
                y.len(),
                y.nodes.as_ptr().cast(),
                y.nodes.len(),
                y.links.as_ptr().cast(),
                y.links.len(),
                self.at,
                at,
                choice,
                &mut s,
                place,
            )
        })?;
        Ok(SeenLink::of(s))
    }
}
