//! Edits of one member of a set (T-09), and write-then-read of one.
use super::lent::Filled;
use super::sets::{Member, Set};
use super::words::{self, link_words};
use super::{answer, Junction, Link, Node, Ref, KEPT_PLACE};
use crate::model::{cell, Answer};
use crate::slips;

extern "C" {
    fn ynd_member_add_node(
        members: *mut Member, members_len: usize, nodes: *mut Node, nodes_len: usize, member: usize, area_id: u16,
        x: f32, y: f32, z: f32, place: &mut usize,
    ) -> u32;
    fn ynd_member_put_node(
        members: *const Member, members_len: usize, nodes: *mut Node, nodes_len: usize, member: usize, at: usize,
        node: &Node, place: &mut usize,
    ) -> u32;
    fn ynd_member_set_position(
        members: *const Member, members_len: usize, nodes: *mut Node, nodes_len: usize, member: usize, at: usize,
        x: f32, y: f32, z: f32, place: &mut usize,
    ) -> u32;
    fn ynd_member_add_link(
        members: *mut Member, members_len: usize, nodes: *mut Node, nodes_len: usize, links: *mut Link,
        links_len: usize, member: usize, at: usize, link: &Link, place: &mut usize,
    ) -> u32;
    fn ynd_member_put_links(
        members: *mut Member, members_len: usize, nodes: *mut Node, nodes_len: usize, links: *mut Link,
        links_len: usize, member: usize, at: usize, given: *const Link, given_len: usize, place: &mut usize,
    ) -> u32;
    fn ynd_member_put_link(
        members: *const Member, members_len: usize, nodes: *const Node, nodes_len: usize, links: *mut Link,
        links_len: usize, member: usize, at: usize, k: usize, link: &Link, place: &mut usize,
    ) -> u32;
    fn ynd_member_add_ref(
        members: *mut Member, members_len: usize, refs: *mut Ref, refs_len: usize, member: usize, added: &Ref,
        place: &mut usize,
    ) -> u32;
    fn ynd_member_put_ref(
        members: *const Member, members_len: usize, refs: *mut Ref, refs_len: usize, member: usize, at: usize,
        put: &Ref, place: &mut usize,
    ) -> u32;
    fn ynd_member_add_junction(
        members: *mut Member, members_len: usize, junctions: *mut Junction, junctions_len: usize, heights: *mut u8,
        heights_len: usize, member: usize, junction: &Junction, values: *const u8, values_len: usize,
        place: &mut usize,
    ) -> u32;
    fn ynd_member_put_heightmap(
        members: *mut Member, members_len: usize, junctions: *mut Junction, junctions_len: usize, heights: *mut u8,
        heights_len: usize, member: usize, at: usize, width: u8, height: u8, values: *const u8, values_len: usize,
        place: &mut usize,
    ) -> u32;
    fn ynd_member_put_junction(
        members: *const Member, members_len: usize, junctions: *mut Junction, junctions_len: usize, member: usize,
        at: usize, junction: &Junction, place: &mut usize,
    ) -> u32;
    fn ynd_member_put_height(
        members: *const Member, members_len: usize, junctions: *const Junction, junctions_len: usize,
        heights: *mut u8, heights_len: usize, member: usize, at: usize, k: usize, value: u8, place: &mut usize,
    ) -> u32;
    fn ynd_member_truncate_nodes(
        members: *mut Member, members_len: usize, member: usize, count: usize, place: &mut usize,
    ) -> u32;
    fn ynd_member_truncate_junctions(
        members: *mut Member, members_len: usize, member: usize, count: usize, place: &mut usize,
    ) -> u32;
    fn ynd_member_truncate_refs(
        members: *mut Member, members_len: usize, member: usize, count: usize, place: &mut usize,
    ) -> u32;
    fn ynd_member_put_words(
        members: *mut Member, members_len: usize, member: usize, vft: u32, vehicle_node_count: u32,
        ped_node_count: u32, unknowns: &[u32; 7], place: &mut usize,
    ) -> u32;
    fn ynd_member_write_then_read(
        members: *mut Member, members_len: usize, nodes: *mut Node, nodes_len: usize, links: *mut Link,
        links_len: usize, junctions: *mut Junction, junctions_len: usize, heights: *mut u8, heights_len: usize,
        refs: *mut Ref, refs_len: usize, member: usize, section: *mut u8, section_len: usize, length: &mut usize,
        place: &mut usize,
    ) -> u32;
}

impl Set {
    fn edited(
        &mut self, call: &'static str, member: usize, ask: impl FnOnce(&mut Self, &mut usize) -> u32,
    ) -> Answer<()> {
        let mut place = KEPT_PLACE;
        let number = ask(self, &mut place);
        self.guarded(call);
        let done = answer(number, place, ());
        slips::sets::edited(self, member, &done);
        done
    }

    pub fn add_node(&mut self, member: usize, area: u16, position: [u32; 3]) -> Answer<()> {
        let [x, y, z] = position.map(f32::from_bits);
        let done = self.edited("ynd_member_add_node", member, |s, p| unsafe {
            let (members, nodes) = (s.members.as_mut_ptr(), s.nodes.as_mut_ptr());
            ynd_member_add_node(members, s.count, nodes, s.nodes.len(), member, area, x, y, z, p)
        });
        slips::sets::node_added(self, done)
    }

    /// `range` is rubbish in the place of the node's range, which stays.
    pub fn put_node(&mut self, member: usize, at: usize, node: &cell::Node, range: [u32; 2]) -> Answer<()> {
        let mut w = words::node_words(node, range[0]);
        w[6] = w[6] & 0xFFFF | range[1] << 16;
        self.edited("ynd_member_put_node", member, |s, p| unsafe {
            let (members, nodes) = (s.members.as_ptr(), s.nodes.as_mut_ptr());
            ynd_member_put_node(members, s.count, nodes, s.nodes.len(), member, at, &w, p)
        })
    }

    pub fn set_position(&mut self, member: usize, at: usize, position: [u32; 3]) -> Answer<()> {
        let [x, y, z] = position.map(f32::from_bits);
        self.edited("ynd_member_set_position", member, |s, p| unsafe {
            let (members, nodes) = (s.members.as_ptr(), s.nodes.as_mut_ptr());
            ynd_member_set_position(members, s.count, nodes, s.nodes.len(), member, at, x, y, z, p)
        })
    }

    pub fn add_link(&mut self, member: usize, at: usize, link: &cell::Link) -> Answer<()> {
        let w = link_words(link);
        self.edited("ynd_member_add_link", member, |s, p| unsafe {
            ynd_member_add_link(
                s.members.as_mut_ptr(), s.count, s.nodes.as_mut_ptr(), s.nodes.len(), s.links.as_mut_ptr(),
                s.links.len(), member, at, &w, p,
            )
        })
    }

    pub fn put_links(&mut self, member: usize, at: usize, links: &[cell::Link]) -> Answer<()> {
        let given: Vec<Link> = links.iter().map(link_words).collect();
        self.edited("ynd_member_put_links", member, |s, p| unsafe {
            ynd_member_put_links(
                s.members.as_mut_ptr(), s.count, s.nodes.as_mut_ptr(), s.nodes.len(), s.links.as_mut_ptr(),
                s.links.len(), member, at, given.as_ptr(), given.len(), p,
            )
        })
    }

    pub fn put_link(&mut self, member: usize, at: usize, k: usize, link: &cell::Link) -> Answer<()> {
        let w = link_words(link);
        self.edited("ynd_member_put_link", member, |s, p| unsafe {
            ynd_member_put_link(
                s.members.as_ptr(), s.count, s.nodes.as_ptr(), s.nodes.len(), s.links.as_mut_ptr(), s.links.len(),
                member, at, k, &w, p,
            )
        })
    }

    pub fn add_ref(&mut self, member: usize, r: &cell::Ref) -> Answer<()> {
        let w = words::ref_words(r);
        self.edited("ynd_member_add_ref", member, |s, p| unsafe {
            ynd_member_add_ref(s.members.as_mut_ptr(), s.count, s.refs.as_mut_ptr(), s.refs.len(), member, &w, p)
        })
    }

    pub fn put_ref(&mut self, member: usize, at: usize, r: &cell::Ref) -> Answer<()> {
        let w = words::ref_words(r);
        self.edited("ynd_member_put_ref", member, |s, p| unsafe {
            ynd_member_put_ref(s.members.as_ptr(), s.count, s.refs.as_mut_ptr(), s.refs.len(), member, at, &w, p)
        })
    }

    /// `start` is rubbish: the call says where the values start.
    pub fn add_junction(&mut self, member: usize, j: &cell::Junction, start: u32) -> Answer<()> {
        let w = words::junction_words(j, start);
        self.edited("ynd_member_add_junction", member, |s, p| unsafe {
            ynd_member_add_junction(
                s.members.as_mut_ptr(), s.count, s.junctions.as_mut_ptr(), s.junctions.len(), s.heights.as_mut_ptr(),
                s.heights.len(), member, &w, j.values.as_ptr(), j.values.len(), p,
            )
        })
    }

    pub fn put_heightmap(&mut self, member: usize, at: usize, size: [u8; 2], values: &[u8]) -> Answer<()> {
        self.edited("ynd_member_put_heightmap", member, |s, p| unsafe {
            ynd_member_put_heightmap(
                s.members.as_mut_ptr(), s.count, s.junctions.as_mut_ptr(), s.junctions.len(), s.heights.as_mut_ptr(),
                s.heights.len(), member, at, size[0], size[1], values.as_ptr(), values.len(), p,
            )
        })
    }

    /// `start` is rubbish in the place of the heightmap's start, which stays.
    pub fn put_junction(&mut self, member: usize, at: usize, j: &cell::Junction, start: u32) -> Answer<()> {
        let w = words::junction_words(j, start);
        self.edited("ynd_member_put_junction", member, |s, p| unsafe {
            let (junctions, n) = (s.junctions.as_mut_ptr(), s.junctions.len());
            ynd_member_put_junction(s.members.as_ptr(), s.count, junctions, n, member, at, &w, p)
        })
    }

    pub fn put_height(&mut self, member: usize, at: usize, k: usize, value: u8) -> Answer<()> {
        self.edited("ynd_member_put_height", member, |s, p| unsafe {
            ynd_member_put_height(
                s.members.as_ptr(), s.count, s.junctions.as_ptr(), s.junctions.len(), s.heights.as_mut_ptr(),
                s.heights.len(), member, at, k, value, p,
            )
        })
    }

    /// List 0, 2 or 4: nodes, junctions or refs.
    pub fn truncate(&mut self, member: usize, list: usize, count: usize) -> Answer<()> {
        let cut = [ynd_member_truncate_nodes, ynd_member_truncate_junctions, ynd_member_truncate_refs][list / 2];
        self.edited("ynd_member_truncate", member, |s, p| unsafe {
            cut(s.members.as_mut_ptr(), s.count, member, count, p)
        })
    }

    /// vft, both counts of kinds, the seven unknowns.
    pub fn put_words(&mut self, member: usize, w: [u32; 10]) -> Answer<()> {
        let unknowns = [w[3], w[4], w[5], w[6], w[7], w[8], w[9]];
        self.edited("ynd_member_put_words", member, |s, p| unsafe {
            ynd_member_put_words(s.members.as_mut_ptr(), s.count, member, w[0], w[1], w[2], &unknowns, p)
        })
    }

    /// The length written; what a refusal leaves in it is an answer too.
    pub fn write_then_read(&mut self, member: usize, section: &mut [u8]) -> Answer<usize> {
        let (mut length, mut place, mut to) = (KEPT_PLACE, KEPT_PLACE, Filled::of(section));
        let number = unsafe {
            ynd_member_write_then_read(
                self.members.as_mut_ptr(), self.count, self.nodes.as_mut_ptr(), self.nodes.len(),
                self.links.as_mut_ptr(), self.links.len(), self.junctions.as_mut_ptr(), self.junctions.len(),
                self.heights.as_mut_ptr(), self.heights.len(), self.refs.as_mut_ptr(), self.refs.len(), member,
                to.ptr(), to.len(), &mut length, &mut place,
            )
        };
        to.back("ynd_member_write_then_read", "section");
        self.guarded("ynd_member_write_then_read");
        if number != 0 && length != KEPT_PLACE { return Ok(length); }
        answer(number, place, length)
    }
}
