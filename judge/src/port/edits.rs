//! Entries added and stored.
use super::lent::Shown;
use super::memory::{Memory, JUNCTIONS, NODES};
use super::words;
use super::{answer, Junction, Link, Node, Ref, KEPT_PLACE};
use crate::model::{cell, Answer};
use crate::slips;

extern "C" {
    fn ynd_add_node(
        ynd: *mut u32, nodes: *mut Node, node_count: usize, area_id: u16, x: f32, y: f32, z: f32, place: &mut usize,
    ) -> u32;
    fn ynd_add_link(
        ynd: *mut u32, nodes: *mut Node, node_count: usize, links: *mut Link, link_count: usize, at: usize,
        link: *const Link, place: &mut usize,
    ) -> u32;
    fn ynd_add_ref(ynd: *mut u32, refs: *mut Ref, ref_count: usize, added: *const Ref, place: &mut usize) -> u32;
    fn ynd_add_junction(
        ynd: *mut u32, junctions: *mut Junction, junction_count: usize, heights: *mut u8, height_count: usize,
        junction: *const Junction, values: *const u8, value_count: usize, place: &mut usize,
    ) -> u32;
    fn ynd_put_node(
        ynd: *const u32, nodes: *mut Node, node_count: usize, at: usize, node: *const Node, place: &mut usize,
    ) -> u32;
    fn ynd_set_position(
        ynd: *const u32, nodes: *mut Node, node_count: usize, at: usize, x: f32, y: f32, z: f32, place: &mut usize,
    ) -> u32;
    fn ynd_put_link(
        ynd: *const u32, nodes: *const Node, node_count: usize, links: *mut Link, link_count: usize, at: usize,
        k: usize, link: *const Link, place: &mut usize,
    ) -> u32;
    fn ynd_put_ref(
        ynd: *const u32, refs: *mut Ref, ref_count: usize, at: usize, put: *const Ref, place: &mut usize,
    ) -> u32;
    fn ynd_put_junction(
        ynd: *const u32, junctions: *mut Junction, junction_count: usize, at: usize, junction: *const Junction,
        place: &mut usize,
    ) -> u32;
    fn ynd_put_height(
        ynd: *const u32, junctions: *const Junction, junction_count: usize, heights: *mut u8, height_count: usize,
        at: usize, k: usize, value: u8, place: &mut usize,
    ) -> u32;
}

impl Memory {
    /// A call that adds: it gets the struct to change; the entry that is added stays as it was lent.
    fn added(&mut self, call: &'static str, ask: impl FnOnce(&mut Self, &mut usize) -> u32) -> Answer<()> {
        let (kept, mut place) = (self.keep(0), KEPT_PLACE);
        let number = ask(self, &mut place);
        self.stays(call, 0, kept);
        answer(number, place, ())
    }

    /// A call that stores: the struct and these lists are lent for reading only.
    fn put(
        &mut self, call: &'static str, lists: u8, ask: impl FnOnce(&mut Self, *const u32, &mut usize) -> u32,
    ) -> Answer<()> {
        let (kept, mut place, words) = (self.keep(lists), KEPT_PLACE, self.ynd);
        let mut ynd = Shown::of(&words);
        let number = ask(self, ynd.ptr(), &mut place);
        ynd.stays(call, "struct");
        self.stays(call, lists, kept);
        answer(number, place, ())
    }

    pub fn add_node(&mut self, area_id: u16, position: [u32; 3]) -> Answer<()> {
        let [x, y, z] = position.map(f32::from_bits);
        self.added("ynd_add_node", |m, p| unsafe {
            ynd_add_node(m.ynd.as_mut_ptr(), m.nodes.as_mut_ptr(), m.nodes.len(), area_id, x, y, z, p)
        })
    }

    pub fn add_link(&mut self, at: usize, link: &cell::Link) -> Answer<()> {
        let words = [words::link_words(link)];
        let mut given = Shown::of(&words);
        let before = slips::before(self);
        let done = self.added("ynd_add_link", |m, p| unsafe {
            let (n, l) = (m.nodes.len(), m.links.len());
            ynd_add_link(m.ynd.as_mut_ptr(), m.nodes.as_mut_ptr(), n, m.links.as_mut_ptr(), l, at, given.ptr(), p)
        });
        given.stays("ynd_add_link", "link");
        slips::edits::link_added(before, self, at, done)
    }

    pub fn add_ref(&mut self, r: &cell::Ref) -> Answer<()> {
        let words = [words::ref_words(r)];
        let mut given = Shown::of(&words);
        let done = self.added("ynd_add_ref", |m, p| unsafe {
            ynd_add_ref(m.ynd.as_mut_ptr(), m.refs.as_mut_ptr(), m.refs.len(), given.ptr(), p)
        });
        given.stays("ynd_add_ref", "ref");
        done
    }

    /// `start` is rubbish: the call says where the values start.
    pub fn add_junction(&mut self, j: &cell::Junction, start: u32) -> Answer<()> {
        let words = [words::junction_words(j, start)];
        let (mut given, mut values) = (Shown::of(&words), Shown::of(&j.values));
        let done = self.added("ynd_add_junction", |m, p| unsafe {
            let (n, h) = (m.junctions.len(), m.heights.len());
            let (to, heights) = (m.junctions.as_mut_ptr(), m.heights.as_mut_ptr());
            ynd_add_junction(m.ynd.as_mut_ptr(), to, n, heights, h, given.ptr(), values.ptr(), values.len(), p)
        });
        given.stays("ynd_add_junction", "junction");
        values.stays("ynd_add_junction", "values");
        slips::edits::junction_added(self, done)
    }

    /// `range` is rubbish in the place of the node's range, which stays.
    pub fn put_node(&mut self, at: usize, node: &cell::Node, range: [u32; 2]) -> Answer<()> {
        let mut words = [words::node_words(node, range[0])];
        words[0][6] = words[0][6] & 0xFFFF | range[1] << 16;
        let mut given = Shown::of(&words);
        let done = self.put("ynd_put_node", 0, |m, y, p| unsafe {
            ynd_put_node(y, m.nodes.as_mut_ptr(), m.nodes.len(), at, given.ptr(), p)
        });
        given.stays("ynd_put_node", "node");
        slips::edits::node_put(self, at, &words[0], done)
    }

    pub fn set_position(&mut self, at: usize, position: [u32; 3]) -> Answer<()> {
        let [x, y, z] = position.map(f32::from_bits);
        self.put("ynd_set_position", 0, |m, w, p| unsafe {
            ynd_set_position(w, m.nodes.as_mut_ptr(), m.nodes.len(), at, x, y, z, p)
        })
    }

    pub fn put_link(&mut self, at: usize, k: usize, link: &cell::Link) -> Answer<()> {
        let words = [words::link_words(link)];
        let mut given = Shown::of(&words);
        let done = self.put("ynd_put_link", NODES, |m, y, p| unsafe {
            let (n, l) = (m.nodes.len(), m.links.len());
            ynd_put_link(y, m.nodes.as_ptr(), n, m.links.as_mut_ptr(), l, at, k, given.ptr(), p)
        });
        given.stays("ynd_put_link", "link");
        done
    }

    pub fn put_ref(&mut self, at: usize, r: &cell::Ref) -> Answer<()> {
        let words = [words::ref_words(r)];
        let mut given = Shown::of(&words);
        let done = self.put("ynd_put_ref", 0, |m, y, p| unsafe {
            ynd_put_ref(y, m.refs.as_mut_ptr(), m.refs.len(), at, given.ptr(), p)
        });
        given.stays("ynd_put_ref", "ref");
        done
    }

    /// `start` is rubbish in the place of the heightmap's start, which stays.
    pub fn put_junction(&mut self, at: usize, j: &cell::Junction, start: u32) -> Answer<()> {
        let words = [words::junction_words(j, start)];
        let mut given = Shown::of(&words);
        let done = self.put("ynd_put_junction", 0, |m, y, p| unsafe {
            ynd_put_junction(y, m.junctions.as_mut_ptr(), m.junctions.len(), at, given.ptr(), p)
        });
        given.stays("ynd_put_junction", "junction");
        done
    }

    pub fn put_height(&mut self, at: usize, k: usize, value: u8) -> Answer<()> {
        self.put("ynd_put_height", JUNCTIONS, |m, y, p| unsafe {
            let (n, h) = (m.junctions.len(), m.heights.len());
            ynd_put_height(y, m.junctions.as_ptr(), n, m.heights.as_mut_ptr(), h, at, k, value, p)
        })
    }
}
