//! A cell in the port's memory: fifteen words and five lent lists, with rubbish beyond the counts.
use super::lent::{hold, watching, Lent};
use super::words::{junction, junction_ref, junction_words, link, link_range, link_words, node, node_words, ref_words};
use super::words::value_range;
use crate::inputs::rng::Rng;
use crate::model::cell::{Cell, Junction, Node};
use std::ops::Range;

/// The five lists, as a set.
pub const NODES: u8 = 1;
pub const LINKS: u8 = 2;
pub const JUNCTIONS: u8 = 4;
pub const HEIGHTS: u8 = 8;
pub const REFS: u8 = 16;
pub const ALL: u8 = 31;

#[derive(Debug, Clone, PartialEq, Eq, Default)]
pub struct Memory {
    pub ynd: [u32; 15],
    pub nodes: Lent<[u32; 13]>,
    pub links: Lent<[u16; 4]>,
    pub junctions: Lent<[u32; 6]>,
    pub heights: Lent<u8>,
    pub refs: Lent<[u16; 4]>,
}

impl Memory {
    /// Lists of so many entries and words that mean nothing.
    pub fn rubbish(r: &mut Rng, lent: [usize; 5]) -> Memory {
        Memory {
            ynd: [0; 15].map(|_| r.u32()),
            nodes: (0..lent[0]).map(|_| [0; 13].map(|_| r.u32())).collect(),
            links: (0..lent[1]).map(|_| [0; 4].map(|_| r.u16())).collect(),
            junctions: (0..lent[2]).map(|_| [0; 6].map(|_| r.u32())).collect(),
            heights: Lent::of(&r.bytes(lent[3])),
            refs: (0..lent[4]).map(|_| [0; 4].map(|_| r.u16())).collect(),
        }
    }

    /// The cell in lists of so many entries.
    pub fn of(r: &mut Rng, cell: &Cell, lent: [usize; 5]) -> Memory { Memory::rubbish(r, lent).with(cell) }

    /// The cell laid over the first entries, links in node order, heightmaps in junction order; later entries stay.
    pub fn with(mut self, cell: &Cell) -> Memory {
        let (mut links, mut values) = (0, 0);
        for (i, n) in cell.nodes.iter().enumerate() {
            self.nodes[i] = node_words(n, links as u32);
            for l in &n.links { self.links[links] = link_words(l); links += 1; }
        }
        for (i, j) in cell.junctions.iter().enumerate() {
            self.junctions[i] = junction_words(j, values as u32);
            for v in &j.values { self.heights[values] = *v; values += 1; }
        }
        for (i, x) in cell.refs.iter().enumerate() { self.refs[i] = ref_words(x); }
        let [a, b, c, d, e, f, g] = cell.unknowns;
        let [n, l, j, h, x] = cell.counts().map(|n| n as u32);
        self.ynd = [cell.vft, cell.vehicle_node_count, cell.ped_node_count, a, b, c, d, e, f, g, n, l, j, h, x];
        self
    }

    /// Entries held: nodes, links, junctions, heightmap values, refs.
    pub fn counts(&self) -> [usize; 5] { [10, 11, 12, 13, 14].map(|i| self.ynd[i] as usize) }

    pub fn lent(&self) -> [usize; 5] {
        [self.nodes.len(), self.links.len(), self.junctions.len(), self.heights.len(), self.refs.len()]
    }

    /// The lists, cut to the counts.
    pub fn held(&self) -> [usize; 5] {
        let (counts, lent) = (self.counts(), self.lent());
        [0, 1, 2, 3, 4].map(|i| counts[i].min(lent[i]))
    }

    /// The cell that stands here. A range that leaves its list is cut.
    pub fn cell(&self) -> Cell {
        let [n, l, j, h, x] = self.held();
        let (links, heights) = (&self.links[..l], &self.heights[..h]);
        Cell {
            vft: self.ynd[0],
            vehicle_node_count: self.ynd[1],
            ped_node_count: self.ynd[2],
            unknowns: self.ynd[3..10].try_into().unwrap(),
            nodes: self.nodes[..n].iter()
                .map(|w| Node { links: links[cut(link_range(w), l)].iter().map(link).collect(), ..node(w) })
                .collect(),
            junctions: self.junctions[..j].iter()
                .map(|w| Junction { values: heights[cut(value_range(w), h)].to_vec(), ..junction(w) })
                .collect(),
            refs: self.refs[..x].iter().map(junction_ref).collect(),
        }
    }

    /// The entries from so many on.
    pub fn beyond(&self, [n, l, j, h, x]: [usize; 5]) -> Memory {
        Memory {
            ynd: [0; 15],
            nodes: Lent::of(&self.nodes[n..]),
            links: Lent::of(&self.links[l..]),
            junctions: Lent::of(&self.junctions[j..]),
            heights: Lent::of(&self.heights[h..]),
            refs: Lent::of(&self.refs[x..]),
        }
    }

    /// The struct and the lists that a call is lent for reading only, as they are before it.
    pub fn keep(&self, lists: u8) -> Option<Memory> {
        if !watching() { return None; }
        let mut kept = Memory { ynd: self.ynd, ..Memory::default() };
        if lists & NODES > 0 { kept.nodes = self.nodes.clone(); }
        if lists & LINKS > 0 { kept.links = self.links.clone(); }
        if lists & JUNCTIONS > 0 { kept.junctions = self.junctions.clone(); }
        if lists & HEIGHTS > 0 { kept.heights = self.heights.clone(); }
        if lists & REFS > 0 { kept.refs = self.refs.clone(); }
        Some(kept)
    }

    /// Holds a call to these lists as they were, and to the guards of all.
    pub fn stays(&self, call: &'static str, lists: u8, kept: Option<Memory>) {
        let Some(kept) = kept else { return };
        let [n, l, j, h, x] = [NODES, LINKS, JUNCTIONS, HEIGHTS, REFS].map(|list| lists & list == 0);
        hold(self.nodes.guarded() && (n || self.nodes == kept.nodes), call, "nodes");
        hold(self.links.guarded() && (l || self.links == kept.links), call, "links");
        hold(self.junctions.guarded() && (j || self.junctions == kept.junctions), call, "junctions");
        hold(self.heights.guarded() && (h || self.heights == kept.heights), call, "heightmap values");
        hold(self.refs.guarded() && (x || self.refs == kept.refs), call, "refs");
    }

    /// A list cut to so many entries.
    pub fn shorten(&mut self, list: usize, to: usize) {
        match list {
            0 => self.nodes.truncate(to),
            1 => self.links.truncate(to),
            2 => self.junctions.truncate(to),
            3 => self.heights.truncate(to),
            _ => self.refs.truncate(to),
        }
    }

    /// Whether the ranges of the nodes, and those of the junctions, are all entries, each once.
    pub fn without_holes(&self) -> bool {
        let [n, l, j, h, _] = self.held();
        whole(self.nodes[..n].iter().map(link_range), l) && whole(self.junctions[..j].iter().map(value_range), h)
    }
}

/// Ranges that cover 0 up to the count, each entry once; empty ones may be anywhere.
fn whole(ranges: impl Iterator<Item = (usize, usize)>, count: usize) -> bool {
    let mut all: Vec<(usize, usize)> = ranges.filter(|r| r.1 > 0).collect();
    all.sort();
    let mut end = 0;
    for (start, n) in all { if start != end { return false; } end += n; }
    end == count
}

/// A range of start and count, cut to a list's length.
fn cut((start, count): (usize, usize), length: usize) -> Range<usize> {
    start.min(length)..(start + count).min(length)
}
