//! The records of a section, as stored, and the root's words.
use super::Ynd;
use crate::cell::lay_out;
use crate::{Cell, Ref, Refusal};
use std::mem::{align_of, offset_of, size_of};

/// A node's record. In a [`Ynd`] its five unused fields are left out, and written as zeros.
#[derive(Debug, Clone, Copy, PartialEq, Eq, Default)]
#[allow(missing_docs)]
pub struct Node {
    pub unused0: u32,
    pub unused1: u32,
    pub unused2: u32,
    pub unused3: u32,
    pub area_id: u16,
    pub node_id: u16,
    pub street_name: u32,
    pub unused4: u16,
    /// The place of its first link among the dictionary's links; 0 for a node without links.
    pub link_id: u16,
    /// In quarter metres.
    pub position_x: i16,
    pub position_y: i16,
    pub flags0: u8,
    pub flags1: u8,
    /// In 32nds of a metre.
    pub position_z: i16,
    pub flags2: u8,
    /// The count of links in the upper five bits, flags5 in the low three.
    pub link_count_flags: u8,
    pub flags3: u8,
    pub flags4: u8,
}

/// A link's record.
#[derive(Debug, Clone, Copy, PartialEq, Eq, Default)]
#[allow(missing_docs)]
pub struct NodeLink {
    pub area_id: u16,
    pub node_id: u16,
    pub flags0: u8,
    pub flags1: u8,
    pub flags2: u8,
    pub link_length: u8,
}

/// A junction's record.
#[derive(Debug, Clone, Copy, PartialEq, Eq, Default)]
#[allow(missing_docs)]
pub struct NodeJunction {
    pub max_z: i16,
    pub position_x: i16,
    pub position_y: i16,
    pub min_z: i16,
    /// The place of its first value among the dictionary's heightmap bytes.
    pub heightmap_ptr: u16,
    pub heightmap_dim_x: u8,
    pub heightmap_dim_y: u8,
}

/// A ref: the junction, by place, of the node that has this area and number.
#[repr(C)]
#[derive(Debug, Clone, Copy, PartialEq, Eq, Default)]
#[allow(missing_docs)]
pub struct NodeJunctionRef {
    pub area_id: u16,
    pub node_id: u16,
    pub junction_id: u16,
    pub unk0: u16,
}

// both are laid out as C does, with the same four fields in the same order
const _: () = {
    assert!(size_of::<NodeJunctionRef>() == size_of::<Ref>());
    assert!(align_of::<NodeJunctionRef>() == align_of::<Ref>());
    assert!(offset_of!(NodeJunctionRef, junction_id) == offset_of!(Ref, junction_id));
};

/// The same refs under the wrapper's name.
pub(super) fn entries(refs: &[NodeJunctionRef]) -> &[Ref] {
    unsafe { std::slice::from_raw_parts(refs.as_ptr().cast(), refs.len()) }
}

/// The same, for changing.
pub(super) fn entries_mut(refs: &mut [NodeJunctionRef]) -> &mut [Ref] {
    unsafe { std::slice::from_raw_parts_mut(refs.as_mut_ptr().cast(), refs.len()) }
}

/// The wrapper's refs under this module's name.
pub(super) fn named(refs: &[Ref]) -> &[NodeJunctionRef] {
    unsafe { std::slice::from_raw_parts(refs.as_ptr().cast(), refs.len()) }
}

/// The root's words and the five arrays, as stored.
#[derive(Debug, Clone, PartialEq, Eq)]
#[allow(missing_docs)]
pub struct NodeDictionary {
    pub vft: u32,
    pub nodes_count_vehicle: u32,
    pub nodes_count_ped: u32,
    pub unk24: u32,
    pub unk34: u32,
    pub unk48: u32,
    pub unk4c: u32,
    pub unk5c: u32,
    pub unk68: u32,
    pub unk6c: u32,
    pub nodes: Vec<Node>,
    pub links: Vec<NodeLink>,
    pub junctions: Vec<NodeJunction>,
    pub junction_heightmap_bytes: Vec<u8>,
    pub junction_refs: Vec<NodeJunctionRef>,
}

/// The vft of a new cell.
pub const NODE_DICTIONARY_VFT: u32 = 0x4061_E3B0;

impl Default for NodeDictionary {
    fn default() -> NodeDictionary {
        let empty = Cell::new();
        let words = empty.unknowns();
        NodeDictionary::with_words(empty.vft(), empty.kind_counts(), words)
    }
}

impl Ynd {
    /// The cell that a dictionary means: it is laid out as a section, which is read. Refused: 11 over 65,535 refs; 14
    /// over 65,536 nodes or 4,096 junctions; 2 where the section would be over 16,777,216 bytes; 4 and 5 as reading.
    pub fn from_dictionary(d: &NodeDictionary) -> Result<Ynd, Refusal> {
        Ynd::from_sections(&d.section()?, &[])
    }

    /// The dictionary that the cell is written as. Refused as [`Ynd::to_section`] is.
    pub fn to_dictionary(&self) -> Result<NodeDictionary, Refusal> {
        Ok(NodeDictionary::of_section(&self.to_section()?))
    }
}

/// Bytes in the order of a record, low byte first.
struct Bytes<'a>(&'a [u8]);

impl Bytes<'_> {
    fn take<const N: usize>(&mut self) -> [u8; N] {
        let (taken, rest) = self.0.split_first_chunk().expect("a whole record");
        self.0 = rest;
        *taken
    }

    fn u8(&mut self) -> u8 {
        self.take::<1>()[0]
    }
    fn u16(&mut self) -> u16 {
        u16::from_le_bytes(self.take())
    }
    fn i16(&mut self) -> i16 {
        i16::from_le_bytes(self.take())
    }
    fn u32(&mut self) -> u32 {
        u32::from_le_bytes(self.take())
    }
    fn u64(&mut self) -> u64 {
        u64::from_le_bytes(self.take())
    }
}

/// A record of so many bytes.
trait Record: Sized {
    fn of(b: &mut Bytes<'_>) -> Self;
    fn put(&self, to: &mut Vec<u8>);
}

/// Every field in the order of the record.
macro_rules! record {
    ($kind:ident, $bytes:literal: $($field:ident $number:ident),*) => {
        impl Record for $kind {
            fn of(b: &mut Bytes<'_>) -> $kind { $kind { $($field: b.$number()),* } }
            fn put(&self, to: &mut Vec<u8>) { $(to.extend(self.$field.to_le_bytes());)* }
        }
    };
}

record!(Node, 40: unused0 u32, unused1 u32, unused2 u32, unused3 u32, area_id u16, node_id u16, street_name u32,
    unused4 u16, link_id u16, position_x i16, position_y i16, flags0 u8, flags1 u8, position_z i16, flags2 u8,
    link_count_flags u8, flags3 u8, flags4 u8);
record!(NodeLink, 8: area_id u16, node_id u16, flags0 u8, flags1 u8, flags2 u8, link_length u8);
record!(NodeJunction, 12: max_z i16, position_x i16, position_y i16, min_z i16, heightmap_ptr u16,
    heightmap_dim_x u8, heightmap_dim_y u8);
record!(NodeJunctionRef, 8: area_id u16, node_id u16, junction_id u16, unk0 u16);

impl Record for u8 {
    fn of(b: &mut Bytes<'_>) -> u8 {
        b.u8()
    }
    fn put(&self, to: &mut Vec<u8>) {
        to.push(*self);
    }
}

/// The address of a system section's first byte.
const SYSTEM: u64 = 0x5000_0000;
/// Where a written section has its page block.
const PAGES: u64 = 0x5000_0070;

impl NodeDictionary {
    fn with_words(vft: u32, counts: [u32; 2], unknowns: [u32; 7]) -> NodeDictionary {
        let [nodes_count_vehicle, nodes_count_ped] = counts;
        let [unk24, unk34, unk48, unk4c, unk5c, unk68, unk6c] = unknowns;
        NodeDictionary {
            vft,
            nodes_count_vehicle,
            nodes_count_ped,
            unk24,
            unk34,
            unk48,
            unk4c,
            unk5c,
            unk68,
            unk6c,
            nodes: Vec::new(),
            links: Vec::new(),
            junctions: Vec::new(),
            junction_heightmap_bytes: Vec::new(),
            junction_refs: Vec::new(),
        }
    }

    /// What a written section holds.
    fn of_section(section: &[u8]) -> NodeDictionary {
        let mut c = Bytes(section);
        let (vft, _, _) = (c.u32(), c.u32(), c.u64());
        let (nodes, node_count, kinds, unk24) = (c.u64(), c.u32(), [c.u32(), c.u32()], c.u32());
        let (links, link_count, unk34) = (c.u64(), c.u32(), c.u32());
        let (junctions, heights, unk48, unk4c) = (c.u64(), c.u64(), c.u32(), c.u32());
        let (refs, _, ref_count, unk5c) = (c.u64(), c.u16(), c.u16(), c.u32());
        let (junction_count, height_count, unk68, unk6c) = (c.u32(), c.u32(), c.u32(), c.u32());
        NodeDictionary {
            nodes: array(section, nodes, node_count),
            links: array(section, links, link_count),
            junctions: array(section, junctions, junction_count),
            junction_heightmap_bytes: array(section, heights, height_count),
            junction_refs: array(section, refs, ref_count as u32),
            ..NodeDictionary::with_words(
                vft,
                kinds,
                [unk24, unk34, unk48, unk4c, unk5c, unk68, unk6c],
            )
        }
    }

    /// A section that holds it.
    fn section(&self) -> Result<Vec<u8>, Refusal> {
        let refs = u16::try_from(self.junction_refs.len()).map_err(|_| Refusal::TooManyRefs)?;
        let (heights, junctions) = (
            count(&self.junction_heightmap_bytes)?,
            count(&self.junctions)?,
        );
        let (links, nodes) = (count(&self.links)?, count(&self.nodes)?);
        let (at, total) = lay_out([refs as u32, heights, junctions, links, nodes])?;
        let mut section = Vec::with_capacity(total);
        let mut word = |n: u32| section.extend(n.to_le_bytes());
        let double = |n: u64| [n as u32, (n >> 32) as u32];
        [self.vft, 1]
            .into_iter()
            .chain(double(PAGES))
            .for_each(&mut word);
        double(at.nodes).into_iter().for_each(&mut word);
        [
            nodes,
            self.nodes_count_vehicle,
            self.nodes_count_ped,
            self.unk24,
        ]
        .into_iter()
        .for_each(&mut word);
        double(at.links)
            .into_iter()
            .chain([links, self.unk34])
            .for_each(&mut word);
        double(at.junctions)
            .into_iter()
            .chain(double(at.heightmap))
            .for_each(&mut word);
        [self.unk48, self.unk4c]
            .into_iter()
            .chain(double(at.refs))
            .for_each(&mut word);
        [refs as u32 * 0x1_0001, self.unk5c, junctions, heights]
            .into_iter()
            .for_each(&mut word);
        [self.unk68, self.unk6c].into_iter().for_each(&mut word);
        put(&mut section, at.refs, &self.junction_refs);
        put(&mut section, at.heightmap, &self.junction_heightmap_bytes);
        put(&mut section, at.junctions, &self.junctions);
        put(&mut section, at.links, &self.links);
        put(&mut section, at.nodes, &self.nodes);
        section.resize(total, 0);
        Ok(section)
    }
}

/// A list's length; over 32 bits it is longer than any section.
fn count<T>(list: &[T]) -> Result<u32, Refusal> {
    u32::try_from(list.len()).map_err(|_| Refusal::SectionTooLong(0))
}

/// The records at an address of a written section; 0 is an empty array.
fn array<T: Record>(section: &[u8], address: u64, count: u32) -> Vec<T> {
    let mut bytes = Bytes(&section[address.saturating_sub(SYSTEM) as usize..]);
    (0..count).map(|_| T::of(&mut bytes)).collect()
}

/// The records at an address, which no byte lies behind yet.
fn put<T: Record>(section: &mut Vec<u8>, address: u64, records: &[T]) {
    if records.is_empty() {
        return;
    }
    section.resize((address - SYSTEM) as usize, 0);
    for r in records {
        r.put(section);
    }
}
