//! The cell of section 4. Coordinates are f32 bits, with one NaN.

#[derive(Debug, Clone, Copy, PartialEq, Eq, Default)]
pub struct Link {
    pub area_id: u16,
    pub node_id: u16,
    pub flags: [u8; 3],
    pub length: u8,
}

#[derive(Debug, Clone, PartialEq, Eq, Default)]
pub struct Node {
    pub area_id: u16,
    pub node_id: u16,
    pub street_name: u32,
    pub position: [u32; 3],
    /// flags0 to flags5.
    pub flags: [u8; 6],
    /// unused0 to unused4, the last of 16 bits (T-10).
    pub unused: [u32; 5],
    pub links: Vec<Link>,
}

impl Node {
    /// A ped node: flags1 shifted right by 3 is 10, 14 or 18.
    pub fn is_ped(&self) -> bool { matches!(self.flags[1] >> 3, 10 | 14 | 18) }
}

#[derive(Debug, Clone, PartialEq, Eq, Default)]
pub struct Junction {
    pub position: [u32; 2],
    pub min_z: u32,
    pub max_z: u32,
    pub width: u8,
    pub height: u8,
    pub values: Vec<u8>,
}

#[derive(Debug, Clone, Copy, PartialEq, Eq, Default)]
pub struct Ref {
    pub area_id: u16,
    pub node_id: u16,
    pub junction_id: u16,
    pub unk0: u16,
}

#[derive(Debug, Clone, PartialEq, Eq, Default)]
pub struct Cell {
    pub vft: u32,
    pub vehicle_node_count: u32,
    pub ped_node_count: u32,
    pub unknowns: [u32; 7],
    pub nodes: Vec<Node>,
    pub junctions: Vec<Junction>,
    pub refs: Vec<Ref>,
}

impl Cell {
    /// T-02: a yard not drawn yet has no nodes and the default words.
    pub fn undrawn() -> Cell { Cell { vft: 0x4061_E3B0, unknowns: [0, 0, 1, 0, 0, 0, 0], ..Cell::default() } }

    /// The own area: the first node's, 0 if there is no node.
    pub fn area(&self) -> u16 { self.nodes.first().map_or(0, |n| n.area_id) }

    /// T-07: the own area carries bit 1024.
    pub fn is_island(&self) -> bool { self.area() & ISLAND != 0 }

    /// Whether a link or ref of this area belongs to the cell.
    pub fn belongs(&self, area_id: u16) -> bool { belongs(self.area(), area_id) }

    /// `node`: the place equal to the number if that node has it, else the first that has it.
    pub fn node(&self, node_id: u16) -> Option<usize> {
        let own = node_id as usize;
        if self.nodes.get(own).is_some_and(|n| n.node_id == node_id) { return Some(own); }
        self.nodes.iter().position(|n| n.node_id == node_id)
    }

    /// The first ref for this area and number. T-07: one that belongs to the cell names the cell's area.
    pub fn ref_for(&self, area_id: u16, node_id: u16) -> Option<&Ref> {
        let named = |r: &Ref| if self.belongs(r.area_id) { self.area() } else { r.area_id };
        self.refs.iter().find(|r| named(r) == area_id && r.node_id == node_id)
    }

    /// `junction_of`: the junction that the first ref for this area and number names.
    pub fn junction_of(&self, area_id: u16, node_id: u16) -> Option<usize> {
        let place = self.ref_for(area_id, node_id)?.junction_id as usize;
        (place < self.junctions.len()).then_some(place)
    }

    /// Entries held: nodes, links over all nodes, junctions, heightmap values, refs.
    pub fn counts(&self) -> [usize; 5] {
        [
            self.nodes.len(),
            self.nodes.iter().map(|n| n.links.len()).sum(),
            self.junctions.len(),
            self.junctions.iter().map(|j| j.values.len()).sum(),
            self.refs.len(),
        ]
    }
}

/// T-07's bit.
pub const ISLAND: u16 = 1_024;

/// In full or, on an island, without the bit.
pub fn belongs(own: u16, area_id: u16) -> bool { area_id == own || own & ISLAND != 0 && area_id == own & !ISLAND }

/// The one NaN.
pub const NAN: u32 = 0x7fc0_0000;

pub fn one_nan(bits: u32) -> u32 { if f32::from_bits(bits).is_nan() { NAN } else { bits } }
