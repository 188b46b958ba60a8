//! The entries of a cell's lists, as they lie in memory.
use bofrashem_sys as ffi;

/// A node. Its links are those of [`crate::Cell::links_of`]; two nodes are equal wherever these stand in memory. The
/// five unused fields of the file's record are the caller's: they stay with the node and are written.
#[repr(C)]
#[derive(Clone, Copy, Debug, Default)]
#[allow(missing_docs)]
pub struct Node {
    pub area_id: u16,
    pub node_id: u16,
    pub street_name: u32,
    pub position: [f32; 3],
    pub flags: [u8; 6],
    pub(crate) link_count: u8,
    pub(crate) zero: u8,
    pub(crate) link_start: u32,
    pub unused0: u32,
    pub unused1: u32,
    pub unused2: u32,
    pub unused3: u32,
    pub unused4: u16,
    pub(crate) zeros: u16,
}

/// A link to the node that has this area and number.
#[repr(C)]
#[derive(Clone, Copy, Debug, Default, PartialEq, Eq)]
#[allow(missing_docs)]
pub struct Link {
    pub area_id: u16,
    pub node_id: u16,
    pub flags: [u8; 3],
    pub length: u8,
}

/// A junction. Its heightmap values are those of [`crate::Cell::values_of`]; two junctions are equal wherever these
/// stand in memory.
#[repr(C)]
#[derive(Clone, Copy, Debug, Default)]
#[allow(missing_docs)]
pub struct Junction {
    pub corner: [f32; 2],
    pub min_z: f32,
    pub max_z: f32,
    pub width: u8,
    pub height: u8,
    pub(crate) zero: u16,
    pub(crate) heightmap_start: u32,
}

impl Junction {
    /// A junction of this corner, least and most height, and size of its heightmap.
    pub fn new(corner: [f32; 2], [min_z, max_z]: [f32; 2], width: u8, height: u8) -> Junction {
        Junction {
            corner,
            min_z,
            max_z,
            width,
            height,
            zero: 0,
            heightmap_start: 0,
        }
    }
}

/// A ref: the junction, by place, of the node that has this area and number.
#[repr(C)]
#[derive(Clone, Copy, Debug, Default, PartialEq, Eq)]
#[allow(missing_docs)]
pub struct Ref {
    pub area_id: u16,
    pub node_id: u16,
    pub junction_id: u16,
    pub unk0: u16,
}

impl PartialEq for Node {
    fn eq(&self, o: &Node) -> bool {
        (
            self.area_id,
            self.node_id,
            self.street_name,
            self.position,
            self.flags,
            self.link_count,
        ) == (
            o.area_id,
            o.node_id,
            o.street_name,
            o.position,
            o.flags,
            o.link_count,
        ) && (
            self.unused0,
            self.unused1,
            self.unused2,
            self.unused3,
            self.unused4,
        ) == (o.unused0, o.unused1, o.unused2, o.unused3, o.unused4)
    }
}

impl PartialEq for Junction {
    fn eq(&self, o: &Junction) -> bool {
        (self.corner, self.min_z, self.max_z, self.width, self.height)
            == (o.corner, o.min_z, o.max_z, o.width, o.height)
    }
}

/// The cell's own words.
pub(crate) type Words = ffi::ynd_cell;

/// A member's entry in a set: its cell's own words, and how many entries its parts of the five lists have.
pub(crate) type Entry = ffi::ynd_member;

/// How many entries a member's part of a list has.
pub(crate) fn size(e: &Entry, list: usize) -> usize {
    [e.nodes, e.links, e.junctions, e.heights, e.refs][list] as usize
}

/// So many more.
pub(crate) fn add_to_size(e: &mut Entry, list: usize, more: usize) {
    *[
        &mut e.nodes,
        &mut e.links,
        &mut e.junctions,
        &mut e.heights,
        &mut e.refs,
    ][list] += more as u32;
}

/// A node that a crossing walk visits: its member, by the order of joining, and its place there.
#[derive(Clone, Copy, Debug, Default, PartialEq, Eq, Hash)]
#[allow(missing_docs)]
pub struct Location {
    pub member: usize,
    pub place: usize,
}

impl From<ffi::ynd_location> for Location {
    fn from(l: ffi::ynd_location) -> Location {
        Location {
            member: l.member as usize,
            place: l.place as usize,
        }
    }
}

/// The places of a list that the library filled, as indices.
pub(crate) fn places(filled: &[u32]) -> Vec<usize> {
    filled.iter().map(|&p| p as usize).collect()
}

/// The entries as the library sees them.
macro_rules! laid_out_as {
    ($($entry:ident is $raw:ident),*) => {$(
        impl $entry {
            #[allow(dead_code)]
            pub(crate) fn raw(&self) -> *const ffi::$raw { std::ptr::from_ref(self).cast() }

            #[allow(dead_code)]
            pub(crate) fn raw_mut(&mut self) -> *mut ffi::$raw { std::ptr::from_mut(self).cast() }
        }

        const _: () = {
            assert!(std::mem::size_of::<$entry>() == std::mem::size_of::<ffi::$raw>());
            assert!(std::mem::align_of::<$entry>() == std::mem::align_of::<ffi::$raw>());
        };
    )*};
}

laid_out_as!(Node is ynd_node_entry, Link is ynd_link_entry, Junction is ynd_junction_entry, Ref is ynd_ref_entry);
