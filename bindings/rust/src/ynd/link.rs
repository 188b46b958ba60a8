//! A link that leaves a node.
use super::Vec3;
use crate::{numbers, Link};
use std::mem::{align_of, offset_of, size_of};

/// A link to the node that has this area and number; laid out as the library's entry, which its calls are lent.
#[repr(C)]
#[derive(Debug, Clone, Copy, PartialEq, Eq, Default)]
#[allow(missing_docs)]
pub struct PathLink {
    pub area_id: u16,
    pub node_id: u16,
    pub flags0: u8,
    pub flags1: u8,
    pub flags2: u8,
    /// In metres, at most 255.
    pub length: u8,
}

/// Getters by the link's own calls.
macro_rules! of_link {
    ($($(#[$said:meta])* $name:ident -> $kind:ty;)*) => {$(
        $(#[$said])*
        pub fn $name(&self) -> $kind { entries(std::slice::from_ref(self))[0].$name() }
    )*};
}

/// Setters likewise.
macro_rules! set_link {
    ($($(#[$said:meta])* $name:ident($kind:ty);)*) => {$(
        $(#[$said])*
        pub fn $name(&mut self, value: $kind) { entries_mut(std::slice::from_mut(self))[0].$name(value) }
    )*};
}

impl PathLink {
    /// A link to a node, with no flags and length 0.
    pub fn to(area_id: u16, node_id: u16) -> PathLink {
        PathLink::of(&Link::to(area_id, node_id))
    }

    of_link! {
        /// How many lanes lead forward.
        lane_count_forward -> u8;
        /// How many lanes lead back.
        lane_count_backward -> u8;
        /// The lane offset without its sign, of 0 to 7.
        offset_value -> u8;
        /// Whether the lane offset is below zero.
        negative_offset -> bool;
        /// The lane offset: offset_value / 7 times a half, below zero where negative_offset.
        lane_offset -> f32;
        /// The bit gps_both_ways.
        gps_both_ways -> bool;
        /// The bit narrow_road.
        narrow_road -> bool;
        /// The bit dont_use_for_navigation.
        dont_use_for_navigation -> bool;
        /// The bit shortcut.
        shortcut -> bool;
        /// Whether lanes lead both ways.
        is_two_way -> bool;
    }

    set_link! {
        /// Sets how many lanes lead forward; of a value over 7 the low three bits are stored.
        set_lane_count_forward(u8);
        /// Sets how many lanes lead back; of a value over 7 the low three bits are stored.
        set_lane_count_backward(u8);
        /// Sets the bit shortcut.
        set_shortcut(bool);
    }

    /// The distance of two positions in whole metres, cut, at most 255; NaN gives 255.
    pub fn length_between(a: Vec3, b: Vec3) -> u8 {
        numbers::length_between(a.into(), b.into())
    }

    pub(super) fn of(l: &Link) -> PathLink {
        let [flags0, flags1, flags2] = l.flags;
        PathLink {
            area_id: l.area_id,
            node_id: l.node_id,
            flags0,
            flags1,
            flags2,
            length: l.length,
        }
    }
}

// both are laid out as C does: two numbers of 16 bits, three bytes of flags, a length
const _: () = {
    assert!(
        size_of::<PathLink>() == size_of::<Link>() && align_of::<PathLink>() == align_of::<Link>()
    );
    assert!(offset_of!(PathLink, flags0) == offset_of!(Link, flags));
    assert!(offset_of!(PathLink, length) == offset_of!(Link, length));
};

/// The same links under the wrapper's name.
pub(super) fn entries(links: &[PathLink]) -> &[Link] {
    unsafe { std::slice::from_raw_parts(links.as_ptr().cast(), links.len()) }
}

/// The same, for changing.
fn entries_mut(links: &mut [PathLink]) -> &mut [Link] {
    unsafe { std::slice::from_raw_parts_mut(links.as_mut_ptr().cast(), links.len()) }
}

/// The wrapper's links under this module's name.
pub(super) fn named(links: &[Link]) -> &[PathLink] {
    unsafe { std::slice::from_raw_parts(links.as_ptr().cast(), links.len()) }
}
