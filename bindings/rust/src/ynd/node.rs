//! A node with its links.
use super::{link, PathLink, Vec3};
use crate::{special_is_ped, Link, Node};
use bofrashem_sys as ffi;
use std::mem::{align_of, offset_of, size_of};

/// A node's speed.
#[derive(Debug, Clone, Copy, PartialEq, Eq)]
#[allow(missing_docs)]
pub enum NodeSpeed {
    Slow = 0,
    Normal = 1,
    Fast = 2,
    Faster = 3,
}

/// A node's kind, of five bits; those without a name are `Other`.
#[derive(Debug, Clone, Copy, PartialEq, Eq)]
#[allow(missing_docs)]
pub enum NodeSpecial {
    None,
    ParkingSpace,
    PedNodeRoadCrossing,
    PedNodeAssistedMovement,
    TrafficLightJunctionStop,
    StopSign,
    Caution,
    PedRoadCrossingNoWait,
    EmergencyVehiclesOnly,
    OffRoadJunction,
    Other(u8),
}

impl NodeSpecial {
    /// The kind that has a number.
    pub fn from_value(v: u8) -> NodeSpecial {
        match v {
            0 => NodeSpecial::None,
            2 => NodeSpecial::ParkingSpace,
            10 => NodeSpecial::PedNodeRoadCrossing,
            14 => NodeSpecial::PedNodeAssistedMovement,
            15 => NodeSpecial::TrafficLightJunctionStop,
            16 => NodeSpecial::StopSign,
            17 => NodeSpecial::Caution,
            18 => NodeSpecial::PedRoadCrossingNoWait,
            19 => NodeSpecial::EmergencyVehiclesOnly,
            20 => NodeSpecial::OffRoadJunction,
            v => NodeSpecial::Other(v),
        }
    }

    /// Its number.
    pub fn value(self) -> u8 {
        match self {
            NodeSpecial::None => 0,
            NodeSpecial::ParkingSpace => 2,
            NodeSpecial::PedNodeRoadCrossing => 10,
            NodeSpecial::PedNodeAssistedMovement => 14,
            NodeSpecial::TrafficLightJunctionStop => 15,
            NodeSpecial::StopSign => 16,
            NodeSpecial::Caution => 17,
            NodeSpecial::PedRoadCrossingNoWait => 18,
            NodeSpecial::EmergencyVehiclesOnly => 19,
            NodeSpecial::OffRoadJunction => 20,
            NodeSpecial::Other(v) => v,
        }
    }

    /// Whether it is one of the three kinds of ped node.
    pub fn is_ped(self) -> bool {
        special_is_ped(self.value()) && !matches!(self, NodeSpecial::Other(_))
    }

    /// Its name; `Other(n)` is `Unknown<n>`.
    pub fn name(self) -> String {
        match self {
            NodeSpecial::Other(v) => format!("Unknown{v}"),
            named => format!("{named:?}"),
        }
    }
}

/// A node with its links. What stands before `links` is laid out as in the library's entry, so that a call that only
/// reads is lent the node itself.
#[repr(C)]
#[derive(Debug, Clone, PartialEq, Default)]
#[allow(missing_docs)]
pub struct PathNode {
    pub area_id: u16,
    pub node_id: u16,
    /// The hash of the street's name, 0 for none.
    pub street_name: u32,
    /// Any floats in memory; written in whole steps, to which [`PathNode::set_position`] cuts it.
    pub position: Vec3,
    pub flags0: u8,
    pub flags1: u8,
    pub flags2: u8,
    pub flags3: u8,
    pub flags4: u8,
    /// Three bits are written.
    pub flags5: u8,
    pub links: Vec<PathLink>,
}

/// Getters by the node's own calls.
macro_rules! of_node {
    ($($(#[$said:meta])* $name:ident, $call:ident -> $kind:ty;)*) => {$(
        $(#[$said])*
        pub fn $name(&self) -> $kind { unsafe { ffi::$call(self.raw()) } }
    )*};
}

/// Setters likewise. Such a call stores a whole entry, so it is given one of its own.
macro_rules! set_node {
    ($($(#[$said:meta])* $name:ident($kind:ty);)*) => {$(
        $(#[$said])*
        pub fn $name(&mut self, value: $kind) { self.flagged(|entry| entry.$name(value)) }
    )*};
}

impl PathNode {
    /// A node at a position, stored in whole steps, with no flags and no links.
    pub fn new(area_id: u16, node_id: u16, position: Vec3) -> PathNode {
        PathNode::of(&Node::new(area_id, node_id, position.into()), &[])
    }

    /// Stores a position in whole steps, cut towards zero.
    pub fn set_position(&mut self, p: Vec3) {
        let mut entry = self.entry(0, 0);
        entry.set_position(p.into());
        self.position = entry.position.into();
    }

    /// The speed.
    pub fn speed(&self) -> NodeSpeed {
        match unsafe { ffi::ynd_node_speed(self.raw()) } {
            0 => NodeSpeed::Slow,
            1 => NodeSpeed::Normal,
            2 => NodeSpeed::Fast,
            _ => NodeSpeed::Faster,
        }
    }

    /// Sets the speed.
    pub fn set_speed(&mut self, s: NodeSpeed) {
        self.flagged(|entry| entry.set_speed(s as u8))
    }

    /// The kind of node: the upper five bits of flags1, as the call of its name gives them.
    #[inline]
    pub fn special(&self) -> NodeSpecial {
        NodeSpecial::from_value(self.flags1 >> 3)
    }

    /// Sets the kind of node; of a value over 31 the low five bits are stored.
    pub fn set_special(&mut self, s: NodeSpecial) {
        self.flagged(|entry| entry.set_special(s.value()))
    }

    of_node! {
        /// The bit off_road.
        off_road, ynd_node_off_road -> bool;
        /// The bit no_big_vehicles.
        no_big_vehicles, ynd_node_no_big_vehicles -> bool;
        /// The bit cannot_go_left.
        cannot_go_left, ynd_node_cannot_go_left -> bool;
        /// The bit slip_road.
        slip_road, ynd_node_slip_road -> bool;
        /// The bit indicate_keep_left.
        indicate_keep_left, ynd_node_indicate_keep_left -> bool;
        /// The bit indicate_keep_right.
        indicate_keep_right, ynd_node_indicate_keep_right -> bool;
        /// The bit left_turns_only.
        left_turns_only, ynd_node_left_turns_only -> bool;
        /// Whether renumbering takes it for a ped node.
        is_ped_node, ynd_node_is_ped_node -> bool;
        /// The bit no_gps.
        no_gps, ynd_node_no_gps -> bool;
        /// The bit is_junction.
        is_junction, ynd_node_is_junction -> bool;
        /// The bit is_disabled_unk1.
        is_disabled_unk1, ynd_node_is_disabled_unk1 -> bool;
        /// The bit highway.
        highway, ynd_node_highway -> bool;
        /// The bit is_disabled_unk0.
        is_disabled_unk0, ynd_node_is_disabled_unk0 -> bool;
        /// Whether either bit of is_disabled is set.
        is_disabled, ynd_node_is_disabled -> bool;
        /// The bit tunnel.
        tunnel, ynd_node_tunnel -> bool;
        /// The heuristic value, of seven bits.
        heuristic_value, ynd_node_heuristic_value -> u8;
        /// The density, of four bits.
        density, ynd_node_density -> u8;
        /// The dead-endness, times 16.
        dead_endness, ynd_node_dead_endness -> u8;
    }

    set_node! {
        /// Sets the bit off_road.
        set_off_road(bool);
        /// Sets the bit no_big_vehicles.
        set_no_big_vehicles(bool);
        /// Sets the bit cannot_go_left.
        set_cannot_go_left(bool);
        /// Sets the bit slip_road.
        set_slip_road(bool);
        /// Sets the bit indicate_keep_left.
        set_indicate_keep_left(bool);
        /// Sets the bit indicate_keep_right.
        set_indicate_keep_right(bool);
        /// Sets the bit left_turns_only.
        set_left_turns_only(bool);
        /// Sets the bit no_gps.
        set_no_gps(bool);
        /// Sets the bit is_junction.
        set_is_junction(bool);
        /// Sets the bit highway.
        set_highway(bool);
        /// Sets the bit tunnel.
        set_tunnel(bool);
        /// Sets the heuristic value; of a value over 127 the low seven bits are stored.
        set_heuristic_value(u8);
        /// Sets the density; of a value over 15 the low four bits are stored.
        set_density(u8);
    }

    pub(super) fn of(n: &Node, links: &[Link]) -> PathNode {
        let [flags0, flags1, flags2, flags3, flags4, flags5] = n.flags;
        PathNode {
            area_id: n.area_id,
            node_id: n.node_id,
            street_name: n.street_name,
            position: n.position.into(),
            flags0,
            flags1,
            flags2,
            flags3,
            flags4,
            flags5,
            links: link::named(links).to_vec(),
        }
    }

    /// The library's entry, whose links are those of a list from this place on.
    pub(super) fn entry(&self, link_start: u32, link_count: u8) -> Node {
        let flags = [
            self.flags0,
            self.flags1,
            self.flags2,
            self.flags3,
            self.flags4,
            self.flags5,
        ];
        let (area_id, node_id, street_name) = (self.area_id, self.node_id, self.street_name);
        let position = self.position.into();
        Node {
            area_id,
            node_id,
            street_name,
            position,
            flags,
            link_count,
            link_start,
            ..Node::default()
        }
    }

    /// A setter of flags.
    fn flagged(&mut self, set: impl FnOnce(&mut Node)) {
        let mut entry = self.entry(0, 0);
        set(&mut entry);
        [
            self.flags0,
            self.flags1,
            self.flags2,
            self.flags3,
            self.flags4,
            self.flags5,
        ] = entry.flags;
    }

    /// The node as calls that only read see it: they look at the fields before `links` alone.
    fn raw(&self) -> *const ffi::ynd_node_entry {
        std::ptr::from_ref(self).cast()
    }
}

const _: () = {
    assert!(size_of::<PathNode>() >= size_of::<ffi::ynd_node_entry>());
    assert!(align_of::<PathNode>() >= align_of::<ffi::ynd_node_entry>());
    assert!(offset_of!(PathNode, node_id) == offset_of!(ffi::ynd_node_entry, node_id));
    assert!(offset_of!(PathNode, street_name) == offset_of!(ffi::ynd_node_entry, street_name));
    assert!(offset_of!(PathNode, position) == offset_of!(ffi::ynd_node_entry, x));
    assert!(offset_of!(PathNode, flags0) == offset_of!(ffi::ynd_node_entry, flags0));
    assert!(offset_of!(PathNode, flags5) == offset_of!(ffi::ynd_node_entry, flags5));
};
