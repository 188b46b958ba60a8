//! The fields of a node and of a link.
use crate::entries::{Link, Node};
use bofrashem_sys as ffi;

impl Node {
    /// A node at a position, stored in whole steps, with no flags and no links.
    pub fn new(area_id: u16, node_id: u16, [x, y, z]: [f32; 3]) -> Node {
        let mut node = Node::default();
        unsafe { ffi::ynd_node_new(area_id, node_id, x, y, z, node.raw_mut()) };
        node
    }

    /// Stores a position in whole steps.
    pub fn set_position(&mut self, [x, y, z]: [f32; 3]) {
        unsafe { ffi::ynd_node_set_position(self.raw_mut(), x, y, z) }
    }

    /// How many links the node holds.
    pub fn link_count(&self) -> usize {
        self.link_count as usize
    }

    /// The bit off_road: flags0, bit 3.
    pub fn off_road(&self) -> bool {
        unsafe { ffi::ynd_node_off_road(self.raw()) }
    }

    /// The bit no_big_vehicles: flags0, bit 5.
    pub fn no_big_vehicles(&self) -> bool {
        unsafe { ffi::ynd_node_no_big_vehicles(self.raw()) }
    }

    /// The bit cannot_go_left: flags0, bit 7.
    pub fn cannot_go_left(&self) -> bool {
        unsafe { ffi::ynd_node_cannot_go_left(self.raw()) }
    }

    /// The bit slip_road: flags1, bit 0.
    pub fn slip_road(&self) -> bool {
        unsafe { ffi::ynd_node_slip_road(self.raw()) }
    }

    /// The bit indicate_keep_left: flags1, bit 1.
    pub fn indicate_keep_left(&self) -> bool {
        unsafe { ffi::ynd_node_indicate_keep_left(self.raw()) }
    }

    /// The bit indicate_keep_right: flags1, bit 2.
    pub fn indicate_keep_right(&self) -> bool {
        unsafe { ffi::ynd_node_indicate_keep_right(self.raw()) }
    }

    /// The bit left_turns_only: flags1, bit 7.
    pub fn left_turns_only(&self) -> bool {
        unsafe { ffi::ynd_node_left_turns_only(self.raw()) }
    }

    /// Whether renumbering takes it for a ped node: flags1 shifted right by 3 is 10, 14 or 18.
    pub fn is_ped_node(&self) -> bool {
        unsafe { ffi::ynd_node_is_ped_node(self.raw()) }
    }

    /// The bit no_gps: flags2, bit 0.
    pub fn no_gps(&self) -> bool {
        unsafe { ffi::ynd_node_no_gps(self.raw()) }
    }

    /// The bit is_junction: flags2, bit 2.
    pub fn is_junction(&self) -> bool {
        unsafe { ffi::ynd_node_is_junction(self.raw()) }
    }

    /// The bit is_disabled_unk1: flags2, bit 4.
    pub fn is_disabled_unk1(&self) -> bool {
        unsafe { ffi::ynd_node_is_disabled_unk1(self.raw()) }
    }

    /// The bit highway: flags2, bit 6.
    pub fn highway(&self) -> bool {
        unsafe { ffi::ynd_node_highway(self.raw()) }
    }

    /// The bit is_disabled_unk0: flags2, bit 7.
    pub fn is_disabled_unk0(&self) -> bool {
        unsafe { ffi::ynd_node_is_disabled_unk0(self.raw()) }
    }

    /// Whether either bit of is_disabled is set.
    pub fn is_disabled(&self) -> bool {
        unsafe { ffi::ynd_node_is_disabled(self.raw()) }
    }

    /// The bit tunnel: flags3, bit 0.
    pub fn tunnel(&self) -> bool {
        unsafe { ffi::ynd_node_tunnel(self.raw()) }
    }

    /// The heuristic value: the upper seven bits of flags3.
    pub fn heuristic_value(&self) -> u8 {
        unsafe { ffi::ynd_node_heuristic_value(self.raw()) }
    }

    /// The density: the low four bits of flags4.
    pub fn density(&self) -> u8 {
        unsafe { ffi::ynd_node_density(self.raw()) }
    }

    /// The dead-endness: flags4, bits 4 to 6, times 16.
    pub fn dead_endness(&self) -> u8 {
        unsafe { ffi::ynd_node_dead_endness(self.raw()) }
    }

    /// Sets the bit off_road: flags0, bit 3.
    pub fn set_off_road(&mut self, on: bool) {
        unsafe { ffi::ynd_node_set_off_road(self.raw_mut(), on) }
    }

    /// Sets the bit no_big_vehicles: flags0, bit 5.
    pub fn set_no_big_vehicles(&mut self, on: bool) {
        unsafe { ffi::ynd_node_set_no_big_vehicles(self.raw_mut(), on) }
    }

    /// Sets the bit cannot_go_left: flags0, bit 7.
    pub fn set_cannot_go_left(&mut self, on: bool) {
        unsafe { ffi::ynd_node_set_cannot_go_left(self.raw_mut(), on) }
    }

    /// Sets the bit slip_road: flags1, bit 0.
    pub fn set_slip_road(&mut self, on: bool) {
        unsafe { ffi::ynd_node_set_slip_road(self.raw_mut(), on) }
    }

    /// Sets the bit indicate_keep_left: flags1, bit 1.
    pub fn set_indicate_keep_left(&mut self, on: bool) {
        unsafe { ffi::ynd_node_set_indicate_keep_left(self.raw_mut(), on) }
    }

    /// Sets the bit indicate_keep_right: flags1, bit 2.
    pub fn set_indicate_keep_right(&mut self, on: bool) {
        unsafe { ffi::ynd_node_set_indicate_keep_right(self.raw_mut(), on) }
    }

    /// Sets the bit left_turns_only: flags1, bit 7.
    pub fn set_left_turns_only(&mut self, on: bool) {
        unsafe { ffi::ynd_node_set_left_turns_only(self.raw_mut(), on) }
    }

    /// Sets the bit no_gps: flags2, bit 0.
    pub fn set_no_gps(&mut self, on: bool) {
        unsafe { ffi::ynd_node_set_no_gps(self.raw_mut(), on) }
    }

    /// Sets the bit is_junction: flags2, bit 2.
    pub fn set_is_junction(&mut self, on: bool) {
        unsafe { ffi::ynd_node_set_is_junction(self.raw_mut(), on) }
    }

    /// Sets the bit highway: flags2, bit 6.
    pub fn set_highway(&mut self, on: bool) {
        unsafe { ffi::ynd_node_set_highway(self.raw_mut(), on) }
    }

    /// Sets the bit tunnel: flags3, bit 0.
    pub fn set_tunnel(&mut self, on: bool) {
        unsafe { ffi::ynd_node_set_tunnel(self.raw_mut(), on) }
    }

    /// Sets the heuristic value; of a value over 127 the low seven bits are stored.
    pub fn set_heuristic_value(&mut self, v: u8) {
        unsafe { ffi::ynd_node_set_heuristic_value(self.raw_mut(), v) }
    }

    /// Sets the density; of a value over 15 the low four bits are stored.
    pub fn set_density(&mut self, v: u8) {
        unsafe { ffi::ynd_node_set_density(self.raw_mut(), v) }
    }

    /// The kind of node: the upper five bits of flags1.
    pub fn special(&self) -> u8 {
        unsafe { ffi::ynd_node_special(self.raw()) }
    }

    /// Sets the kind of node; of a value over 31 the low five bits are stored.
    pub fn set_special(&mut self, v: u8) {
        unsafe { ffi::ynd_node_set_special(self.raw_mut(), v) }
    }

    /// The speed: 0 slow, 1 normal, 2 fast, 3 faster (flags5, bits 1 and 2).
    pub fn speed(&self) -> u8 {
        unsafe { ffi::ynd_node_speed(self.raw()) }
    }

    /// Sets the speed; a value over 3 is 3.
    pub fn set_speed(&mut self, v: u8) {
        unsafe { ffi::ynd_node_set_speed(self.raw_mut(), v) }
    }
}

impl Link {
    /// A link to a node, with no flags and length 0.
    pub fn to(area_id: u16, node_id: u16) -> Link {
        let mut link = Link::default();
        unsafe { ffi::ynd_link_to(area_id, node_id, link.raw_mut()) };
        link
    }

    /// The bit gps_both_ways: flags0, bit 0.
    pub fn gps_both_ways(&self) -> bool {
        unsafe { ffi::ynd_link_gps_both_ways(self.raw()) }
    }

    /// The bit narrow_road: flags1, bit 1.
    pub fn narrow_road(&self) -> bool {
        unsafe { ffi::ynd_link_narrow_road(self.raw()) }
    }

    /// The offset value: flags1, bits 4 to 6.
    pub fn offset_value(&self) -> u8 {
        unsafe { ffi::ynd_link_offset_value(self.raw()) }
    }

    /// The bit negative_offset: flags1, bit 7.
    pub fn negative_offset(&self) -> bool {
        unsafe { ffi::ynd_link_negative_offset(self.raw()) }
    }

    /// The lane offset: offset_value / 7 times a half, below zero where negative_offset.
    pub fn lane_offset(&self) -> f32 {
        unsafe { ffi::ynd_link_lane_offset(self.raw()) }
    }

    /// The bit dont_use_for_navigation: flags2, bit 0.
    pub fn dont_use_for_navigation(&self) -> bool {
        unsafe { ffi::ynd_link_dont_use_for_navigation(self.raw()) }
    }

    /// The bit shortcut: flags2, bit 1.
    pub fn shortcut(&self) -> bool {
        unsafe { ffi::ynd_link_shortcut(self.raw()) }
    }

    /// How many lanes lead back: flags2, bits 2 to 4.
    pub fn lane_count_backward(&self) -> u8 {
        unsafe { ffi::ynd_link_lane_count_backward(self.raw()) }
    }

    /// How many lanes lead forward: the upper three bits of flags2.
    pub fn lane_count_forward(&self) -> u8 {
        unsafe { ffi::ynd_link_lane_count_forward(self.raw()) }
    }

    /// Whether lanes lead both ways.
    pub fn is_two_way(&self) -> bool {
        unsafe { ffi::ynd_link_is_two_way(self.raw()) }
    }

    /// Sets the bit shortcut: flags2, bit 1.
    pub fn set_shortcut(&mut self, on: bool) {
        unsafe { ffi::ynd_link_set_shortcut(self.raw_mut(), on) }
    }

    /// Sets how many lanes lead back; of a value over 7 the low three bits are stored.
    pub fn set_lane_count_backward(&mut self, n: u8) {
        unsafe { ffi::ynd_link_set_lane_count_backward(self.raw_mut(), n) }
    }

    /// Sets how many lanes lead forward; of a value over 7 the low three bits are stored.
    pub fn set_lane_count_forward(&mut self, n: u8) {
        unsafe { ffi::ynd_link_set_lane_count_forward(self.raw_mut(), n) }
    }
}

/// Whether a kind ([`Node::special`]) is one of the three kinds of ped node: 10, 14, 18.
pub fn special_is_ped(kind: u8) -> bool {
    unsafe { ffi::ynd_special_is_ped(kind) }
}
