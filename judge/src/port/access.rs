//! The accessors, one call each on an entry's words.
use super::KEPT;
use crate::slips;

/// A getter's answer as a number: a bool is 0 or 1, an f32 its bits.
pub type Getter<W> = (&'static str, fn(&W) -> u32);
/// A setter by a number: a bool is whether it is odd.
pub type Setter<W> = (&'static str, fn(&mut W, u8));

type Node = [u32; 13];
type Link = [u16; 4];

extern "C" {
    fn ynd_node_off_road(node: &Node) -> bool;
    fn ynd_node_no_big_vehicles(node: &Node) -> bool;
    fn ynd_node_cannot_go_left(node: &Node) -> bool;
    fn ynd_node_slip_road(node: &Node) -> bool;
    fn ynd_node_indicate_keep_left(node: &Node) -> bool;
    fn ynd_node_indicate_keep_right(node: &Node) -> bool;
    fn ynd_node_left_turns_only(node: &Node) -> bool;
    fn ynd_node_is_ped_node(node: &Node) -> bool;
    fn ynd_node_no_gps(node: &Node) -> bool;
    fn ynd_node_is_junction(node: &Node) -> bool;
    fn ynd_node_is_disabled_unk1(node: &Node) -> bool;
    fn ynd_node_highway(node: &Node) -> bool;
    fn ynd_node_is_disabled_unk0(node: &Node) -> bool;
    fn ynd_node_is_disabled(node: &Node) -> bool;
    fn ynd_node_tunnel(node: &Node) -> bool;
    fn ynd_node_heuristic_value(node: &Node) -> u8;
    fn ynd_node_density(node: &Node) -> u8;
    fn ynd_node_dead_endness(node: &Node) -> u8;
    fn ynd_node_special(node: &Node) -> u8;
    fn ynd_node_speed(node: &Node) -> u8;
    fn ynd_node_set_off_road(node: &mut Node, on: bool);
    fn ynd_node_set_no_big_vehicles(node: &mut Node, on: bool);
    fn ynd_node_set_cannot_go_left(node: &mut Node, on: bool);
    fn ynd_node_set_slip_road(node: &mut Node, on: bool);
    fn ynd_node_set_indicate_keep_left(node: &mut Node, on: bool);
    fn ynd_node_set_indicate_keep_right(node: &mut Node, on: bool);
    fn ynd_node_set_left_turns_only(node: &mut Node, on: bool);
    fn ynd_node_set_no_gps(node: &mut Node, on: bool);
    fn ynd_node_set_is_junction(node: &mut Node, on: bool);
    fn ynd_node_set_highway(node: &mut Node, on: bool);
    fn ynd_node_set_tunnel(node: &mut Node, on: bool);
    fn ynd_node_set_heuristic_value(node: &mut Node, v: u8);
    fn ynd_node_set_density(node: &mut Node, v: u8);
    fn ynd_node_set_special(node: &mut Node, v: u8);
    fn ynd_node_set_speed(node: &mut Node, v: u8);
    fn ynd_node_new(area_id: u16, node_id: u16, x: f32, y: f32, z: f32, node: &mut Node);
    fn ynd_node_set_position(node: &mut Node, x: f32, y: f32, z: f32);
    fn ynd_special_is_ped(v: u8) -> bool;
    fn ynd_link_gps_both_ways(link: &Link) -> bool;
    fn ynd_link_narrow_road(link: &Link) -> bool;
    fn ynd_link_offset_value(link: &Link) -> u8;
    fn ynd_link_negative_offset(link: &Link) -> bool;
    fn ynd_link_lane_offset(link: &Link) -> f32;
    fn ynd_link_dont_use_for_navigation(link: &Link) -> bool;
    fn ynd_link_shortcut(link: &Link) -> bool;
    fn ynd_link_lane_count_backward(link: &Link) -> u8;
    fn ynd_link_lane_count_forward(link: &Link) -> u8;
    fn ynd_link_is_two_way(link: &Link) -> bool;
    fn ynd_link_set_shortcut(link: &mut Link, on: bool);
    fn ynd_link_set_lane_count_backward(link: &mut Link, n: u8);
    fn ynd_link_set_lane_count_forward(link: &mut Link, n: u8);
    fn ynd_link_to(area_id: u16, node_id: u16, link: &mut Link);
}

pub fn link_to(area_id: u16, node_id: u16) -> Link {
    let mut link = [KEPT as u16; 4];
    unsafe { ynd_link_to(area_id, node_id, &mut link) };
    link
}

pub fn node_new(area_id: u16, node_id: u16, [x, y, z]: [f32; 3]) -> Node {
    let mut node = [KEPT; 13];
    unsafe { ynd_node_new(area_id, node_id, x, y, z, &mut node) };
    node
}

pub fn node_set_position(node: &mut Node, [x, y, z]: [f32; 3]) { unsafe { ynd_node_set_position(node, x, y, z) } }

pub fn special_is_ped(v: u8) -> bool { unsafe { ynd_special_is_ped(v) } }

pub const NODE_GETTERS: [Getter<Node>; 20] = [
    ("off_road", |w| unsafe { ynd_node_off_road(w) as u32 }),
    ("no_big_vehicles", |w| unsafe { ynd_node_no_big_vehicles(w) as u32 }),
    ("cannot_go_left", |w| unsafe { ynd_node_cannot_go_left(w) as u32 }),
    ("slip_road", |w| unsafe { ynd_node_slip_road(w) as u32 }),
    ("indicate_keep_left", |w| unsafe { ynd_node_indicate_keep_left(w) as u32 }),
    ("indicate_keep_right", |w| unsafe { ynd_node_indicate_keep_right(w) as u32 }),
    ("left_turns_only", |w| unsafe { ynd_node_left_turns_only(w) as u32 }),
    ("is_ped_node", |w| unsafe { ynd_node_is_ped_node(w) as u32 }),
    ("no_gps", |w| unsafe { ynd_node_no_gps(w) as u32 }),
    ("is_junction", |w| unsafe { ynd_node_is_junction(w) as u32 }),
    ("is_disabled_unk1", |w| unsafe { ynd_node_is_disabled_unk1(w) as u32 }),
    ("highway", |w| unsafe { ynd_node_highway(w) as u32 }),
    ("is_disabled_unk0", |w| unsafe { ynd_node_is_disabled_unk0(w) as u32 }),
    ("is_disabled", |w| unsafe { ynd_node_is_disabled(w) as u32 }),
    ("tunnel", |w| unsafe { ynd_node_tunnel(w) as u32 }),
    ("heuristic_value", |w| unsafe { ynd_node_heuristic_value(w) as u32 }),
    ("density", |w| unsafe { ynd_node_density(w) as u32 }),
    ("dead_endness", |w| unsafe { ynd_node_dead_endness(w) as u32 }),
    ("special", |w| unsafe { ynd_node_special(w) as u32 }),
    ("speed", |w| unsafe { ynd_node_speed(w) as u32 }),
];

pub const NODE_SETTERS: [Setter<Node>; 15] = [
    ("set_off_road", |w, v| unsafe { ynd_node_set_off_road(w, v % 2 == 1) }),
    ("set_no_big_vehicles", |w, v| unsafe { ynd_node_set_no_big_vehicles(w, v % 2 == 1) }),
    ("set_cannot_go_left", |w, v| unsafe { ynd_node_set_cannot_go_left(w, v % 2 == 1) }),
    ("set_slip_road", |w, v| unsafe { ynd_node_set_slip_road(w, v % 2 == 1) }),
    ("set_indicate_keep_left", |w, v| unsafe { ynd_node_set_indicate_keep_left(w, v % 2 == 1) }),
    ("set_indicate_keep_right", |w, v| unsafe { ynd_node_set_indicate_keep_right(w, v % 2 == 1) }),
    ("set_left_turns_only", |w, v| unsafe { ynd_node_set_left_turns_only(w, v % 2 == 1) }),
    ("set_no_gps", |w, v| unsafe { ynd_node_set_no_gps(w, v % 2 == 1) }),
    ("set_is_junction", |w, v| unsafe { ynd_node_set_is_junction(w, v % 2 == 1) }),
    ("set_highway", |w, v| unsafe { ynd_node_set_highway(w, v % 2 == 1) }),
    ("set_tunnel", |w, v| unsafe { ynd_node_set_tunnel(w, v % 2 == 1) }),
    ("set_heuristic_value", |w, v| unsafe { ynd_node_set_heuristic_value(w, v) }),
    ("set_density", |w, v| {
        unsafe { ynd_node_set_density(w, v) };
        slips::numbers::set_density(w, v)
    }),
    ("set_special", |w, v| unsafe { ynd_node_set_special(w, v) }),
    ("set_speed", |w, v| unsafe { ynd_node_set_speed(w, v) }),
];

pub const LINK_GETTERS: [Getter<Link>; 10] = [
    ("gps_both_ways", |w| unsafe { ynd_link_gps_both_ways(w) as u32 }),
    ("narrow_road", |w| unsafe { ynd_link_narrow_road(w) as u32 }),
    ("offset_value", |w| unsafe { ynd_link_offset_value(w) as u32 }),
    ("negative_offset", |w| unsafe { ynd_link_negative_offset(w) as u32 }),
    ("lane_offset", |w| unsafe { ynd_link_lane_offset(w).to_bits() }),
    ("dont_use_for_navigation", |w| unsafe { ynd_link_dont_use_for_navigation(w) as u32 }),
    ("shortcut", |w| unsafe { ynd_link_shortcut(w) as u32 }),
    ("lane_count_backward", |w| unsafe { ynd_link_lane_count_backward(w) as u32 }),
    ("lane_count_forward", |w| unsafe { ynd_link_lane_count_forward(w) as u32 }),
    ("is_two_way", |w| unsafe { ynd_link_is_two_way(w) as u32 }),
];

pub const LINK_SETTERS: [Setter<Link>; 3] = [
    ("set_shortcut", |w, v| unsafe { ynd_link_set_shortcut(w, v % 2 == 1) }),
    ("set_lane_count_backward", |w, v| unsafe { ynd_link_set_lane_count_backward(w, v) }),
    ("set_lane_count_forward", |w, v| unsafe { ynd_link_set_lane_count_forward(w, v) }),
];
