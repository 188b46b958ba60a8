//! Every accessor over all values of each byte, against the Rust.
use super::{same, Verdict, PORT, RUST};
use crate::port::access::{link_to, special_is_ped, LINK_GETTERS, LINK_SETTERS, NODE_GETTERS, NODE_SETTERS};
use crate::port::lookups::new;
use crate::port::memory::Memory;
use crate::port::words;
use crate::rust;
use crate::ynd::{NodeSpecial, NodeSpeed, PathLink, PathNode, Ynd};

const RUST_NODE_GETTERS: [fn(&PathNode) -> u32; 20] = [
    |n| n.off_road() as u32,
    |n| n.no_big_vehicles() as u32,
    |n| n.cannot_go_left() as u32,
    |n| n.slip_road() as u32,
    |n| n.indicate_keep_left() as u32,
    |n| n.indicate_keep_right() as u32,
    |n| n.left_turns_only() as u32,
    |n| n.is_ped_node() as u32,
    |n| n.no_gps() as u32,
    |n| n.is_junction() as u32,
    |n| n.is_disabled_unk1() as u32,
    |n| n.highway() as u32,
    |n| n.is_disabled_unk0() as u32,
    |n| n.is_disabled() as u32,
    |n| n.tunnel() as u32,
    |n| n.heuristic_value() as u32,
    |n| n.density() as u32,
    |n| n.dead_endness() as u32,
    |n| n.special().value() as u32,
    |n| n.speed() as u32,
];

const RUST_NODE_SETTERS: [fn(&mut PathNode, u8); 15] = [
    |n, v| n.set_off_road(v % 2 == 1),
    |n, v| n.set_no_big_vehicles(v % 2 == 1),
    |n, v| n.set_cannot_go_left(v % 2 == 1),
    |n, v| n.set_slip_road(v % 2 == 1),
    |n, v| n.set_indicate_keep_left(v % 2 == 1),
    |n, v| n.set_indicate_keep_right(v % 2 == 1),
    |n, v| n.set_left_turns_only(v % 2 == 1),
    |n, v| n.set_no_gps(v % 2 == 1),
    |n, v| n.set_is_junction(v % 2 == 1),
    |n, v| n.set_highway(v % 2 == 1),
    |n, v| n.set_tunnel(v % 2 == 1),
    |n, v| n.set_heuristic_value(v),
    |n, v| n.set_density(v),
    |n, v| n.set_special(NodeSpecial::from_value(v)),
    |n, v| n.set_speed(speed(v)),
];

const RUST_LINK_GETTERS: [fn(&PathLink) -> u32; 10] = [
    |n| n.gps_both_ways() as u32,
    |n| n.narrow_road() as u32,
    |n| n.offset_value() as u32,
    |n| n.negative_offset() as u32,
    |n| n.lane_offset().to_bits(),
    |n| n.dont_use_for_navigation() as u32,
    |n| n.shortcut() as u32,
    |n| n.lane_count_backward() as u32,
    |n| n.lane_count_forward() as u32,
    |n| n.is_two_way() as u32,
];

const RUST_LINK_SETTERS: [fn(&mut PathLink, u8); 3] = [
    |n, v| n.set_shortcut(v % 2 == 1),
    |n, v| n.set_lane_count_backward(v),
    |n, v| n.set_lane_count_forward(v),
];

fn speed(v: u8) -> NodeSpeed {
    match v { 0 => NodeSpeed::Slow, 1 => NodeSpeed::Normal, 2 => NodeSpeed::Fast, _ => NodeSpeed::Faster }
}

/// Each byte of the flags takes all values as b does, and no two are alike.
fn flags(b: u8) -> [u8; 6] { [0, 51, 102, 153, 204, 255].map(|k| b.wrapping_add(k)) }

/// A node and a link whose flags follow b: every getter, and every setter with v.
pub fn check(b: u8, v: u8) -> Verdict {
    let [flags0, flags1, flags2, flags3, flags4, flags5] = flags(b);
    let mut n = PathNode::new(489, 7, rust::vec3([0x4120_0000, 0xC120_0000, 0x3F80_0000]));
    (n.flags0, n.flags1, n.flags2, n.flags3, n.flags4, n.flags5) = (flags0, flags1, flags2, flags3, flags4, flags5);
    let range = |w: [u32; 13]| {
        let mut w = w;
        w[6] |= 3 << 16;
        w[8..].copy_from_slice(&[1, 2, 3, u32::MAX, 0xFFFF]);
        w
    };
    let words = range(words::node_words(&rust::node_of(&n), 5));
    for ((name, get), judged) in NODE_GETTERS.iter().zip(RUST_NODE_GETTERS) {
        same(name, PORT, &get(&words), RUST, &judged(&n))?;
    }
    for ((name, set), judged) in NODE_SETTERS.iter().zip(RUST_NODE_SETTERS) {
        let (mut after, mut m) = (words, n.clone());
        set(&mut after, v);
        judged(&mut m, v);
        same(name, PORT, &after, RUST, &range(words::node_words(&rust::node_of(&m), 5)))?;
    }
    same("a kind of ped node", PORT, &special_is_ped(v), RUST, &NodeSpecial::from_value(v).is_ped())?;
    let l = PathLink { area_id: 489, node_id: 7, flags0, flags1, flags2, length: flags3 };
    let words = words::link_words(&rust::link_of(&l));
    for ((name, get), judged) in LINK_GETTERS.iter().zip(RUST_LINK_GETTERS) {
        same(name, PORT, &get(&words), RUST, &judged(&l))?;
    }
    for ((name, set), judged) in LINK_SETTERS.iter().zip(RUST_LINK_SETTERS) {
        let (mut after, mut m) = (words, l.clone());
        set(&mut after, v);
        judged(&mut m, v);
        same(name, PORT, &after, RUST, &words::link_words(&rust::link_of(&m)))?;
    }
    Ok(())
}

/// The empty cell, and a new link.
pub fn new_ones(area_id: u16, node_id: u16) -> Verdict {
    let empty = Memory { ynd: new(), ..Memory::default() };
    same("the empty cell", PORT, &empty.cell(), RUST, &rust::cell_of(&Ynd::new()))?;
    same("the empty cell's counts", PORT, &empty.counts(), RUST, &[0; 5])?;
    same("a link to a node", PORT, &link_to(area_id, node_id), RUST,
        &words::link_words(&rust::link_of(&PathLink::to(area_id, node_id))))
}
