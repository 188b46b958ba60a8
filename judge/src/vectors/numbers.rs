//! Kinds 1 to 8: steps, metres, grid, lengths, names, cells of the grid, areas, lane offsets.
use super::Field::{Bytes, I16, U32, U8};
use super::Records;
use crate::inputs::rng::Rng;
use crate::inputs::{floats, names, squares};
use crate::model::Refused;
use crate::model::{grid, names as model_names};
use crate::rust;
use crate::ynd::{self, PathLink, PathNode};

const STEPS: u8 = 1;
const METRES: u8 = 2;
const GRID: u8 = 3;
const LENGTH: u8 = 4;
const NAME: u8 = 5;
const GRID_CELL: u8 = 6;
const AREA: u8 = 7;
const LANE_OFFSET: u8 = 8;

pub fn add(to: &mut Records) {
    let r = &mut Rng::new(1);
    for x in [-0.3f32, 8191.75, 8192.0, f32::NAN, -1024.0, 0.0, -0.0, f32::INFINITY, f32::NEG_INFINITY] {
        steps(to, x.to_bits());
    }
    for _ in 0..120 { steps(to, floats::bits(r)); }
    for _ in 0..80 { metres(to, r.u16() as i16); }
    for x in [-1.0f32 / 8192.0, -1.0 / 2048.0, f32::NAN] { cell_for_position(to, [x.to_bits(); 2]); }
    for _ in 0..90 { cell_for_position(to, [floats::bits(r), floats::bits(r)]); }
    // s = 25; s = 32761 - 1/512, the rounded square of 181 - 1/65536 and 1/256.
    for b in [[3.0f32, 4.0, 0.0], [180.999_984_741_210_937_5, 0.0625, 0.0]] {
        length(to, [[0; 3], b.map(f32::to_bits)]);
    }
    for _ in 0..100 {
        length(to, floats::pair(r));
        let (target, _) = squares::target(r.next());
        length(to, squares::pair(target, r).expect("a pair next to a square"));
    }
    for name in ["nodes489.ynd", "a/NODES1177.YND", "nodes.ynd", "nodes+.ynd", "nodes++1.ynd", "nodes-1.ynd",
        "nodes4294967296.ynd", "x\\nodes0007.ynd", ""] {
        file_name(to, name);
    }
    for _ in 0..60 { if let Ok(name) = String::from_utf8(names::bytes(r)) { file_name(to, &name); } }
    for (cx, cy) in [(0, 0), (31, 31), (25, 4), (32, 0), (0, 32), (u32::MAX, 5)] { grid_cell(to, cx, cy); }
    for _ in 0..30 { grid_cell(to, r.below(34) as u32, r.below(34) as u32); }
    for area in [1177, 1024, 1023, 0, u32::MAX] { self::area(to, area, area ^ 1024); }
    for _ in 0..40 { self::area(to, r.u32(), r.u32()); }
    for flags1 in (0..=255).step_by(16) { lane_offset(to, flags1 as u8); }
}

/// bits; steps along x and y, along z.
fn steps(to: &mut Records, bits: u32) {
    let mut n = PathNode::default();
    n.set_position(rust::vec3([bits; 3]));
    to.add(STEPS, &[U32(bits), I16((n.position.x * 4.0) as i16), I16((n.position.z * 32.0) as i16)]);
}

/// steps; bits of their metres along x and y, along z.
fn metres(to: &mut Records, n: i16) {
    to.add(METRES, &[I16(n), U32((n as f32 / 4.0).to_bits()), U32((n as f32 / 32.0).to_bits())])
}

/// bits of x and y; the cell.
fn cell_for_position(to: &mut Records, [x, y]: [u32; 2]) {
    let (cx, cy) = ynd::cell_for_position(f32::from_bits(x), f32::from_bits(y));
    to.add(GRID, &[U32(x), U32(y), U8(cx as u8), U8(cy as u8)]);
}

/// bits of a and b; the length.
fn length(to: &mut Records, [a, b]: [[u32; 3]; 2]) {
    let fields: Vec<_> = a.into_iter().chain(b).map(U32)
        .chain([U8(PathLink::length_between(rust::vec3(a), rust::vec3(b)))]).collect();
    to.add(LENGTH, &fields);
}

/// whether an area is known, the area; the name.
fn file_name(to: &mut Records, name: &str) {
    let known = ynd::area_id_from_file_name(name);
    to.add(NAME, &[U8(known.is_some() as u8), U32(known.unwrap_or(0)), Bytes(name.as_bytes())]);
}

/// cx, cy; number and place of the refusal, 0 if accepted; area, bounds, the name in 13 bytes and its count. What is
/// refused has zeros there, and comes from document 01: the Rust has no such refusal.
fn grid_cell(to: &mut Records, cx: u32, cy: u32) {
    let (mut area, mut bounds, mut name) = (0, [0; 4], Vec::new());
    let refused = grid::area_id(cx, cy).err().unwrap_or(Refused(0, 0));
    if refused.0 == 0 {
        let (x0, y0, x1, y1) = ynd::cell_bounds(cx, cy);
        (area, bounds, name) = (ynd::area_id(cx, cy), [x0, y0, x1, y1].map(f32::to_bits),
            ynd::cell_file_name(cx, cy).into_bytes());
        assert_eq!(Ok(&name), model_names::cell_file_name(cx, cy).as_ref());
    }
    let count = name.len() as u8;
    name.resize(13, 0);
    let [x0, y0, x1, y1] = bounds.map(U32);
    to.add(GRID_CELL, &[U32(cx), U32(cy), U32(refused.0), U32(refused.1 as u32), U32(area), x0, y0, x1, y1, U8(count),
        Bytes(&name)]);
}

/// an area and another; the first one's cell, whether it is an island's, whether both name one cell.
fn area(to: &mut Records, a: u32, b: u32) {
    let (cx, cy) = ynd::cell_of_area(a);
    to.add(AREA, &[U32(a), U32(b), U8(cx as u8), U8(cy as u8), U8(ynd::is_island_area(a) as u8),
        U8(ynd::same_cell(a, b) as u8)]);
}

/// offset value, whether it is negative; the bits of the offset.
fn lane_offset(to: &mut Records, flags1: u8) {
    let l = PathLink { flags1, ..PathLink::default() };
    to.add(LANE_OFFSET, &[U8(l.offset_value()), U8(l.negative_offset() as u8), U32(l.lane_offset().to_bits())]);
}
