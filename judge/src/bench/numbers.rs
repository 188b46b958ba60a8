//! ns a call: a position stored, its steps, its cell, a length.
use super::{all_three, timed, Goal, Row, Wanted, SIZES};
use crate::inputs::rng::Rng;
use crate::math::Vec3;
use crate::port;
use crate::ynd::{self, PathLink, PathNode};
use std::hint::black_box;

type Measured = fn(&[[f32; 3]], &'static str) -> Row;

/// Each call, the points that it is called with, and how it is measured.
const CALLS: [(&str, fn(usize) -> Vec<[f32; 3]>, Measured); 5] = [("cell_for_position", points, grid),
    ("length_between, near nodes", points, lengths), ("length_between, wide", wide, lengths),
    ("set_position's steps", points, steps), ("quantise", points, quantise)];

pub fn rows(wanted: &Wanted) -> Vec<Row> {
    let calls = CALLS.into_iter().filter(|(call, ..)| wanted.has(call));
    calls.flat_map(|(call, inputs, row)| SIZES.map(|size| row(&inputs(size), call))).collect()
}

/// Positions of a cell: within its 512 m, a few metres apart.
fn points(count: usize) -> Vec<[f32; 3]> {
    let mut r = Rng::new(count as u64);
    let mut at = [0.0f32; 3];
    (0..count).map(|_| {
        for x in &mut at { *x = (*x + (r.u16() as f32 / 256.0 - 128.0) / 4.0).clamp(-4000.0, 4000.0); }
        at
    }).collect()
}

/// Pairs of points up to 300 m apart along x: 15 of 100 lengths are 255.
fn wide(count: usize) -> Vec<[f32; 3]> {
    let mut r = Rng::new(count as u64);
    (0..count).map(|i| if i % 2 == 0 { [0.0; 3] } else { [r.u16() as f32 / 65_536.0 * 300.0, 0.0, 0.0] }).collect()
}

fn rust_steps(p: [f32; 3]) -> [f32; 3] {
    let mut n = PathNode::default();
    n.set_position(Vec3::new(p[0], p[1], p[2]));
    [n.position.x, n.position.y, n.position.z]
}

fn port_steps(p: [f32; 3]) -> [f32; 3] { port::numbers::stored_right(p).map(f32::from_bits) }

/// The floors: the Rust's own expressions behind the port's C calls, for the archive's processor.
#[no_mangle]
#[inline(never)]
#[target_feature(enable = "sse4.2")]
extern "C" fn plain_stored_position(x: f32, y: f32, z: f32, stored: &mut [f32; 3]) {
    *stored = [(x * 4.0) as i16 as f32 / 4.0, (y * 4.0) as i16 as f32 / 4.0, (z * 32.0) as i16 as f32 / 32.0];
}

#[no_mangle]
#[inline(never)]
#[target_feature(enable = "sse4.2")]
extern "C" fn plain_quantise(x: f32, y: f32, z: f32, steps: &mut [i16; 3]) {
    *steps = rust_quantise([x, y, z]);
}

#[no_mangle]
#[inline(never)]
#[target_feature(enable = "sse4.2")]
extern "C" fn plain_cell_for_position(x: f32, y: f32, cell: &mut [u32; 2]) {
    *cell = [x, y].map(|x| ((x + 8192.0) / 512.0).floor().clamp(0.0, 31.0) as u32);
}

#[no_mangle]
#[inline(never)]
#[target_feature(enable = "sse4.2")]
extern "C" fn plain_length_between(ax: f32, ay: f32, az: f32, bx: f32, by: f32, bz: f32) -> u8 {
    let [x, y, z] = [bx - ax, by - ay, bz - az];
    (x * x + y * y + z * z).sqrt().min(255.0) as u8
}

fn plain_steps([x, y, z]: [f32; 3]) -> [f32; 3] {
    let mut stored = [0.0; 3];
    unsafe { plain_stored_position(x, y, z, &mut stored) };
    stored.map(f32::to_bits).map(f32::from_bits)
}

/// The Rust's own is private to its module.
#[inline(always)]
fn rust_quantise([x, y, z]: [f32; 3]) -> [i16; 3] { [(x * 4.0) as i16, (y * 4.0) as i16, (z * 32.0) as i16] }

fn plain_quantised([x, y, z]: [f32; 3]) -> [i16; 3] {
    let mut steps = [0; 3];
    unsafe { plain_quantise(x, y, z, &mut steps) };
    steps
}

fn plain_grid(x: f32, y: f32) -> [u32; 2] {
    let mut cell = [u32::MAX; 2];
    unsafe { plain_cell_for_position(x, y, &mut cell) };
    cell
}

fn plain_length([ax, ay, az]: [f32; 3], [bx, by, bz]: [f32; 3]) -> u8 {
    unsafe { plain_length_between(ax, ay, az, bx, by, bz) }
}

fn rust_grid(x: f32, y: f32) -> [u32; 2] { ynd::cell_for_position(x, y).into() }

fn rust_length(a: [f32; 3], b: [f32; 3]) -> u8 {
    PathLink::length_between(Vec3::new(a[0], a[1], a[2]), Vec3::new(b[0], b[1], b[2]))
}

fn steps(points: &[[f32; 3]], call: &'static str) -> Row {
    let [f, g, h] = [rust_steps, plain_steps, port_steps].map(|f: fn(_) -> _| black_box(f));
    let run = |f: fn([f32; 3]) -> [f32; 3]| for p in points { black_box(f(*p)); };
    row(points, call, points.len(), Goal::Floor(1.75), || run(f), || run(g), || run(h))
}

fn quantise(points: &[[f32; 3]], call: &'static str) -> Row {
    let [f, g, h] = [rust_quantise, plain_quantised, port::numbers::quantise].map(|f: fn(_) -> _| black_box(f));
    let run = |f: fn([f32; 3]) -> [i16; 3]| for p in points { black_box(f(*p)); };
    row(points, call, points.len(), Goal::None, || run(f), || run(g), || run(h))
}

fn grid(points: &[[f32; 3]], call: &'static str) -> Row {
    let [f, g, h] = [rust_grid, plain_grid, port::numbers::cell_right].map(|f: fn(_, _) -> _| black_box(f));
    let run = |f: fn(f32, f32) -> [u32; 2]| for p in points { black_box(f(p[0], p[1])); };
    row(points, call, points.len(), Goal::Floor(1.0), || run(f), || run(g), || run(h))
}

fn lengths(points: &[[f32; 3]], call: &'static str) -> Row {
    let [f, g, h] = [rust_length, plain_length, port::numbers::length_right].map(|f: fn(_, _) -> _| black_box(f));
    let run = |f: fn([f32; 3], [f32; 3]) -> u8| for p in points.windows(2) { black_box(f(p[0], p[1])); };
    row(points, call, points.len() - 1, Goal::Floor(1.05), || run(f), || run(g), || run(h))
}

fn row(
    points: &[[f32; 3]], call: &'static str, calls: usize, goal: Goal, f: impl Fn(), g: impl Fn(), h: impl Fn(),
) -> Row {
    let [rust, floor, port] = all_three(calls, || timed(&f), || timed(&g), || timed(&h));
    Row { call, size: points.len(), rust, floor, port, goal }
}
