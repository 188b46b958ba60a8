//! Steps, positions, grid, lengths and file names.
use super::{answer, KEPT, KEPT_PLACE};
use super::lent::Shown;
use crate::model::Answer;
use crate::slips;

extern "C" {
    fn ynd_steps_xy(x: f32) -> i16;
    fn ynd_steps_z(x: f32) -> i16;
    fn ynd_steps_xy_of_bits(bits: u32) -> i16;
    fn ynd_steps_z_of_bits(bits: u32) -> i16;
    fn ynd_metres_xy(n: i16) -> f32;
    fn ynd_metres_z(n: i16) -> f32;
    fn ynd_bits_of(x: f32) -> u32;
    fn ynd_float_of(bits: u32) -> f32;
    fn ynd_stored_position(x: f32, y: f32, z: f32, stored: &mut [f32; 3]);
    fn ynd_quantise(x: f32, y: f32, z: f32, steps: &mut [i16; 3]);
    fn ynd_dequantise(x: i16, y: i16, z: i16, position: &mut [f32; 3]);
    fn ynd_length_between(ax: f32, ay: f32, az: f32, bx: f32, by: f32, bz: f32) -> u8;
    fn ynd_lane_offset(offset_value: u8, negative: bool) -> f32;
    fn ynd_cell_for_position(x: f32, y: f32, cell: &mut [u32; 2]);
    fn ynd_area_id(cx: u32, cy: u32, area: &mut u32, place: &mut usize) -> u32;
    fn ynd_cell_of_area(area: u32, cell: &mut [u32; 2]);
    fn ynd_is_island_area(area: u32) -> bool;
    fn ynd_same_cell(a: u32, b: u32) -> bool;
    fn ynd_cell_bounds(cx: u32, cy: u32, bounds: &mut [f32; 4], place: &mut usize) -> u32;
    fn ynd_cell_file_name(cx: u32, cy: u32, name: &mut [u8; 13], count: &mut usize, place: &mut usize) -> u32;
    fn ynd_area_id_from_file_name(name: *const u8, length: usize, area: &mut u32) -> bool;
}

/// Both scales, from the f32 and from its bits.
pub fn steps(bits: u32) -> [[i16; 2]; 2] {
    let x = f32::from_bits(bits);
    let by_float = unsafe { [ynd_steps_xy(x), ynd_steps_z(x)] };
    let by_bits = unsafe { [ynd_steps_xy_of_bits(bits), ynd_steps_z_of_bits(bits)] };
    slips::numbers::steps(bits, [by_float, by_bits])
}

pub fn metres(n: i16) -> [u32; 2] {
    slips::numbers::metres(unsafe { [ynd_metres_xy(n).to_bits(), ynd_metres_z(n).to_bits()] })
}

pub fn bits_of(x: f32) -> u32 { unsafe { ynd_bits_of(x) } }

pub fn float_of(bits: u32) -> f32 { unsafe { ynd_float_of(bits) } }

pub fn stored_position(p: [f32; 3]) -> [u32; 3] { slips::numbers::stored_position(stored_right(p)) }

/// The call itself, as times are measured.
pub fn stored_right([x, y, z]: [f32; 3]) -> [u32; 3] {
    let mut stored = [0.0; 3];
    unsafe { ynd_stored_position(x, y, z, &mut stored) };
    stored.map(f32::to_bits)
}

pub fn quantise([x, y, z]: [f32; 3]) -> [i16; 3] {
    let mut steps = [KEPT as i16; 3];
    unsafe { ynd_quantise(x, y, z, &mut steps) };
    steps
}

pub fn dequantise([x, y, z]: [i16; 3]) -> [u32; 3] {
    let mut position = [f32::from_bits(KEPT); 3];
    unsafe { ynd_dequantise(x, y, z, &mut position) };
    position.map(f32::to_bits)
}

pub fn length_between(a: [f32; 3], b: [f32; 3]) -> u8 { slips::numbers::length_between(a, b, length_right(a, b)) }

/// The call itself, as times are measured.
pub fn length_right([ax, ay, az]: [f32; 3], [bx, by, bz]: [f32; 3]) -> u8 {
    unsafe { ynd_length_between(ax, ay, az, bx, by, bz) }
}

pub fn lane_offset(offset_value: u8, negative: bool) -> u32 {
    slips::numbers::lane_offset(unsafe { ynd_lane_offset(offset_value, negative).to_bits() })
}

pub fn cell_for_position(x: f32, y: f32) -> [u32; 2] { slips::numbers::cell_for_position(x, y, cell_right(x, y)) }

/// The call itself, as times are measured.
pub fn cell_right(x: f32, y: f32) -> [u32; 2] {
    let mut cell = [KEPT; 2];
    unsafe { ynd_cell_for_position(x, y, &mut cell) };
    cell
}

/// The area, and what the lent cell holds afterwards.
pub fn area_id(cx: u32, cy: u32) -> (Answer<u32>, bool) {
    let (mut area, mut place) = (KEPT, KEPT_PLACE);
    let number = unsafe { ynd_area_id(cx, cy, &mut area, &mut place) };
    (answer(number, place, area), number == 0 || area == KEPT)
}

pub fn cell_of_area(area: u32) -> [u32; 2] {
    let mut cell = [KEPT; 2];
    unsafe { ynd_cell_of_area(area, &mut cell) };
    cell
}

pub fn is_island_area(area: u32) -> bool {
    slips::numbers::is_island_area(area, unsafe { ynd_is_island_area(area) })
}

pub fn same_cell(a: u32, b: u32) -> bool { slips::numbers::same_cell(a, b, unsafe { ynd_same_cell(a, b) }) }

pub fn cell_bounds(cx: u32, cy: u32) -> (Answer<[u32; 4]>, bool) {
    let (mut bounds, mut place) = ([f32::from_bits(KEPT); 4], KEPT_PLACE);
    let number = unsafe { ynd_cell_bounds(cx, cy, &mut bounds, &mut place) };
    let bounds = bounds.map(f32::to_bits);
    (answer(number, place, slips::numbers::cell_bounds(bounds)), number == 0 || bounds == [KEPT; 4])
}

/// The name's bytes up to its count; those beyond must be zero.
pub fn cell_file_name(cx: u32, cy: u32) -> (Answer<Vec<u8>>, bool) {
    let (mut name, mut count, mut place) = ([0xA5; 13], KEPT_PLACE, KEPT_PLACE);
    let number = unsafe { ynd_cell_file_name(cx, cy, &mut name, &mut count, &mut place) };
    if number != 0 { return (answer(number, place, Vec::new()), name == [0xA5; 13] && count == KEPT_PLACE); }
    let count = count.min(13);
    (answer(number, place, name[..count].to_vec()), name[count..].iter().all(|&b| b == 0))
}

pub fn area_id_from_file_name(name: &[u8]) -> (Option<u32>, bool) {
    let mut area = KEPT;
    let mut lent = Shown::of(name);
    let known = unsafe { ynd_area_id_from_file_name(lent.ptr(), name.len(), &mut area) };
    lent.stays("ynd_area_id_from_file_name", "name");
    slips::numbers::area_id_from_file_name(name, (known.then_some(area), known || area == KEPT))
}
