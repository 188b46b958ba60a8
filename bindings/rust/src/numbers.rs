//! Steps, positions, the grid of cells, lengths and file names: calls that need no cell.
//!
//! ```
//! use bofrashem::numbers::*;
//! assert_eq!(quantise([-0.3, 9000.0, f32::NAN]), [-1, 32_767, 0]);
//! assert_eq!(stored_position([-0.3, 8191.75, 1.0]), [-0.25, 8191.75, 1.0]);
//! assert_eq!(length_between([0.0; 3], [3.0, 4.0, 0.0]), 5);
//! let cell = cell_for_position(-3500.0, 100.0);
//! assert_eq!((cell, area_id(cell)?, cell_file_name(cell)?), ([9, 16], 521, "nodes521.ynd".into()));
//! assert_eq!(area_id_from_file_name(b"yards/NODES521.ynd"), Some(521));
//! # Ok::<(), bofrashem::Refusal>(())
//! ```
use crate::refusal::{answered, Refusal};
use bofrashem_sys as ffi;

/// The steps in which a position is stored: x and y times 4, z times 32, cut towards zero and limited to an i16; NaN
/// gives 0.
pub fn quantise([x, y, z]: [f32; 3]) -> [i16; 3] {
    let mut steps = [0; 3];
    unsafe { ffi::ynd_quantise(x, y, z, &mut steps) };
    steps
}

/// The position that stored steps stand for.
pub fn dequantise([x, y, z]: [i16; 3]) -> [f32; 3] {
    let mut position = [0.0; 3];
    unsafe { ffi::ynd_dequantise(x, y, z, &mut position) };
    position
}

/// A position as it comes back once it was stored.
pub fn stored_position([x, y, z]: [f32; 3]) -> [f32; 3] {
    let mut stored = [0.0; 3];
    unsafe { ffi::ynd_stored_position(x, y, z, &mut stored) };
    stored
}

/// The length of a link in whole metres: the correctly rounded root, cut, at most 255; NaN gives 255.
pub fn length_between(a: [f32; 3], b: [f32; 3]) -> u8 {
    unsafe { ffi::ynd_length_between(a[0], a[1], a[2], b[0], b[1], b[2]) }
}

/// The grid cell that holds a position: its numbers along x and y.
pub fn cell_for_position(x: f32, y: f32) -> [u32; 2] {
    let mut cell = [0; 2];
    unsafe { ffi::ynd_cell_for_position(x, y, &mut cell) };
    cell
}

/// The area number of a grid cell. Refused: 13 where a number is over 31.
pub fn area_id([cx, cy]: [u32; 2]) -> Result<u32, Refusal> {
    let mut area = 0;
    answered(|place| unsafe { ffi::ynd_area_id(cx, cy, &mut area, place) })?;
    Ok(area)
}

/// The grid cell that an area names, the island's bit left aside.
pub fn cell_of_area(area: u32) -> [u32; 2] {
    let mut cell = [0; 2];
    unsafe { ffi::ynd_cell_of_area(area, &mut cell) };
    cell
}

/// Whether an area carries the island's bit.
pub fn is_island_area(area: u32) -> bool {
    unsafe { ffi::ynd_is_island_area(area) }
}

/// Whether two areas name the same grid cell, the island's bit left aside.
pub fn same_cell(a: u32, b: u32) -> bool {
    unsafe { ffi::ynd_same_cell(a, b) }
}

/// The corners of a grid cell: x0, y0, x1, y1. Refused: 13 where a number is over 31.
pub fn cell_bounds([cx, cy]: [u32; 2]) -> Result<[f32; 4], Refusal> {
    let mut bounds = [0.0; 4];
    answered(|place| unsafe { ffi::ynd_cell_bounds(cx, cy, &mut bounds, place) })?;
    Ok(bounds)
}

/// The file name of a grid cell. Refused: 13 where a number is over 31.
pub fn cell_file_name([cx, cy]: [u32; 2]) -> Result<String, Refusal> {
    let (mut name, mut count) = ([0; 13], 0);
    answered(|place| unsafe { ffi::ynd_cell_file_name(cx, cy, &mut name, &mut count, place) })?;
    Ok(name[..count].iter().map(|&b| b as char).collect())
}

/// The area that a file name names.
pub fn area_id_from_file_name(name: &[u8]) -> Option<u32> {
    let mut area = 0;
    unsafe { ffi::ynd_area_id_from_file_name(name.as_ptr(), name.len(), &mut area) }.then_some(area)
}
