//! The grid of cells.
use super::accepted;
use crate::numbers;

pub use crate::numbers::{is_island_area, same_cell};

/// Metres along a side of a grid cell.
pub const CELL_SIZE: f32 = 512.0;
/// Where the grid begins, along x and y.
pub const CELL_ORIGIN: f32 = -8192.0;
/// Grid cells along x and y.
pub const CELL_COUNT: u32 = 32;
/// The lowest z of a grid cell.
pub const CELL_MIN_Z: f32 = -2048.0;
/// Metres from there to the highest.
pub const CELL_HEIGHT: f32 = 4096.0;
/// The island's bit of an area.
pub const ISLAND_FLAG: u32 = 1024;

/// The grid cell that holds a position, limited to the grid: its numbers along x and y.
pub fn cell_for_position(x: f32, y: f32) -> (u32, u32) {
    numbers::cell_for_position(x, y).into()
}

/// The area of a grid cell.
///
/// # Panics
/// Where a number is over 31.
#[track_caller]
pub fn area_id(cx: u32, cy: u32) -> u32 {
    accepted(numbers::area_id([cx, cy]))
}

/// The grid cell that an area names, the island's bit left aside.
pub fn cell_of_area(area: u32) -> (u32, u32) {
    numbers::cell_of_area(area).into()
}

/// The file name of a grid cell.
///
/// # Panics
/// Where a number is over 31.
#[track_caller]
pub fn cell_file_name(cx: u32, cy: u32) -> String {
    accepted(numbers::cell_file_name([cx, cy]))
}

/// The corners of a grid cell: x0, y0, x1, y1.
///
/// # Panics
/// Where a number is over 31.
#[track_caller]
pub fn cell_bounds(cx: u32, cy: u32) -> (f32, f32, f32, f32) {
    accepted(numbers::cell_bounds([cx, cy])).into()
}

/// The area that a file name names.
pub fn area_id_from_file_name(name: &str) -> Option<u32> {
    numbers::area_id_from_file_name(name.as_bytes())
}
