//! Section 6: the grid at the head of `src/ynd.rs`, 32 × 32 cells of 512 m from (-8192, -8192).
use super::{refuse_if, Answer};

/// The sum is rounded once to f32; dividing by 512 and flooring are exact in f64. NaN gives 0.
pub fn cell_along(bits: u32) -> u32 {
    let sum = f32::from_bits(bits) + 8192.0;
    if sum.is_nan() { 0 } else { (sum as f64 / 512.0).floor().clamp(0.0, 31.0) as u32 }
}

/// Refusal 13: a grid number over 31.
fn on_grid(cx: u32, cy: u32) -> Answer<()> { refuse_if(cx > 31 || cy > 31, 13, 0) }

pub fn area_id(cx: u32, cy: u32) -> Answer<u32> { on_grid(cx, cy).map(|()| cy * 32 + cx) }

pub fn cell_of_area(area: u32) -> [u32; 2] { [area % 1024 % 32, area % 1024 / 32] }

pub fn is_island_area(area: u32) -> bool { area / 1024 % 2 == 1 }

pub fn same_cell(a: u32, b: u32) -> bool { a % 1024 == b % 1024 }

/// x0, y0, x1, y1 as f32 bits: whole numbers, so exact.
pub fn cell_bounds(cx: u32, cy: u32) -> Answer<[u32; 4]> {
    on_grid(cx, cy)?;
    let edge = |c: u32| ((c as i32 * 512 - 8192) as f32).to_bits();
    Ok([edge(cx), edge(cy), edge(cx + 1), edge(cy + 1)])
}
