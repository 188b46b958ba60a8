//! Wrong numbers: steps, grid, lengths, names, areas, bounds, density.
use super::{any, on, Slip};
use crate::inputs::squares;
use crate::model::length;

pub fn steps(bits: u32, right: [[i16; 2]; 2]) -> [[i16; 2]; 2] {
    if !any() { return right; }
    let x = f32::from_bits(bits);
    let limited = |s: f32| s.clamp(-32768.0, 32767.0) as i16;
    let [xy, z] = [x * 4.0, x * 32.0];
    if on(Slip::FlooredSteps) { return [[limited(xy.floor()), right[0][1]], right[1]]; }
    if on(Slip::WrappedSteps) { return [right[0], [xy as i32 as i16, z as i32 as i16]]; }
    if on(Slip::NanSteps) && x.is_nan() { return [[32767; 2]; 2]; }
    right
}

pub fn cell_for_position(x: f32, y: f32, right: [u32; 2]) -> [u32; 2] {
    if !any() { return right; }
    let exact = |v: f32, most: f64| ((v as f64 + 8192.0) / 512.0).floor().clamp(0.0, most) as u32;
    let rounded = |v: f32, most: f32| ((v + 8192.0) / 512.0).floor().clamp(0.0, most) as u32;
    if on(Slip::ExactGrid) { return [exact(x, 31.0), exact(y, 31.0)]; }
    if on(Slip::GridTo32) { return [rounded(x, 32.0), rounded(y, 32.0)]; }
    right
}

pub fn length_between(a: [f32; 3], b: [f32; 3], right: u8) -> u8 {
    if !any() { return right; }
    let d = [0, 1, 2].map(|i| b[i] - a[i]);
    let s = length::square(a.map(f32::to_bits), b.map(f32::to_bits));
    // The rounded root of s, at most 255 and cut; that NaN gives 255 is kept.
    let root = |s: f32| if s.is_nan() { 255 } else { s.sqrt().min(255.0) as u8 };
    if on(Slip::WholeRoot) { return if s.is_nan() { 255 } else { (s as f64).sqrt().min(255.0) as u8 }; }
    if on(Slip::FusedSum) { return root(d[2].mul_add(d[2], d[1].mul_add(d[1], d[0] * d[0]))); }
    if on(Slip::OtherOrder) { return root(d[0] * d[0] + (d[1] * d[1] + d[2] * d[2])); }
    let near = s > 0.0 && s < 70_000.0;
    if on(Slip::LateThreshold) && near { return root(f32::from_bits(s.to_bits() - 1)); }
    if on(Slip::EarlyThreshold) && near { return root(f32::from_bits(s.to_bits() + 1)); }
    if on(Slip::NanLength) && s.is_nan() { return 0; }
    if on(Slip::OneSquare) && s.to_bits() + 2 == squares::threshold(200) { return 200; }
    if on(Slip::Most254) { return right.min(254); }
    right
}

pub fn area_id_from_file_name(name: &[u8], right: (Option<u32>, bool)) -> (Option<u32>, bool) {
    if !any() { return right; }
    let base = name.rsplit(|&c| c == b'/' || c == b'\\').next().unwrap_or(&[]).to_ascii_lowercase();
    let Some(digits) = base.strip_prefix(b"nodes").and_then(|b| b.strip_suffix(b".ynd")) else { return right };
    let number = std::str::from_utf8(digits).ok().and_then(|d| d.parse::<u128>().ok());
    if on(Slip::WrappingName) { if let Some(n) = number { return (Some(n as u32), true); } }
    if on(Slip::CaseMatters) && name.iter().any(u8::is_ascii_uppercase) { return (None, true); }
    if on(Slip::FirstSlash) && name.iter().filter(|&&c| c == b'/' || c == b'\\').count() > 1 { return (None, true); }
    if on(Slip::NoZeros) && digits.len() > 1 && digits[0] == b'0' { return (None, true); }
    right
}

pub fn same_cell(a: u32, b: u32, right: bool) -> bool {
    if on(Slip::IslandInCell) { a % 2048 == b % 2048 } else { right }
}

pub fn cell_bounds([x0, y0, x1, y1]: [u32; 4]) -> [u32; 4] {
    if on(Slip::BoundsTurned) { [y0, x0, y1, x1] } else { [x0, y0, x1, y1] }
}

pub fn set_density(node: &mut [u32; 13], v: u8) {
    if on(Slip::DensityWhole) { node[6] = node[6] & !0xFF | (v & 15) as u32; }
}

pub fn stored_position([x, y, z]: [u32; 3]) -> [u32; 3] {
    let quarters = |w: u32| ((f32::from_bits(w) * 4.0).trunc() / 4.0).to_bits();
    [x, y, if on(Slip::ZInQuarters) { quarters(z) } else { z }]
}

pub fn metres([xy, z]: [u32; 2]) -> [u32; 2] { [xy, if on(Slip::MetresZ) { xy } else { z }] }

pub fn lane_offset(right: u32) -> u32 { if on(Slip::LaneUnsigned) { right & 0x7FFF_FFFF } else { right } }

pub fn is_island_area(area: u32, right: bool) -> bool { if on(Slip::IslandBit) { area & 2048 != 0 } else { right } }

pub fn new(mut ynd: [u32; 15]) -> [u32; 15] {
    if on(Slip::NewUnknowns) { ynd[3..10].fill(0); }
    ynd
}
