//! Steps, positions, grid, lengths and file names.
use super::seen::{met, met_if, note, Call, Met};
use super::{same, Verdict, MODEL, PORT, RUST};
use crate::model::cell::one_nan;
use crate::model::{grid, length, names, steps};
use crate::port::words::node_words;
use crate::ynd::{self, PathLink, PathNode};
use crate::{port, rust};

/// One pattern through both step scales, from the f32 and from its bits.
pub fn steps_of(bits: u32) -> Verdict {
    let mut n = PathNode::default();
    n.set_position(rust::vec3([bits, bits, bits]));
    // Steps over the scale are exact, so the stored steps are the position times the scale.
    let judged = [(n.position.x * 4.0) as i32 as i16, (n.position.z * 32.0) as i32 as i16];
    let model = [steps::steps(bits, steps::XY), steps::steps(bits, steps::Z)];
    note_steps(bits);
    same("steps", MODEL, &model, RUST, &judged)?;
    let [by_float, by_bits] = port::numbers::steps(bits);
    same("steps", PORT, &by_float, RUST, &judged)?;
    same("steps of bits", PORT, &by_bits, RUST, &judged)?;
    same("bits_of", PORT, &port::numbers::bits_of(f32::from_bits(bits)), MODEL, &one_nan(bits))?;
    same("float_of", PORT, &one_nan(port::numbers::float_of(bits).to_bits()), MODEL, &one_nan(bits))
}

/// Which of the cases of a stored step a pattern is.
fn note_steps(bits: u32) {
    match f32::from_bits(bits) {
        x if x.is_nan() => met(Met::Nan),
        x if x >= 8192.0 => met(Met::High),
        x if x < -8192.0 => met(Met::Low),
        x if x < 0.0 && x * 4.0 != (x * 4.0).trunc() => met(Met::Cut),
        _ => {}
    }
}

/// A position stored and read, its steps, and nodes at it.
pub fn position(p: [u32; 3]) -> Verdict {
    note_steps(p[0]);
    let mut n = PathNode { flags0: p[0] as u8, flags5: p[1] as u8, street_name: p[2], ..PathNode::default() };
    let mut words = node_words(&rust::node_of(&n), 5);
    n.set_position(rust::vec3(p));
    let judged = rust::bits3(n.position);
    let floats = p.map(f32::from_bits);
    same("set_position", MODEL, &steps::stored(p), RUST, &judged)?;
    same("set_position", PORT, &port::numbers::stored_position(floats), RUST, &judged)?;
    let stored = [n.position.x * 4.0, n.position.y * 4.0, n.position.z * 32.0].map(|x| x as i32 as i16);
    same("quantise", PORT, &port::numbers::quantise(floats), RUST, &stored)?;
    same("dequantise", PORT, &port::numbers::dequantise(stored), RUST, &judged)?;
    port::access::node_set_position(&mut words, floats);
    same("a node's set_position", PORT, &words, RUST, &node_words(&rust::node_of(&n), 5))?;
    let new = PathNode::new(p[0] as u16, p[1] as u16, rust::vec3(p));
    same("a new node", PORT, &port::access::node_new(p[0] as u16, p[1] as u16, floats), RUST,
        &node_words(&rust::node_of(&new), 0))
}

/// All i16, read.
pub fn metres(n: i16) -> Verdict {
    let judged = [n as f32 / 4.0, n as f32 / 32.0].map(f32::to_bits);
    same("metres", MODEL, &[steps::metres(n, steps::XY), steps::metres(n, steps::Z)], RUST, &judged)?;
    same("metres", PORT, &port::numbers::metres(n), RUST, &judged)?;
    same("dequantise", PORT, &port::numbers::dequantise([n; 3]), RUST, &[judged[0], judged[0], judged[1]])
}

pub fn cell_for_position(x: u32, y: u32) -> Verdict {
    let (fx, fy) = (f32::from_bits(x), f32::from_bits(y));
    let judged: [u32; 2] = ynd::cell_for_position(fx, fy).into();
    met_if(fx.is_nan(), Met::Nan);
    met_if(fx < -8192.0, Met::Low);
    met_if(fx >= 8192.0, Met::High);
    met_if(fx as f64 + 8192.0 != (fx + 8192.0) as f64, Met::FirstSum);
    same("cell_for_position", MODEL, &[grid::cell_along(x), grid::cell_along(y)], RUST, &judged)?;
    same("cell_for_position", PORT, &port::numbers::cell_for_position(fx, fy), RUST, &judged)
}

pub fn area(area: u32) -> Verdict {
    let judged: [u32; 2] = ynd::cell_of_area(area).into();
    same("cell_of_area", MODEL, &grid::cell_of_area(area), RUST, &judged)?;
    same("cell_of_area", PORT, &port::numbers::cell_of_area(area), RUST, &judged)?;
    let judged = ynd::is_island_area(area);
    same("is_island_area", MODEL, &grid::is_island_area(area), RUST, &judged)?;
    same("is_island_area", PORT, &port::numbers::is_island_area(area), RUST, &judged)?;
    for other in [area, area ^ 1, area ^ 1023, area ^ 1024, area ^ 2048, area.wrapping_mul(0x9E37_79B9)] {
        let judged = ynd::same_cell(area, other);
        same("same_cell", MODEL, &grid::same_cell(area, other), RUST, &judged)?;
        same("same_cell", PORT, &port::numbers::same_cell(area, other), RUST, &judged)?;
    }
    Ok(())
}

/// Over 31 document 01 refuses with 13, and the Rust isn't asked.
pub fn grid_cell(cx: u32, cy: u32) -> Verdict {
    let (area, bounds, name) = (grid::area_id(cx, cy), grid::cell_bounds(cx, cy), names::cell_file_name(cx, cy));
    if cx <= 31 && cy <= 31 {
        let (x0, y0, x1, y1) = ynd::cell_bounds(cx, cy);
        same("area_id", MODEL, &area, RUST, &Ok(ynd::area_id(cx, cy)))?;
        same("cell_bounds", MODEL, &bounds, RUST, &Ok([x0, y0, x1, y1].map(f32::to_bits)))?;
        same("cell_file_name", MODEL, &name, RUST, &Ok(ynd::cell_file_name(cx, cy).into_bytes()))?;
    }
    note(Call::Grid, &area);
    // The second part says that a refusal left what was lent.
    same("area_id", PORT, &port::numbers::area_id(cx, cy), MODEL, &(area, true))?;
    same("cell_bounds", PORT, &port::numbers::cell_bounds(cx, cy), MODEL, &(bounds, true))?;
    same("cell_file_name", PORT, &port::numbers::cell_file_name(cx, cy), MODEL, &(name, true))
}

/// The Rust takes text; other bytes are asked of the model and the port.
pub fn file_name(name: &[u8]) -> Verdict {
    let model = names::area_id_from_file_name(name);
    met(if model.is_some() { Met::Named } else { Met::Unnamed });
    if let Ok(text) = std::str::from_utf8(name) {
        same("area_id_from_file_name", MODEL, &model, RUST, &ynd::area_id_from_file_name(text))?;
    }
    same("area_id_from_file_name", PORT, &port::numbers::area_id_from_file_name(name), MODEL, &(model, true))
}

pub fn length_between(thresholds: &[f64], [a, b]: [[u32; 3]; 2]) -> Verdict {
    let judged = PathLink::length_between(rust::vec3(a), rust::vec3(b));
    let s = length::square(a, b);
    met(if s.is_nan() { Met::Nan } else if judged == 255 { Met::High } else { Met::Cut });
    same("length_between", MODEL, &length::length_of(thresholds, s), RUST, &judged)?;
    let [a, b] = [a, b].map(|p| p.map(f32::from_bits));
    same("length_between", PORT, &port::numbers::length_between(a, b), RUST, &judged)
}

/// A link's lane offset, over every flags1.
pub fn lane_offset(flags1: u8) -> Verdict {
    let l = PathLink { flags1, ..PathLink::default() };
    let port = port::numbers::lane_offset(l.offset_value(), l.negative_offset());
    same("lane_offset", PORT, &port, RUST, &l.lane_offset().to_bits())
}

/// A pair whose s is a target next to a threshold: which side of it, over which axes, and what is rounded on the way.
pub fn next_to_square(thresholds: &[f64], pair: [[u32; 3]; 2], from: i32) -> Verdict {
    let [a, b] = pair.map(|p| p.map(f32::from_bits));
    let d = [0, 1, 2].map(|i| b[i] - a[i]);
    let [xx, yy, zz] = d.map(|x| x * x);
    met(match from { ..0 => Met::Before, 0 => Met::Exactly, _ => Met::After });
    met(if d.iter().filter(|x| **x != 0.0).count() == 1 { Met::Axis } else { Met::Split });
    met_if((0..3).any(|i| b[i] as f64 - a[i] as f64 != d[i] as f64), Met::Difference);
    met_if(d.iter().any(|&x| x as f64 * x as f64 != (x * x) as f64), Met::Square);
    met_if(xx as f64 + yy as f64 != (xx + yy) as f64, Met::FirstSum);
    met_if((xx + yy) as f64 + zz as f64 != (xx + yy + zz) as f64, Met::LastSum);
    length_between(thresholds, pair)
}
