//! Nodes within reach of a point and the nearest, against T-01's and T-08's sentences. The Rust has neither call, but it stores
//! the steps that distances go by.
use super::run::Run;
use super::seen::{self, met_if, Call, Met};
use super::{same, Verdict, MODEL, PORT, RUST};
use crate::inputs::reach::{smaller, tap, Tap};
use crate::model::cell::Cell;
use crate::model::reach::{nearest, refused, squared, within};
use crate::model::steps::{steps, XY};
use crate::model::{room, Answer};
use crate::rust;

/// Inputs of a short run and of a full one.
const TAPS: [u64; 2] = [200_000, 5_000_000];

pub fn family(run: &Run) { run.counted("reach", TAPS[run.full as usize], tap, check, smaller); }

pub fn check(t: &Tap) -> Verdict {
    let cell = t.memory.cell();
    let bad = refused(t.memory.counts(), t.memory.lent());
    let near = if bad.is_ok() { within(&cell, t.point, t.radius) } else { Vec::new() };
    let n = near.len();
    for lent in [n, n + 1, t.memory.nodes.len()] { listed(t, &bad, &near, lent)?; }
    if n > 0 { listed(t, &bad, &near, n - 1)?; }
    met_if(bad.is_ok() && n > 0, Met::JustLong);
    met_if(bad.is_ok() && n > 0, Met::OneShort);
    let want = bad.map(|_| nearest(&cell, t.point));
    let (have, kept) = t.memory.nearest(t.point);
    seen::note(Call::Near, &have);
    same("nearest", MODEL, &want, PORT, &have)?;
    same("what nearest leaves", MODEL, &true, PORT, &kept)?;
    if cell.nodes.len() <= 100 { stored(&cell)?; }
    if want.is_ok() { edges(t, &cell, &near); }
    Ok(())
}

/// The list is the model's, in its order; what lies behind it stays.
fn listed(t: &Tap, bad: &Answer<()>, near: &[usize], lent: usize) -> Verdict {
    let fits = bad.clone().and_then(|_| room(8, &[near.len()], &[lent]));
    let want = fits.map(|_| near.iter().map(|&p| p as u32).collect::<Vec<u32>>());
    let (have, kept) = t.memory.within(t.point, t.radius, lent);
    seen::note(Call::Near, &have);
    same("within", MODEL, &want, PORT, &have)?;
    same("what within leaves", MODEL, &true, PORT, &kept)
}

/// The steps that distances go by are those that the Rust writes.
fn stored(cell: &Cell) -> Verdict {
    let Ok(d) = rust::ynd_of(cell).to_dictionary() else { return Ok(()) };
    let rust: Vec<[i16; 2]> = d.nodes.iter().map(|n| [n.position_x, n.position_y]).collect();
    let model: Vec<[i16; 2]> = cell.nodes.iter().map(|n| [0, 1].map(|k| steps(n.position[k], XY))).collect();
    same("stored steps", RUST, &rust, MODEL, &model)
}

fn edges(t: &Tap, cell: &Cell, near: &[usize]) {
    let squares: Vec<u64> = cell.nodes.iter().map(|n| squared(n, t.point)).collect();
    let square = (t.radius as u64).pow(2);
    let least = squares.iter().min();
    let bits = |b: u32| cell.nodes.iter().any(|n| n.position[..2].contains(&b));
    met_if(squares.contains(&(2 * 65_535u64.pow(2))), Met::FarApart);
    for (edge, radius) in [(Met::Radius0, 0), (Met::Radius1, 1), (Met::RadiusMost, 65_535)] {
        met_if(t.radius == radius && !cell.nodes.is_empty(), edge);
    }
    met_if(t.radius > 0 && squares.contains(&square), Met::OnCircle);
    met_if(squares.iter().any(|&s| s > square && s <= (t.radius as u64 + 1).pow(2)), Met::StepBeyond);
    met_if(squares.iter().filter(|s| Some(*s) == least).count() > 1 && near.len() < 100, Met::EqualNear);
    met_if(bits(0x7fc0_0000), Met::Nan);
    met_if(bits(0x7f80_0000) || bits(0xff80_0000), Met::Infinite);
    met_if(bits((-0.3f32).to_bits()), Met::Third);
    met_if(cell.nodes.is_empty(), Met::Empty);
    met_if(cell.nodes.len() == 65_536, Met::MostNodes);
    let tied = |k: usize| squares[near[k]] == squares[near[k + 19]];
    met_if((19..near.len()).any(|k| tied(k - 19)), Met::Tied);
    met_if(near.len() >= 20 && near.windows(2).all(|w| w[0] > w[1]), Met::Backwards);
    met_if(near.len() == 65_536, Met::MostListed);
}
