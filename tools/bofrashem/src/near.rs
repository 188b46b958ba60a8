//! `near`: points and radii, in metres or in the stored quarter-metre steps.
use crate::cli;
use crate::fault::{Fault, Trouble};
use crate::input::Input;
use crate::nodes;
use crate::Told;
use bofrashem::{numbers, Cell};
use std::fmt::Write;

/// A circle in quarter-metre steps.
#[derive(Clone, Copy, Debug, PartialEq, Eq)]
pub struct Circle {
    pub point: [i16; 2],
    pub radius: u16,
    /// Whether x, and y, were further out than can be stored.
    pub limited: [bool; 2],
}

/// The farthest coordinates that are stored, in metres.
const FARTHEST: [f64; 2] = [-8192.0, 8191.75];

impl Circle {
    /// Metres become steps as positions do: cut towards zero, limited to what can be stored.
    pub fn of_metres(x: f64, y: f64, radius: f64) -> Result<Circle, Trouble> {
        if !(x.is_finite() && y.is_finite()) {
            return Err(usage("X and Y are numbers"));
        }
        let limited = [x, y].map(|v| !(FARTHEST[0]..FARTHEST[1] + 0.25).contains(&v));
        let [x, y, _] = numbers::quantise([x as f32, y as f32, 0.0]);
        Ok(Circle { point: [x, y], radius: radius_of(radius * 4.0)?, limited })
    }

    fn of_steps(x: f64, y: f64, radius: f64) -> Result<Circle, Trouble> {
        let whole = |v: f64| {
            let n = v as i16;
            if n as f64 == v {
                Ok(n)
            } else {
                Err(usage("steps are whole numbers from -32768 to 32767"))
            }
        };
        Ok(Circle { point: [whole(x)?, whole(y)?], radius: radius_of(radius)?, limited: [false; 2] })
    }

    /// What is to be said where a coordinate was limited.
    pub fn notes(&self) -> Vec<String> {
        let names = ["X", "Y"].into_iter().zip(self.limited).filter(|(_, limited)| *limited);
        let [low, high] = FARTHEST;
        let said = |name| format!("{name} is limited to what is stored, {low} to {high} m");
        names.map(|(name, _)| said(name)).collect()
    }

    pub fn metres(&self) -> [f64; 3] {
        [self.point[0] as f64 / 4.0, self.point[1] as f64 / 4.0, self.radius as f64 / 4.0]
    }
}

fn usage(said: &str) -> Trouble {
    Fault::Usage(said.into()).plain()
}

fn radius_of(steps: f64) -> Result<u16, Trouble> {
    if (0.0..65536.0).contains(&steps) {
        Ok(steps as u16)
    } else {
        Err(usage("the radius is at least 0 and at most 16383.75 m (65535 steps)"))
    }
}

/// How far a node is from a point, in metres, by the stored steps.
fn distance(cell: &Cell, place: usize, [x, y]: [i16; 2]) -> (u64, f64) {
    let [px, py, _] = nodes::steps(&cell.nodes()[place]);
    let squared = (px as i64 - x as i64).pow(2) + (py as i64 - y as i64).pow(2);
    (squared as u64, (squared as f64).sqrt() / 4.0)
}

pub fn near(args: &cli::Near, input: &Input, json: bool) -> Result<Told, Trouble> {
    let of = if args.steps { Circle::of_steps } else { Circle::of_metres };
    let circle = of(args.x, args.y, args.radius)?;
    let opened = input.open(&args.yard)?;
    let cell = &opened.cell;
    let within = cell.within(circle.point, circle.radius);
    let told = Told::either(json, || text(cell, circle, &within), || value(cell, circle, &within));
    Ok(circle.notes().into_iter().fold(told, Told::note))
}

fn text(cell: &Cell, circle: Circle, within: &[usize]) -> String {
    let [x, y, r] = circle.metres();
    let mut t = format!("{} nodes within {r} m of {x} {y}\n", within.len());
    for &place in within {
        let (_, far) = distance(cell, place as usize, circle.point);
        // a String takes every byte
        let _ = writeln!(t, "{far:.2} m {}", nodes::line(cell, place as usize));
    }
    if within.is_empty() {
        match cell.nearest(circle.point) {
            Some(n) => {
                let far = (n.squared_distance as f64).sqrt() / 4.0;
                let _ = writeln!(t, "the nearest: {far:.2} m {}", nodes::line(cell, n.place));
            }
            None => t += "the yard has no nodes\n",
        }
    }
    t
}

fn value(cell: &Cell, circle: Circle, within: &[usize]) -> String {
    let listed = |place: usize| {
        let (squared, far) = distance(cell, place, circle.point);
        nodes::object(cell, place, format!(",\"squared_steps\":{squared},\"metres\":{far:?}"))
    };
    let places: Vec<String> = within.iter().map(|&p| listed(p as usize)).collect();
    let nearest = cell.nearest(circle.point).map_or("null".into(), |n| listed(n.place));
    let (Circle { point, radius, limited }, places) = (circle, places.join(","));
    let asked = format!("\"point_steps\":{point:?},\"radius_steps\":{radius},\"limited\":{limited:?}");
    format!("{{{asked},\"nodes\":[{places}],\"nearest\":{nearest}}}")
}
