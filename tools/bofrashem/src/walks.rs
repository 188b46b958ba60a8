//! `walk` and `way`, and how a walk is shown.
use crate::cli;
use crate::fault::{Fault, Trouble};
use crate::input::{Input, Opened};
use crate::kinds::Kind;
use crate::nodes;
use crate::output::Out;
use crate::Told;
use bofrashem::{Cell, End, Link, Path, Refusal, Round, VersionedRound, Walk};
use serde_json::{json, Value};
use std::fmt::Write;

pub fn walk(args: &cli::WalkArgs, input: &Input, json: bool) -> Result<Told, Trouble> {
    let opened = input.open(&args.yard)?;
    let start = opened.place(args.start, args.numbers)?;
    // by an index, so that a long walk is as fast where numbers aren't places
    let walk = opened.cell.walk_indexed(start, &args.choices).map_err(|r| opened.no_walk(r, &[start]))?;
    Ok(told(&opened.cell, &walk, &args.choices, json))
}

/// A walk in words or in JSON.
pub fn told(cell: &Cell, walk: &Walk, choices: &[u8], json: bool) -> Told {
    Told::either(json, || text(cell, walk, choices), || value(cell, walk, choices))
}

/// The ending, as on paper.
pub fn end_text(end: End) -> String {
    match end {
        End::Done => "end done".into(),
        End::NoLink => "end no-link".into(),
        End::NoNode => "end no-node".into(),
        End::Left(area, number) => format!("end left {area} {number}"),
    }
}

pub fn end_value(end: End) -> Value {
    match end {
        End::Done => json!({ "how": "done" }),
        End::NoLink => json!({ "how": "no-link" }),
        End::NoNode => json!({ "how": "no-node" }),
        End::Left(area, node) => json!({ "how": "left", "area": area, "node": node }),
    }
}

/// The link that was chosen at step k, where there is one.
fn chosen(cell: &Cell, place: usize, choices: &[u8], k: usize) -> Option<Link> {
    let choice = *choices.get(k)? as usize;
    cell.links_of(place as usize).ok()?.get(choice).copied()
}

/// The metres of the links that were followed.
pub fn metres(cell: &Cell, walk: &Walk, choices: &[u8]) -> u32 {
    let followed = walk.visited.len().saturating_sub(1);
    (0..followed).filter_map(|k| chosen(cell, walk.visited[k], choices, k)).map(|l| l.length as u32).sum()
}

fn text(cell: &Cell, walk: &Walk, choices: &[u8]) -> String {
    let mut t = String::new();
    for (k, &place) in walk.visited.iter().enumerate() {
        // a String takes every byte
        let _ = write!(t, "{k} {}", nodes::line(cell, place as usize));
        if let Some(choice) = choices.get(k) {
            let _ = match chosen(cell, place, choices, k) {
                Some(l) => write!(t, ", link {choice} of {} m", l.length),
                None => write!(t, ", no link {choice}"),
            };
        }
        t.push('\n');
    }
    let _ = writeln!(t, "{}", end_text(walk.end));
    let _ = writeln!(
        t,
        "{} links followed, {} m",
        walk.visited.len().saturating_sub(1),
        metres(cell, walk, choices)
    );
    t
}

/// What a step of a walk shows beside its node: its number, the choice, the link chosen.
pub fn step_names(k: usize, choices: &[u8], chosen: Option<Link>) -> String {
    let choice = choices.get(k).map_or("null".into(), u8::to_string);
    let link = chosen.map_or("null".into(), |l| {
        let to = format!("\"area\":{},\"node\":{}", l.area_id, l.node_id);
        format!("{{{to},\"flags\":{:?},\"length\":{}}}", l.flags, l.length)
    });
    format!(",\"step\":{k},\"choice\":{choice},\"link\":{link}")
}

/// A walk's JSON: its end, how many links were followed, their metres, and an object for each node.
pub fn walk_object(
    end: End,
    (followed, metres): (usize, u32),
    visited: impl Iterator<Item = String>,
) -> String {
    let visited = visited.collect::<Vec<_>>().join(",");
    let end = end_value(end);
    format!("{{\"end\":{end},\"followed\":{followed},\"metres\":{metres},\"visited\":[{visited}]}}")
}

pub fn value(cell: &Cell, walk: &Walk, choices: &[u8]) -> String {
    let visited = walk.visited.iter().enumerate().map(|(k, &place)| {
        nodes::object(cell, place as usize, step_names(k, choices, chosen(cell, place, choices, k)))
    });
    let followed = walk.visited.len().saturating_sub(1);
    walk_object(walk.end, (followed, metres(cell, walk, choices)), visited)
}

pub fn way(args: &cli::Way, input: &Input, json: bool) -> Result<Told, Trouble> {
    let opened = input.open(&args.yard)?;
    let (from, to) = (opened.place(args.from, args.numbers)?, opened.place(args.to, args.numbers)?);
    let cell = &opened.cell;
    let path = cell.shortest_path(from, to).map_err(|r| opened.no_walk(r, &[from, to]))?;
    let said = Told::either(json, || way_text(cell, &path), || way_value(cell, &path));
    match &args.round {
        None => Ok(said),
        Some(file) => {
            let out = Out { file, kind: Kind::Round, force: args.over.force };
            Told::to(out, round_of(&opened, from, path.choices)?, said)
        }
    }
}

fn way_text(cell: &Cell, path: &Path) -> String {
    let mut t = format!("{} m, {} links, choices", path.distance, path.choices.len());
    for choice in &path.choices {
        let _ = write!(t, " {choice}");
    }
    t.push('\n');
    for (k, &place) in path.places.iter().enumerate() {
        let _ = writeln!(t, "{k} {}", nodes::line(cell, place as usize));
    }
    t
}

fn way_value(cell: &Cell, path: &Path) -> String {
    let places: Vec<String> = path.places.iter().map(|&p| nodes::object(cell, p as usize, "")).collect();
    let (metres, choices, visited) = (path.distance, &path.choices, places.join(","));
    format!("{{\"metres\":{metres},\"choices\":{choices:?},\"visited\":[{visited}]}}")
}

/// The round file of a way: version 2, of the yard's area. A round starts at a number, so that number has to find the
/// node.
fn round_of(opened: &Opened, from: usize, choices: Vec<u8>) -> Result<Vec<u8>, Trouble> {
    let node = opened.cell.nodes().get(from).ok_or_else(|| opened.no_walk(Refusal::NoSuchPlace, &[from]))?;
    if opened.cell.node(node.node_id) != Some(from) {
        let said =
            format!("no round can start at place {from}: its number, {}, finds another node", node.node_id);
        return Err(Fault::BadInput(said).of(&opened.sections.file));
    }
    let area = opened.cell.area().and_then(|a| u16::try_from(a).ok());
    let round = VersionedRound { area, round: Round { start: node.node_id, choices } };
    round.to_bytes().map_err(|r| opened.refused(r))
}
