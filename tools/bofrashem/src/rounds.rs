//! `round make`, `round show`, `round follow`.
use crate::cli;
use crate::fault::{shown, Fault, Trouble};
use crate::input::Input;
use crate::kinds::Kind;
use crate::output::Out;
use crate::walks;
use crate::Told;
use bofrashem::{Round, VersionedRound};
use serde_json::{json, Value};
use std::fmt::Write;

/// "version 2, area 489, start node 0, 7 choices".
pub fn line(r: &VersionedRound) -> String {
    let area = r.area.map_or(String::new(), |area| format!(" area {area},"));
    let version = if r.area.is_some() { 2 } else { 1 };
    format!("version {version},{area} start node {}, {} choices", r.round.start, r.round.choices.len())
}

/// "version 2, area 489, from node 0": for a legend.
pub fn short(r: &VersionedRound) -> String {
    match r.area {
        Some(area) => format!("version 2, area {area}, from node {}", r.round.start),
        None => format!("version 1, from node {}", r.round.start),
    }
}

fn value(r: &VersionedRound) -> Value {
    let version = if r.area.is_some() { 2 } else { 1 };
    let (start, choices) = (r.round.start, &r.round.choices);
    json!({ "version": version, "area": r.area, "start": start, "count": choices.len(), "choices": choices })
}

pub fn make(args: &cli::Make, json: bool) -> Result<Told, Trouble> {
    let round =
        VersionedRound { area: args.area, round: Round { start: args.start, choices: args.choices.clone() } };
    let many = || format!("{} choices: a round file holds at most 65535", args.choices.len());
    let bytes = round.to_bytes().map_err(|r| Fault::said(r, many()).of(&args.output))?;
    let text = format!("{}: {} bytes, {}\n", shown(&args.output), bytes.len(), line(&round));
    let out = Out { file: &args.output, kind: Kind::Round, force: args.over.force };
    Told::to(out, bytes, Told::either(json, || text, || value(&round)))
}

pub fn show(args: &cli::Show, input: &Input, json: bool) -> Result<Told, Trouble> {
    let (round, _) = input.round(&args.round)?;
    let mut t = line(&round);
    t += "\nchoices";
    for choice in &round.round.choices {
        // a String takes every byte
        let _ = write!(t, " {choice}");
    }
    t.push('\n');
    Ok(Told::either(json, || t, || value(&round)))
}

pub fn follow(args: &cli::Follow, input: &Input, json: bool) -> Result<Told, Trouble> {
    let opened = input.open(&args.yard)?;
    let (round, _) = input.round(&args.round)?;
    let walk = opened.follow(&round, &args.round)?;
    Ok(walks::told(&opened.cell, &walk, &round.round.choices, json))
}
