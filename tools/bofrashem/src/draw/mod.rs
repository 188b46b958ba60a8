//! `draw`: a yard as a picture, and the workshop's page of a printed round.
mod html;
mod labels;
mod legend;
mod paper;
mod plot;
mod scene;
mod svg;
mod tracks;
mod view;
mod xml;

use crate::cli;
use crate::fault::{shown, Fault, Trouble};
use crate::input::{Input, Opened};
use crate::kinds::Kind;
use crate::near::Circle;
use crate::output::Out;
use crate::print::Followed;
use crate::sets::Set;
use crate::{rounds, rsvg, Told};
use bofrashem::Cell;
use scene::{Overlay, Scene, Track};
use serde_json::json;
use std::path::Path;

pub fn draw(args: &cli::Draw, input: &Input, json: bool) -> Result<Told, Trouble> {
    let kind = kind(&args.output)?;
    Out { file: &args.output, kind, force: args.over.force }.allowed()?;
    let (scene, bytes) = match args.yards.0.as_slice() {
        [yard] => {
            let opened = input.open(yard)?;
            let scene = Scene::of(&opened, overlay(args, input, &opened)?);
            let bytes = picture(&scene, &[&opened], kind)?;
            (scene, bytes)
        }
        yards => {
            several(args)?;
            let set = Set::open(yards, input)?;
            let scene = Scene::of_set(&set, overlay_of_set(args, input, &set)?);
            let members: Vec<&Opened> = set.members.iter().collect();
            let bytes = picture(&scene, &members, kind)?;
            (scene, bytes)
        }
    };
    told(args, kind, &scene, bytes, json)
}

fn told(args: &cli::Draw, kind: Kind, scene: &Scene, bytes: Vec<u8>, json: bool) -> Result<Told, Trouble> {
    let (file, counts) = (shown(&args.output), scene.counts());
    let steps = counts.steps.map_or(String::new(), |n| format!(", {n} steps"));
    let text =
        format!("{file}: {} bytes, {} nodes, {} links{steps}\n", bytes.len(), counts.nodes, counts.links);
    let value = json!({
        "file": file, "bytes": bytes.len(), "nodes": counts.nodes, "links": counts.links,
        "junctions": counts.junctions, "steps": counts.steps, "way": counts.way, "near": counts.near,
        "members": args.yards.0.len(),
    });
    let notes = scene.over.near.iter().flat_map(|(circle, _)| circle.notes());
    let said = notes.fold(Told::either(json, || text, || value), Told::note);
    Told::to(Out { file: &args.output, kind, force: args.over.force }, bytes, said)
}

/// What kind of picture a file's name asks for: an SVG where it has no ending. Another ending is taken for a slip.
fn kind(to: &Path) -> Result<Kind, Trouble> {
    let Some(ending) = to.extension() else { return Ok(Kind::Svg) };
    let endings = [
        ("svg", Kind::Svg),
        ("html", Kind::Html),
        ("htm", Kind::Html),
        ("png", Kind::Png),
        ("pdf", Kind::Pdf),
    ];
    let known = endings.into_iter().find(|(name, _)| ending.eq_ignore_ascii_case(name));
    known
        .map(|(_, kind)| kind)
        .ok_or_else(|| usage("a picture's name ends in .svg, .html, .png or .pdf").of(to))
}

fn usage(said: &str) -> Fault {
    Fault::Usage(said.into())
}

/// What can't be asked of several yards.
fn several(args: &cli::Draw) -> Result<(), Trouble> {
    if args.way.is_some() {
        return Err(usage("--way is of one yard: ways don't cross").plain());
    }
    Ok(())
}

fn picture(scene: &Scene, yards: &[&Opened], kind: Kind) -> Result<Vec<u8>, Trouble> {
    match kind {
        Kind::Html => Ok(html::page(scene, yards, scene.over.round_file.as_ref())?.into_bytes()),
        Kind::Png => rsvg::convert(&svg::picture(scene), "png"),
        Kind::Pdf => rsvg::convert(&svg::picture(scene), "pdf"),
        _ => Ok(svg::picture(scene).into_bytes()),
    }
}

fn overlay(args: &cli::Draw, input: &Input, opened: &Opened) -> Result<Overlay, Trouble> {
    let mut over = Overlay::default();
    if let Some(file) = &args.round {
        let (round, bytes) = input.round(file)?;
        let walk = opened.follow(&round, file)?;
        over.round_file = Some(html::RoundFile::of(file, bytes, 0));
        over.round = Some(Track::of_walk(&opened.cell, &walk, &round.round.choices, rounds::short(&round)));
    }
    if let Some([from, to]) = args.way.as_deref() {
        let (from, to) = (opened.place(*from, args.numbers)?, opened.place(*to, args.numbers)?);
        let path = opened.cell.shortest_path(from, to).map_err(|r| opened.no_walk(r, &[from, to]))?;
        over.way = Some(Track::of_path(&path));
    }
    over.near = circle(args)?.map(|circle| (circle, within(&opened.cell, circle)));
    Ok(over)
}

fn overlay_of_set(args: &cli::Draw, input: &Input, set: &Set) -> Result<Overlay, Trouble> {
    let (mut over, first) = (Overlay::default(), scene::first(set));
    if let Some(file) = &args.round {
        let (round, bytes) = input.round(file)?;
        let walk = set.follow(&round, args.member, file)?;
        over.round_file = Some(html::RoundFile::of(file, bytes, args.member));
        let (choices, said) = (&round.round.choices, rounds::short(&round));
        over.round = Some(Track::of_crossing(set, &first, &walk, choices, said));
    }
    over.near = circle(args)?.map(|circle| {
        let of_member = |m: usize| within(&set.members[m].cell, circle).into_iter().map(move |p| (m, p));
        let all = (0..set.members.len()).flat_map(of_member);
        (circle, all.map(|(m, p)| first[m] + p).collect())
    });
    Ok(over)
}

fn circle(args: &cli::Draw) -> Result<Option<Circle>, Trouble> {
    match args.near.as_deref() {
        Some([x, y, r]) => Circle::of_metres(*x, *y, *r).map(Some),
        _ => Ok(None),
    }
}

fn within(cell: &Cell, circle: Circle) -> Vec<usize> {
    cell.within(circle.point, circle.radius).into_iter().map(|p| p as usize).collect()
}

/// One A4 page: the lines beside the drawn round.
pub fn paper(f: &Followed, text: &str, title: &str) -> String {
    let track = Track::of_walk(&f.opened.cell, &f.walk, &f.round.round.choices, rounds::short(&f.round));
    let scene = Scene::of(&f.opened, Overlay { round: Some(track), ..Overlay::default() });
    paper::paper(&scene, text, title)
}
