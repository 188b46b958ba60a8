//! `info`, of one yard or of many.
use crate::cli;
use crate::container::VERSION;
use crate::fault::{shown, Trouble};
use crate::input::{Input, Opened};
use crate::nodes::{self, Kinds};
use crate::stream::Stream;
use crate::{many, sound, Told};
use bofrashem::{count, numbers, Counts};
use serde_json::{json, Value};
use std::fmt::Write;

/// What is said of a yard's area.
struct Area {
    area: u32,
    island: bool,
    grid: [u32; 2],
    bounds: [f32; 4],
    file_name: Option<String>,
    outside: usize,
}

struct Info {
    counts: Counts,
    kinds: Kinds,
    area: Option<Area>,
    /// The area that the file's name names.
    named: Option<u32>,
    sound: bool,
    reason: Option<sound::Reason>,
}

pub fn info(args: &cli::Info, input: &Input, stream: &mut Stream) -> Result<Told, Trouble> {
    let json = stream.json;
    let said = |yard: &cli::Yard| {
        let opened = input.open(yard)?;
        let info = of(&opened)?;
        Ok(if json { format!("{}\n", value(&opened, &info)) } else { text(&opened, &info) })
    };
    match args.yards.0.as_slice() {
        [yard] => Ok(Told::bytes(said(yard)?.into_bytes())),
        yards => of_many(yards, stream, said),
    }
}

/// Each yard's answer, and an error in its place.
fn of_many(
    yards: &[cli::Yard],
    stream: &mut Stream,
    said: impl Fn(&cli::Yard) -> Result<String, Trouble> + Sync,
) -> Result<Told, Trouble> {
    let (mut first, mut status, mut bad) = (true, 0, 0);
    many::each(yards, stream, said, |stream, _, answer| {
        if !std::mem::take(&mut first) && !stream.json {
            stream.say("\n");
        }
        match answer {
            Ok(words) => stream.say(&words),
            Err(trouble) => {
                (status, bad) = (trouble.fault.status().max(status), bad + 1);
                if stream.json {
                    stream.say(&format!("{}\n", trouble.value()));
                } else {
                    stream.say(&format!("file       {}\n", trouble.line()));
                }
            }
        }
    });
    stream.end()?;
    let told = Told::bytes(Vec::new()).status(status);
    Ok(if stream.terminal {
        told.note(format!("{} yards, {bad} of them not read", yards.len()))
    } else {
        told
    })
}

fn of(opened: &Opened) -> Result<Info, Trouble> {
    let (s, cell) = (&opened.sections, &opened.cell);
    let counts = count(&s.system, &s.graphics).map_err(|r| opened.refused(r))?;
    let area = cell.area().map(|area| area_of(opened, area)).transpose()?;
    let sound = cell.is_sound();
    let reason = if sound { None } else { sound::reason(cell) };
    let name = s.file.as_os_str().as_encoded_bytes();
    Ok(Info {
        counts,
        kinds: nodes::kinds(cell),
        area,
        named: numbers::area_id_from_file_name(name),
        sound,
        reason,
    })
}

fn area_of(opened: &Opened, area: u32) -> Result<Area, Trouble> {
    let (grid, island) = (numbers::cell_of_area(area), numbers::is_island_area(area));
    let bounds = numbers::cell_bounds(grid).map_err(|r| opened.refused(r))?;
    // the proved name is that of the grid cell; an island's file is named by its own area
    let file_name = if area < 1024 { numbers::cell_file_name(grid).ok() } else { None };
    Ok(Area { area, island, grid, bounds, file_name, outside: nodes::outside(&opened.cell, area) })
}

fn form(opened: &Opened) -> String {
    let s = &opened.sections;
    let sizes = format!("{} system and {} graphics bytes", s.system.len(), s.graphics.len());
    match s.container {
        Some((version, stored)) => {
            let other = if version == VERSION { "" } else { " (path node files have 1)" };
            format!(
                "container RSC7, version {version}{other}, {}: {sizes}",
                if stored { "stored" } else { "deflated" }
            )
        }
        None if s.graphics.is_empty() => format!("section of {} bytes", s.system.len()),
        None => format!("two sections: {sizes}"),
    }
}

fn text(opened: &Opened, i: &Info) -> String {
    let mut t = format!("file       {}: {}\n", shown(&opened.sections.file), form(opened));
    let (c, k) = (&i.counts, &i.kinds);
    // a String takes every byte
    let _ = writeln!(
        t,
        "nodes      {} ({} road, {} ped; {} posts, without links)",
        c.nodes, k.road, k.ped, k.posts
    );
    let _ = writeln!(t, "links      {}", c.links);
    let _ = writeln!(t, "junctions  {} ({} heightmap values, {} refs)", c.junctions, c.heights, c.refs);
    match &i.area {
        Some(a) => t += &area_text(a, i.named),
        None => t += "area       none: no nodes",
    }
    if i.area.is_none() && opened.sections.system.is_empty() {
        t += ", a yard not drawn yet";
    }
    if i.area.is_none() {
        t += "\n";
    }
    if let Some([low, high]) = nodes::bounds(&opened.cell) {
        let _ = writeln!(t, "bounds     {} to {} m", nodes::metres(low), nodes::metres(high));
    }
    t += &match (i.sound, i.reason) {
        (true, _) => "sound      yes\n".to_string(),
        (false, Some(reason)) => format!("sound      no: {reason}\n"),
        (false, None) => "sound      no\n".to_string(),
    };
    t
}

fn area_text(a: &Area, named: Option<u32>) -> String {
    let mut t = format!("area       {}{}", a.area, if a.island { " (an island's)" } else { "" });
    match (&a.file_name, named) {
        (_, Some(named)) if named != a.area => t += &format!(", but the file's name says {named}"),
        (Some(name), None) => t += &format!(", file {name}"),
        _ => {}
    }
    let [x0, y0, x1, y1] = a.bounds;
    t += &format!("\ngrid cell  ({}, {}): x {x0} to {x1}, y {y0} to {y1} m", a.grid[0], a.grid[1]);
    if a.outside > 0 {
        t += &format!("; {} nodes stand outside it", a.outside);
    }
    t + "\n"
}

fn value(opened: &Opened, i: &Info) -> Value {
    let (s, c, k) = (&opened.sections, &i.counts, &i.kinds);
    let bounds = nodes::bounds(&opened.cell).map(|[low, high]| json!({ "min": low, "max": high }));
    let [vehicle, ped] = opened.cell.kind_counts();
    json!({
        "file": shown(&s.file),
        "form": if s.container.is_some() { "container" } else { "section" },
        "container": s.container.map(|(version, stored)| json!({ "version": version, "stored": stored })),
        "system_bytes": s.system.len(), "graphics_bytes": s.graphics.len(),
        "nodes": c.nodes, "road_nodes": k.road, "ped_nodes": k.ped, "posts": k.posts,
        "root_vehicle_nodes": vehicle, "root_ped_nodes": ped,
        "links": c.links, "junctions": c.junctions, "heights": c.heights, "refs": c.refs,
        "area": i.area.as_ref().map(|a| a.area),
        "island": i.area.as_ref().map(|a| a.island),
        "grid_cell": i.area.as_ref().map(|a| a.grid),
        "grid_bounds": i.area.as_ref().map(|a| a.bounds),
        "nodes_outside_grid_cell": i.area.as_ref().map(|a| a.outside),
        "file_name": i.area.as_ref().and_then(|a| a.file_name.clone()),
        "area_of_file_name": i.named,
        "bounds": bounds,
        "sound": i.sound,
        "unsound_because": i.reason.map(|r| r.value()),
    })
}
