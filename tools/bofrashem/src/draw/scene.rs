//! What there is to draw, in metres: nodes, links, junctions, and what lies over them.
use super::html::RoundFile;
use crate::fault::shown;
use crate::input::Opened;
use crate::near::Circle;
use crate::nodes::{self, Target, Targets};
use crate::sets::{self, Set};
use crate::walks;
use bofrashem::{numbers, Cell, CrossingWalk, End, Walk};
use std::collections::HashMap;
use std::path::Path;

/// A node's mark: where, and of which kind.
pub struct Dot {
    pub at: [f64; 2],
    pub ped: bool,
    pub post: bool,
    pub number: u16,
}

/// Links between two nodes: from the first to the second, and back where `both`.
pub struct Line {
    pub from: usize,
    pub to: usize,
    pub both: bool,
}

/// A link that leads to no node of the cell: out of it, towards a grid cell, or to a number that no node has.
pub struct Stub {
    pub from: usize,
    pub towards: Option<[f64; 2]>,
}

/// A junction's heightmap: its south-west corner, and its values, 2 m apart.
pub struct Heightmap {
    pub corner: [f64; 2],
    pub width: usize,
    pub height: usize,
    pub values: Vec<u8>,
}

/// The metres between two values of a heightmap (`Heightmap` of the Rust).
pub const VALUE_STEP: f64 = 2.0;

/// A walk to draw.
pub struct Track {
    pub places: Vec<usize>,
    pub metres: u32,
    /// What the legend says of it.
    pub said: String,
    pub end: End,
}

#[derive(Default)]
pub struct Overlay {
    pub round: Option<Track>,
    pub round_file: Option<RoundFile>,
    pub way: Option<Track>,
    pub near: Option<(Circle, Vec<usize>)>,
}

pub struct Scene {
    pub title: String,
    pub subtitle: String,
    pub dots: Vec<Dot>,
    pub lines: Vec<Line>,
    pub stubs: Vec<Stub>,
    pub links: usize,
    pub junctions: Vec<Heightmap>,
    /// The areas of the cells that have nodes.
    pub areas: Vec<u32>,
    pub outside: usize,
    pub over: Overlay,
}

/// How much was drawn, for scripts and tests.
pub struct Counts {
    pub nodes: usize,
    pub links: usize,
    pub junctions: usize,
    pub steps: Option<usize>,
    pub way: Option<usize>,
    pub near: Option<usize>,
}

impl Track {
    pub fn of_walk(cell: &Cell, walk: &Walk, choices: &[u8], said: String) -> Track {
        let places = walk.visited.iter().map(|&p| p as usize).collect();
        Track { places, metres: walks::metres(cell, walk, choices), said, end: walk.end }
    }

    /// A walk that crosses, over the nodes of all members: those of a member begin at its place in `first`.
    pub fn of_crossing(
        set: &Set,
        first: &[usize],
        walk: &CrossingWalk,
        choices: &[u8],
        said: String,
    ) -> Track {
        let places = walk.visited.iter().map(|at| first[at.member as usize] + at.place as usize).collect();
        let (_, metres) = sets::followed(set, walk, choices);
        Track { places, metres, said, end: walk.end }
    }

    pub fn of_path(path: &bofrashem::Path) -> Track {
        let places = path.places.iter().map(|&p| p as usize).collect();
        Track { places, metres: path.distance, said: "the fewest metres".into(), end: End::Done }
    }
}

impl Scene {
    pub fn of(opened: &Opened, over: Overlay) -> Scene {
        let cell = &opened.cell;
        let mut links = Links::default();
        links.add(cell, 0, |_, _, _| None);
        let area = cell.area();
        let held = format!("{} nodes · {} links", cell.nodes().len(), links.count);
        let subtitle = match area {
            Some(a) => {
                let [x, y] = numbers::cell_of_area(a);
                format!("area {a} · grid cell ({x}, {y}) · {held}")
            }
            None => "no nodes: a yard not drawn yet".into(),
        };
        Scene::over(&[opened], links, name(opened), subtitle, over)
    }

    /// A set's members in one picture, with the links that lead from one into another.
    pub fn of_set(set: &Set, over: Overlay) -> Scene {
        let (members, first) = (set.members.iter().collect::<Vec<_>>(), first(set));
        let mut links = Links::default();
        for (m, opened) in set.members.iter().enumerate() {
            // where a link crosses, a walk of one choice says
            let led = |place: usize, k: usize, target: Target| match target {
                Target::Out(area, _) if set.yard.member_of_area(area).is_some() => {
                    let walk = set.yard.crossing_walk(m, place, &[k as u8]).ok()?;
                    let at = walk.visited.get(1)?;
                    Some(first[at.member as usize] + at.place as usize)
                }
                _ => None,
            };
            links.add(&opened.cell, first[m], led);
        }
        let names: Vec<String> = members.iter().map(|m| name(m)).collect();
        let nodes: usize = members.iter().map(|m| m.cell.nodes().len()).sum();
        let areas: Vec<String> =
            members.iter().filter_map(|m| m.cell.area()).map(|a| a.to_string()).collect();
        let held = format!("{nodes} nodes · {} links", links.count);
        let subtitle = format!("{} cells · areas {} · {held}", members.len(), areas.join(", "));
        Scene::over(&members, links, names.join(" + "), subtitle, over)
    }

    fn over(members: &[&Opened], links: Links, title: String, subtitle: String, over: Overlay) -> Scene {
        let cells = || members.iter().map(|m| &m.cell);
        let outside = cells().filter_map(|c| Some(nodes::outside(c, c.area()?)));
        let (count, (lines, stubs)) = (links.count, links.drawn());
        Scene {
            title,
            subtitle,
            dots: cells().flat_map(dots).collect(),
            lines,
            stubs,
            links: count,
            junctions: cells().flat_map(junctions).collect(),
            areas: cells().filter_map(Cell::area).collect(),
            outside: outside.sum(),
            over,
        }
    }

    pub fn counts(&self) -> Counts {
        Counts {
            nodes: self.dots.len(),
            links: self.links,
            junctions: self.junctions.len(),
            steps: self.over.round.as_ref().map(|t| t.places.len()),
            way: self.over.way.as_ref().map(|t| t.places.len()),
            near: self.over.near.as_ref().map(|(_, within)| within.len()),
        }
    }

    /// The least and the most of x and y over all that is drawn.
    pub fn bounds(&self) -> [[f64; 2]; 2] {
        let mut all = self.dots.iter().map(|d| d.at).collect::<Vec<_>>();
        for j in &self.junctions {
            all.push(j.corner);
            all.push([j.corner[0] + j.width as f64 * VALUE_STEP, j.corner[1] + j.height as f64 * VALUE_STEP]);
        }
        if let Some((circle, _)) = &self.over.near {
            let [x, y, r] = circle.metres();
            let (low, high) = extent(&all);
            // a circle far larger than the yard would make it a dot
            let r =
                if all.is_empty() { r } else { r.min((high[0] - low[0]).max(high[1] - low[1]).max(10.0)) };
            all.extend([[x - r, y - r], [x + r, y + r]]);
        }
        if all.is_empty() {
            return [[-10.0, -10.0], [10.0, 10.0]];
        }
        let (low, high) = extent(&all);
        [low, high]
    }
}

fn extent(all: &[[f64; 2]]) -> ([f64; 2], [f64; 2]) {
    let low = all.iter().fold([f64::MAX; 2], |l, p| [l[0].min(p[0]), l[1].min(p[1])]);
    let high = all.iter().fold([f64::MIN; 2], |h, p| [h[0].max(p[0]), h[1].max(p[1])]);
    (low, high)
}

/// Where the nodes of each member begin among those of all.
pub fn first(set: &Set) -> Vec<usize> {
    let counts = set.members.iter().map(|m| m.cell.nodes().len());
    counts.scan(0, |sum, n| Some(std::mem::replace(sum, *sum + n))).collect()
}

fn name(opened: &Opened) -> String {
    opened.sections.file.file_name().map_or(String::new(), |name| shown(Path::new(name)))
}

fn dots(cell: &Cell) -> Vec<Dot> {
    let dot = |n: &bofrashem::Node| Dot {
        at: [n.position[0] as f64, n.position[1] as f64],
        ped: n.is_ped_node(),
        post: n.link_count() == 0,
        number: n.node_id,
    };
    cell.nodes().iter().map(dot).collect()
}

/// Every link of every node: pairs of the lower and the higher node, and whether it leads back; stubs; how many links.
#[derive(Default)]
struct Links {
    pairs: Vec<(usize, usize, bool)>,
    stubs: Vec<Stub>,
    count: usize,
}

impl Links {
    /// Those of a cell whose nodes begin at this one of all; `across` says which of all a link out of the cell leads
    /// to.
    fn add(&mut self, cell: &Cell, first: usize, across: impl Fn(usize, usize, Target) -> Option<usize>) {
        let (mut targets, mut known) = (Targets::new(cell), HashMap::new());
        for place in 0..cell.nodes().len() {
            for (k, link) in cell.links_of(place).unwrap_or_default().iter().enumerate() {
                self.count += 1;
                let (from, target) = (first + place, targets.of(place, k, link));
                let to = match target {
                    Target::Node(to) => Some(first + to),
                    other => {
                        *known.entry((link.area_id, link.node_id)).or_insert_with(|| across(place, k, other))
                    }
                };
                match (to, target) {
                    (Some(to), _) => self.pairs.push((from.min(to), from.max(to), to < from)),
                    (None, Target::Out(area, _)) => self.stubs.push(Stub { from, towards: centre(area) }),
                    (None, _) => self.stubs.push(Stub { from, towards: None }),
                }
            }
        }
    }

    /// A line for two nodes that are linked, and the stubs.
    fn drawn(mut self) -> (Vec<Line>, Vec<Stub>) {
        self.pairs.sort_unstable();
        self.pairs.dedup();
        let mut lines: Vec<Line> = Vec::new();
        for (low, high, back) in self.pairs {
            match lines.last_mut() {
                // the same two nodes, once there and once back
                Some(l) if back && (l.from, l.to) == (low, high) => l.both = true,
                _ if back => lines.push(Line { from: high, to: low, both: false }),
                _ => lines.push(Line { from: low, to: high, both: false }),
            }
        }
        (lines, self.stubs)
    }
}

/// The middle of the grid cell that an area names.
fn centre(area: u16) -> Option<[f64; 2]> {
    let [x0, y0, x1, y1] = numbers::cell_bounds(numbers::cell_of_area(area as u32)).ok()?;
    Some([(x0 + x1) as f64 / 2.0, (y0 + y1) as f64 / 2.0])
}

fn junctions(cell: &Cell) -> Vec<Heightmap> {
    cell.junctions()
        .iter()
        .enumerate()
        .map(|(at, j)| Heightmap {
            corner: j.corner.map(|c| c as f64),
            width: j.width as usize,
            height: j.height as usize,
            values: cell.values_of(at).unwrap_or_default().to_vec(),
        })
        .collect()
}
