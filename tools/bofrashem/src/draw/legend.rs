//! The legend: what is drawn, each with its mark, and where on the grid the yard is.
use super::plot::{own_bounds, shade_of, Drawn, ARROW_ROOM, KINDS, SHADES};
use super::scene::{Scene, Track};
use super::xml::{escaped, put, Write};
use crate::walks::end_text;

const KIND_WORDS: [&str; 4] = ["road node", "ped node", "post: road node, no links", "ped node, no links"];
const LINE: &str = "<path class=\"link\" stroke-width=\"1.1\" d=\"M0 0h24\"/>";
const HEADS: &str = "<path class=\"arrows\" stroke-width=\"1\" d=\"M14 -3L19 0L14 3M10 -3L5 0L10 3\"/>";
const ONE_WAY: &str = "<path class=\"link one\" stroke-width=\"1.4\" d=\"M0 0h24\"/>\
    <path class=\"arrows one\" stroke-width=\"1.3\" d=\"M12 -4L18 0L12 4\"/>";
const OUT: &str = "<path class=\"left\" stroke-width=\"1.4\" d=\"M0 0h22M17 -4L22 0L17 4\"/>";
const LOST: &str = "<path class=\"lost\" stroke-width=\"1.4\" d=\"M0 0h8M8 -4l8 8m0 -8l-8 8\"/>";
const STEP: &str = "<g class=\"mark step\"><rect x=\"2\" y=\"-7\" width=\"20\" height=\"14\" rx=\"7\"/>\
    <text x=\"12\" y=\"3.6\">3</text></g>";
const NEAR: &str = "<circle class=\"reach\" stroke-width=\"1.6\" cx=\"12\" r=\"7\"/>\
    <path class=\"point\" stroke-width=\"1.6\" d=\"M8 0h8M12 -4v8\"/>";
const EDGE: &str = "<path class=\"edge\" stroke-width=\"1.8\" d=\"M0 0h24\"/>";
const GRID: &str = "<path class=\"grid\" d=\"M0 0h24\"/>";
const NUMBER: &str = "<text class=\"number\" x=\"4\" y=\"4\">12</text>";

/// A line of a track, and its ends.
pub fn track_mark(class: &str) -> String {
    let w = if class == "round" { 2.6 } else { 4.0 };
    format!(
        "<path class=\"track {class}\" stroke-width=\"{w}\" d=\"M0 0h24\"/>\
         <path class=\"track arrows {class}\" stroke-width=\"1.8\" d=\"M9 -5L16 0L9 5\"/>"
    )
}

pub fn ends_mark(class: &str) -> String {
    format!(
        "<g class=\"mark start {class}\"><circle cx=\"5\" r=\"5.5\"/></g>\
         <g class=\"mark end {class}\"><rect x=\"14\" y=\"-5\" width=\"10\" height=\"10\"/></g>"
    )
}

pub fn dot_mark(class: &str, x: f64) -> String {
    let hole = format!("<path class=\"hole {class}\" stroke-width=\"5\" d=\"M{x} 0h.01\"/>");
    let hole = if class.ends_with("post") { hole } else { String::new() };
    format!("<path class=\"node {class}\" stroke-width=\"9\" d=\"M{x} 0h.01\"/>{hole}")
}

/// Lines of a legend, one below the other.
pub struct Column {
    pub out: String,
    x: f64,
    y: f64,
}

pub fn legend(drawn: &Drawn, at: [f64; 2]) -> String {
    let scene = drawn.scene;
    let mut l = Column::new(at);
    for ((class, ped, post), words) in KINDS.into_iter().zip(KIND_WORDS) {
        let n = scene.dots.iter().filter(|d| (d.ped, d.post) == (ped, post)).count();
        l.counted(n, &dot_mark(class, 12.0), words);
    }
    l.links(drawn);
    let shades = (0..SHADES).map(|k| {
        format!("<rect x=\"{}\" y=\"-5\" width=\"2.1\" height=\"10\" fill=\"{}\"/>", 2 * k, shade_of(k))
    });
    l.counted(scene.junctions.len(), &shades.collect::<String>(), "junction heights, low to high");
    l.over(scene);
    let edges: Vec<[f64; 4]> = scene.areas.iter().filter_map(|&area| own_bounds(area)).collect();
    if !edges.is_empty() {
        let whose =
            if edges.len() > 1 { "edges of the areas' grid cells" } else { "edge of the area's grid cell" };
        let seen = if edges.iter().any(|&b| drawn.view.shows_edge(b)) { "" } else { ": out of sight" };
        l.item(EDGE, &format!("{whose}{seen}"));
    }
    l.item(GRID, "grid lines, 512 m apart");
    l.item(NUMBER, "a node's number; some are left out");
    l.inset(scene, &edges);
    format!("<g id=\"legend\">\n{}</g>\n", l.out)
}

impl Column {
    pub fn new([x, y]: [f64; 2]) -> Column {
        Column { out: String::new(), x, y }
    }

    pub fn item(&mut self, mark: &str, words: &str) {
        let (x, y) = (self.x, self.y);
        put!(self.out, "<g transform=\"translate({x} {y:.1})\">{mark}");
        put!(self.out, "<text x=\"34\" y=\"4\">{}</text></g>\n", escaped(words));
        self.y += 21.0;
    }

    /// An item with its count, where there is any.
    fn counted(&mut self, n: usize, mark: &str, words: &str) {
        if n > 0 {
            self.item(mark, &format!("{words} ({n})"));
        }
    }

    fn words(&mut self, words: &str) {
        let (x, y) = (self.x + 34.0, self.y - 1.0);
        put!(self.out, "<text class=\"small\" x=\"{x}\" y=\"{y:.1}\">{}</text>\n", escaped(words));
        self.y += 16.0;
    }

    fn links(&mut self, drawn: &Drawn) {
        let scene = drawn.scene;
        let both = scene.lines.iter().filter(|l| l.both).count();
        let lost = scene.stubs.iter().filter(|s| s.towards.is_none()).count();
        let heads = if drawn.spacing < ARROW_ROOM { "" } else { HEADS };
        self.counted(both, &format!("{LINE}{heads}"), "links there and back, pairs");
        self.counted(scene.lines.len() - both, ONE_WAY, "link one way");
        let out = if scene.areas.len() > 1 { "link out of the set" } else { "link out of the cell" };
        self.counted(scene.stubs.len() - lost, OUT, out);
        self.counted(lost, LOST, "link to no node");
    }

    /// What lies over the yard.
    fn over(&mut self, scene: &Scene) {
        let over = &scene.over;
        if let Some(t) = &over.round {
            self.track("round", "round", t, scene);
            self.item(STEP, "a step of the round");
        }
        if let Some(t) = &over.way {
            self.track("way", "short way", t, scene);
        }
        if let Some((circle, within)) = &over.near {
            let [x, y, r] = circle.metres();
            self.item(NEAR, &format!("within {r} m of ({x}, {y}): {} nodes", within.len()));
        }
    }

    fn track(&mut self, class: &str, name: &str, t: &Track, scene: &Scene) {
        let links = t.places.len().saturating_sub(1);
        self.item(&track_mark(class), &format!("{name}: {links} links, {} m", t.metres));
        self.words(&t.said);
        if class == "round" {
            self.words(&end_text(t.end));
        }
        let number = |end: Option<&usize>| end.map_or(0, |&p| scene.dots[p].number);
        let (first, last) = (number(t.places.first()), number(t.places.last()));
        self.item(&ends_mark(class), &format!("start, node {first}, and end, node {last}"));
    }

    /// The whole grid, the areas' cells on it, and where the nodes are.
    fn inset(&mut self, scene: &Scene, edges: &[[f64; 4]]) {
        let [low, high] = scene.bounds();
        let Some(&[x0, y0, x1, y1]) = edges.first() else { return };
        let (size, left, top) = (112.0, self.x, self.y + 2.0);
        let at = |x: f64, y: f64| [left + (x + 8192.0) / 16384.0 * size, top + (8192.0 - y) / 16384.0 * size];
        let [cx, cy] = at((low[0] + high[0]) / 2.0, (low[1] + high[1]) / 2.0);
        let out = &mut self.out;
        put!(out, "<rect class=\"map\" x=\"{left}\" y=\"{top:.1}\" width=\"{size}\" height=\"{size}\"/>\n");
        for &[x0, y0, x1, y1] in edges {
            let ([l, t], [r, b]) = (at(x0, y1), at(x1, y0));
            let (w, h) = (r - l, b - t);
            put!(out, "<rect class=\"own\" x=\"{l:.1}\" y=\"{t:.1}\" width=\"{w:.1}\" height=\"{h:.1}\"/>\n");
        }
        put!(out, "<path class=\"here\" d=\"M{:.1} {cy:.1}h8M{cx:.1} {:.1}v8\"/>\n", cx - 4.0, cy - 4.0);
        let mut lines = vec!["the grid, 32 × 32 cells".to_string()];
        if edges.len() > 1 {
            lines.extend([format!("□ cells of {} areas", edges.len()), "+ the nodes".into()]);
        } else {
            lines.extend([format!("x {x0} to {x1} m"), format!("y {y0} to {y1} m")]);
            lines.extend(["□ the area's cell".into(), "+ the nodes".into()]);
        }
        if scene.outside > 0 {
            lines.push(format!("{} of them outside it", scene.outside));
        }
        for (k, words) in lines.iter().enumerate() {
            let (x, y) = (left + size + 12.0, top + 12.0 + 18.0 * k as f64);
            put!(out, "<text class=\"small\" x=\"{x:.1}\" y=\"{y:.1}\">{words}</text>\n");
        }
    }
}
