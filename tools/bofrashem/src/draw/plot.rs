//! The plot: heightmaps, grid lines, links, nodes, and the scale bar. What lies over them is in tracks.rs.
use super::labels::Taken;
use super::scene::{Heightmap, Scene, VALUE_STEP};
use super::view::View;
use super::xml::{put, Write};
use bofrashem::numbers;

/// How a scene is drawn: where, and how large its marks are.
pub struct Drawn<'a> {
    pub scene: &'a Scene,
    pub view: View,
    /// Where each node stands.
    pub points: Vec<[f64; 2]>,
    /// The usual distance of two linked nodes.
    pub spacing: f64,
    pub taken: Taken,
    /// Nodes that have a mark of their own around them.
    pub ends: Vec<usize>,
}

/// Arrows are drawn where there is room for them.
pub const ARROW_ROOM: f64 = 16.0;
/// Where nodes are closer than this, links are thin.
const THIN: f64 = 6.0;
/// Shades from the lowest to the highest value of a heightmap.
pub const SHADES: usize = 12;
/// More values than this are not shaded: the outline alone is drawn.
const VALUES_MOST: usize = 400_000;

/// The colour of a shade, from light to dark.
pub fn shade_of(k: usize) -> String {
    let [r, g, b] = [(244, 140), (236, 106), (216, 63)].map(|(low, high)| {
        let share = k as f64 / (SHADES - 1) as f64;
        (low as f64 + (high as f64 - low as f64) * share) as u8
    });
    format!("#{r:02x}{g:02x}{b:02x}")
}

/// The grid cell of an area, in metres: left, bottom, right, top.
pub fn own_bounds(area: u32) -> Option<[f64; 4]> {
    numbers::cell_bounds(numbers::cell_of_area(area)).ok().map(|b| b.map(|v| v as f64))
}

/// An open arrow head on the way from a to b, at this share of it: one end, the tip, the other end.
pub fn arrow(out: &mut String, a: [f64; 2], b: [f64; 2], share: f64, size: f64) -> Option<[[f64; 2]; 3]> {
    let (dx, dy) = (b[0] - a[0], b[1] - a[1]);
    let far = dx.hypot(dy);
    if far < 1e-6 {
        return None;
    }
    let (ux, uy) = (dx / far * size, dy / far * size);
    let [x, y] = [a[0] + dx * share, a[1] + dy * share];
    let (one, other) = ([x - ux - uy * 0.6, y - uy + ux * 0.6], [x - ux + uy * 0.6, y - uy - ux * 0.6]);
    put!(out, "M{:.2} {:.2}L{x:.2} {y:.2}", one[0], one[1]);
    put!(out, "L{:.2} {:.2}", other[0], other[1]);
    Some([one, [x, y], other])
}

impl<'a> Drawn<'a> {
    pub fn new(scene: &'a Scene, view: View) -> Drawn<'a> {
        let points: Vec<[f64; 2]> = scene.dots.iter().map(|d| view.at(d.at)).collect();
        let spacing = view.spacing(scene, &points);
        let [left, top, w, h] = view.plot;
        let mut taken = Taken::new([left, top, left + w, top + h], &points);
        let [x, y, wide, high] = scale_box(&view);
        taken.mark([x, y, x + wide, y + high]);
        Drawn { scene, view, points, spacing, taken, ends: Vec::new() }
    }

    /// The radius of a node's mark.
    pub fn radius(&self) -> f64 {
        (self.spacing * 0.2).clamp(1.1, 5.0)
    }

    pub fn plot(mut self) -> String {
        let [left, top, w, h] = self.view.plot;
        let frame = format!("x=\"{left}\" y=\"{top}\" width=\"{w}\" height=\"{h}\"");
        let mut out =
            format!("<clipPath id=\"clip\"><rect {frame}/></clipPath>\n<rect class=\"frame\" {frame}/>\n");
        out += "<g clip-path=\"url(#clip)\">\n<g id=\"world\">\n";
        out += &self.heightmaps();
        out += &self.grid();
        out += &self.links();
        out += &self.near();
        out += &self.tracks();
        out += &self.dots();
        // marks take their room before labels do
        out += &self.marks();
        out += "</g>\n";
        out += &self.labels();
        out += "</g>\n";
        out + &self.scale_bar()
    }

    /// Squares of 2 m, a shade for each value; the outline of each heightmap.
    fn heightmaps(&self) -> String {
        let values: usize = self.scene.junctions.iter().map(|j| j.values.len()).sum();
        let (mut shades, mut outlines) = (vec![String::new(); SHADES], String::new());
        for j in &self.scene.junctions {
            if values <= VALUES_MOST {
                self.shade(j, &mut shades);
            }
            let ([x, y], s) = (self.view.at(j.corner), VALUE_STEP * self.view.scale);
            let (w, h) = (j.width as f64 * s, j.height as f64 * s);
            put!(outlines, "M{x:.1} {y:.1}h{w:.1}v{:.1}h{:.1}z", -h, -w);
        }
        let mut out = format!("<g id=\"junctions\" data-count=\"{}\">\n", self.scene.junctions.len());
        for (k, d) in shades.iter().enumerate().filter(|(_, d)| !d.is_empty()) {
            put!(out, "<path style=\"fill:{}\" d=\"{d}\"/>\n", shade_of(k));
        }
        if !outlines.is_empty() {
            put!(out, "<path class=\"junction\" data-w=\"0.8\" d=\"{outlines}\"/>\n");
        }
        out + "</g>\n"
    }

    /// A heightmap's rows go north from its corner; a run of one shade is one rectangle.
    fn shade(&self, j: &Heightmap, shades: &mut [String]) {
        let s = VALUE_STEP * self.view.scale;
        let [x0, y0] = self.view.at(j.corner);
        let shade = |v: u8| v as usize * SHADES / 256;
        for (row, values) in j.values.chunks(j.width.max(1)).enumerate() {
            let (y, mut from) = (y0 - (row + 1) as f64 * s, 0);
            while from < values.len() {
                let k = shade(values[from]);
                let run = values[from..].iter().take_while(|&&v| shade(v) == k).count();
                let (x, w) = (x0 + from as f64 * s, run as f64 * s);
                put!(shades[k], "M{x:.1} {y:.1}h{w:.1}v{s:.1}h{:.1}z", -w);
                from += run;
            }
        }
    }

    /// The edges of the grid's cells, 512 m apart, and those of the area's own cell.
    fn grid(&self) -> String {
        let [x0, y0, x1, y1] = self.view.edges();
        let mut lines = String::new();
        for m in (0..=32).map(|k| -8192.0 + 512.0 * k as f64) {
            // a line a little longer than the plot, and no longer than the grid
            let reach = |v: f64| v.clamp(-8192.0, 8192.0);
            if (x0..=x1).contains(&m) {
                let ([x, a], [_, b]) =
                    (self.view.at([m, reach(y0 - 600.0)]), self.view.at([m, reach(y1 + 600.0)]));
                put!(lines, "M{x:.1} {a:.1}V{b:.1}");
            }
            if (y0..=y1).contains(&m) {
                let ([a, y], [b, _]) =
                    (self.view.at([reach(x0 - 600.0), m]), self.view.at([reach(x1 + 600.0), m]));
                put!(lines, "M{a:.1} {y:.1}H{b:.1}");
            }
        }
        let mut out = String::new();
        if !lines.is_empty() {
            put!(out, "<path class=\"grid\" data-w=\"0.9\" d=\"{lines}\"/>\n");
        }
        let mut edges = String::new();
        for [x0, y0, x1, y1] in self.scene.areas.iter().filter_map(|&area| own_bounds(area)) {
            let ([l, t], [r, b]) = (self.view.at([x0, y1]), self.view.at([x1, y0]));
            put!(edges, "M{l:.1} {t:.1}H{r:.1}V{b:.1}H{l:.1}z");
        }
        if !edges.is_empty() {
            put!(out, "<path class=\"edge\" id=\"edge\" data-w=\"1.8\" d=\"{edges}\"/>\n");
        }
        out
    }

    /// A line for two nodes that are linked, with an arrow head for each direction.
    fn links(&self) -> String {
        let (mut both, mut one) = ([String::new(), String::new()], [String::new(), String::new()]);
        let size = (self.spacing * 0.2).clamp(0.8, 6.5);
        for l in &self.scene.lines {
            let (a, b) = (self.points[l.from], self.points[l.to]);
            let [line, heads] = if l.both { &mut both } else { &mut one };
            put!(line, "M{:.2} {:.2}L{:.2} {:.2}", a[0], a[1], b[0], b[1]);
            arrow(heads, a, b, 0.68, size);
            if l.both {
                arrow(heads, b, a, 0.68, size);
            }
        }
        let (links, lines) = (self.scene.links, self.scene.lines.len());
        let mut out = format!("<g id=\"links\" data-count=\"{links}\" data-lines=\"{lines}\">\n");
        let thin = if self.spacing < THIN { 0.5 } else { 1.0 };
        let no_room = |least: f64| if self.spacing < least { " visibility=\"hidden\"" } else { "" };
        for (class, wide, d, hidden) in [
            ("link", 1.1, &both[0], ""),
            ("link one", 1.4, &one[0], ""),
            ("arrows", 1.0, &both[1], no_room(ARROW_ROOM)),
            ("arrows one", 1.3, &one[1], no_room(THIN)),
        ] {
            if !d.is_empty() {
                let w = wide * thin;
                put!(
                    out,
                    "<path class=\"{class}\" data-w=\"{w}\" stroke-width=\"{w}\"{hidden} d=\"{d}\"/>\n"
                );
            }
        }
        out + &self.stubs() + "</g>\n"
    }

    /// Links that leave the cell, as short arrows towards the cell that they name; links to no node, as crosses.
    fn stubs(&self) -> String {
        let (mut left, mut lost) = (String::new(), String::new());
        let (long, arm) = ((self.spacing * 0.7).clamp(4.0, 26.0), (self.spacing * 0.12).clamp(1.5, 4.5));
        for s in &self.scene.stubs {
            let ([x, y], [mx, my]) = (self.points[s.from], self.scene.dots[s.from].at);
            match s.towards {
                Some([tx, ty]) => {
                    let (dx, dy) = (tx - mx, my - ty);
                    let far = dx.hypot(dy).max(1e-9);
                    let end = [x + dx / far * long, y + dy / far * long];
                    put!(left, "M{x:.2} {y:.2}L{:.2} {:.2}", end[0], end[1]);
                    arrow(&mut left, [x, y], end, 1.0, arm * 1.4);
                }
                None => {
                    let ([cx, cy], twice) = ([x + arm * 2.6, y - arm * 2.6], 2.0 * arm);
                    put!(lost, "M{x:.2} {y:.2}L{:.2} {:.2}", cx - arm, cy + arm);
                    put!(lost, "M{:.2} {:.2}l{twice:.2} {twice:.2}", cx - arm, cy - arm);
                    put!(lost, "m0 {:.2}l{:.2} {twice:.2}", -twice, -twice);
                }
            }
        }
        let mut out = String::new();
        for (class, d) in [("left", left), ("lost", lost)] {
            if !d.is_empty() {
                put!(out, "<path class=\"{class}\" data-w=\"1.4\" d=\"{d}\"/>\n");
            }
        }
        out
    }

    /// Nodes as strokes of next to no length with round or square ends: one path for each kind.
    fn dots(&self) -> String {
        let (scene, r) = (self.scene, self.radius());
        let (n, spacing) = (scene.dots.len(), self.spacing);
        let mut out = format!("<g id=\"nodes\" data-count=\"{n}\" data-spacing=\"{spacing:.2}\">\n");
        for (class, ped, post) in KINDS {
            let of_kind = scene.dots.iter().zip(&self.points).filter(|(n, _)| (n.ped, n.post) == (ped, post));
            let mut d = String::new();
            for (_, [x, y]) in of_kind {
                put!(d, "M{x:.2} {y:.2}h.01");
            }
            if d.is_empty() {
                continue;
            }
            let wide = if ped { 1.8 } else { 2.0 } * r;
            put!(
                out,
                "<path class=\"node {class}\" data-w=\"{wide:.2}\" stroke-width=\"{wide:.2}\" d=\"{d}\"/>\n"
            );
            if post {
                let hole = wide * 0.5;
                let w = format!("data-w=\"{hole:.2}\" stroke-width=\"{hole:.2}\"");
                put!(out, "<path class=\"hole {class}\" {w} d=\"{d}\"/>\n");
            }
        }
        out + "</g>\n"
    }

    /// The circle, and the nodes within it.
    fn near(&self) -> String {
        let Some((circle, within)) = &self.scene.over.near else { return String::new() };
        let [x, y, r] = circle.metres();
        let ([cx, cy], r) = (self.view.at([x, y]), r * self.view.scale);
        let mut out = format!("<g id=\"near\" data-count=\"{}\">\n", within.len());
        put!(out, "<circle class=\"reach\" data-w=\"1.6\" cx=\"{cx:.2}\" cy=\"{cy:.2}\" r=\"{r:.2}\"/>\n");
        let mut d = String::new();
        for &p in within {
            put!(d, "M{:.2} {:.2}h.01", self.points[p][0], self.points[p][1]);
        }
        if !d.is_empty() {
            let w = self.radius() * 2.0 + 6.0;
            put!(out, "<path class=\"within\" data-w=\"{w:.2}\" stroke-width=\"{w:.2}\" d=\"{d}\"/>\n");
        }
        out + "</g>\n"
    }

    fn scale_bar(&self) -> String {
        let (metres, units) = self.view.bar();
        let [left, top, wide, high] = scale_box(&self.view);
        let (x, y) = (left + 8.0, top + 13.0);
        let mut out = String::from("<g id=\"scale\">");
        put!(
            out,
            "<rect class=\"under\" x=\"{left:.1}\" y=\"{top:.1}\" width=\"{wide:.1}\" height=\"{high}\"/>"
        );
        put!(out, "<path class=\"bar\" d=\"M{x} {:.1}v7h{units:.1}v-7\"/>", y - 7.0);
        put!(out, "<text x=\"{:.1}\" y=\"{y:.1}\">{metres} m</text></g>\n", x + units + 8.0);
        out
    }
}

/// Where the scale bar stands: left, top, width, height.
fn scale_box(view: &View) -> [f64; 4] {
    let [left, top, _, h] = view.plot;
    let (metres, units) = view.bar();
    let wide = units + format!("{metres} m").chars().count() as f64 * 7.0 + 26.0;
    [left + 8.0, top + h - 29.0, wide, 22.0]
}

/// The four kinds of node: class, whether a ped node, whether without links.
pub const KINDS: [(&str, bool, bool); 4] =
    [("road", false, false), ("ped", true, false), ("road post", false, true), ("ped post", true, true)];
