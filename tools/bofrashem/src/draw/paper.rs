//! The workshop's page: the printed lines beside the drawn round, on one A4 page on its side.
use super::legend::{dot_mark, ends_mark, track_mark, Column};
use super::plot::Drawn;
use super::scene::Scene;
use super::view::View;
use super::xml::{escaped, put, shortened, Write, STYLE};
use crate::walks::end_text;

/// A4 in points, and where the plot stands on it.
const PAGE: [f64; 2] = [842.0, 595.0];
const PLOT: [f64; 4] = [322.0, 70.0, 490.0, 420.0];
/// The lines' left, first base line, width and height.
const LINES: [f64; 4] = [30.0, 84.0, 276.0, 470.0];

pub fn paper(scene: &Scene, text: &str, title: &str) -> String {
    let [w, h] = PAGE;
    let mut out = String::new();
    put!(
        out,
        r#"<svg xmlns="http://www.w3.org/2000/svg" viewBox="0 0 {w} {h}" width="297mm" height="210mm">"#
    );
    put!(out, "\n<style>{STYLE}</style>\n<rect class=\"paper\" width=\"{w}\" height=\"{h}\"/>\n");
    put!(out, "<text class=\"title\" x=\"30\" y=\"38\">{}</text>\n", escaped(&shortened(title)));
    put!(out, "<text class=\"subtitle\" x=\"30\" y=\"54\">{}</text>\n", escaped(&scene.subtitle));
    out += &lines(text);
    out += &Drawn::new(scene, View::new(scene, PLOT)).plot();
    out + &caption(scene) + "</svg>\n"
}

/// How the lines are set: their size, how many in a column, how many columns, and a column's width.
struct Setting {
    size: f64,
    rows: usize,
    columns: usize,
    wide: f64,
}

fn setting(size: f64, longest: f64) -> Setting {
    let wide = longest * size * 0.61 + 8.0;
    Setting {
        size,
        rows: (LINES[3] / (size * 1.25)) as usize,
        columns: ((LINES[2] / wide) as usize).max(1),
        wide,
    }
}

/// The lines as large as fits; where even the smallest does not, some before the last are left out, and that is said.
fn lines(text: &str) -> String {
    let mut all: Vec<String> = text.lines().map(String::from).collect();
    let longest = all.iter().map(|l| l.chars().count()).max().unwrap_or(0).max(20) as f64;
    let settings = [9.5, 8.5, 7.5, 6.5, 5.5, 4.5].map(|size| setting(size, longest));
    let fits = settings.iter().find(|s| s.rows * s.columns >= all.len());
    let s = fits.unwrap_or(&settings[5]);
    let room = s.rows * s.columns;
    if all.len() > room {
        let (from, to) = (room - 2, all.len() - 1);
        all.splice(from..to, [format!(".. {} lines left out ..", to - from)]);
    }
    let mut out = String::from("<g class=\"lines\">\n");
    for (k, line) in all.iter().enumerate() {
        let x = LINES[0] + (k / s.rows) as f64 * s.wide;
        let y = LINES[1] + (k % s.rows) as f64 * s.size * 1.25;
        put!(out, "<text x=\"{x:.1}\" y=\"{y:.1}\" font-size=\"{}\">{}</text>\n", s.size, escaped(line));
    }
    out + "</g>\n"
}

fn caption(scene: &Scene) -> String {
    let Some(t) = &scene.over.round else { return String::new() };
    let mut l = Column::new([PLOT[0], 512.0]);
    let links = t.places.len().saturating_sub(1);
    l.item(&track_mark("round"), &format!("{links} links, {} m; {}", t.metres, end_text(t.end)));
    l.item(&ends_mark("round"), "start and end; numbers in pink are steps, others are nodes' numbers");
    let dots = dot_mark("road", 4.0) + &dot_mark("ped", 18.0);
    l.item(&dots, "road nodes, ped nodes; the lines' x and y are quarters of a metre, z thirty-seconds");
    l.out
}
