//! A scene as an SVG: its title, the plot, the legend.
use super::legend::legend;
use super::plot::Drawn;
use super::scene::Scene;
use super::view::View;
use super::xml::{escaped, put, shortened, Write, STYLE};

/// The picture's width; the plot's left, top and width.
const WIDTH: f64 = 1200.0;
const PLOT: [f64; 3] = [20.0, 66.0, 868.0];
/// Where the legend's column begins.
const LEGEND: f64 = 908.0;

/// The whole picture.
pub fn picture(scene: &Scene) -> String {
    let (inside, height) = inside(scene);
    let mut out = String::new();
    put!(out, r#"<svg xmlns="http://www.w3.org/2000/svg" viewBox="0 0 {WIDTH} {height}""#);
    put!(out, " width=\"{WIDTH}\" height=\"{height}\">\n<title>{}</title>\n", escaped(&scene.title));
    put!(out, "<style>{STYLE}</style>\n{inside}</svg>\n");
    out
}

/// What stands between the tags of the picture, and its height.
pub fn inside(scene: &Scene) -> (String, f64) {
    let view = view(scene);
    let height = PLOT[1] + view.plot[3] + 20.0;
    let mut out = format!("<rect class=\"paper\" width=\"{WIDTH}\" height=\"{height}\"/>\n");
    put!(out, "<text class=\"title\" x=\"20\" y=\"32\">{}</text>\n", escaped(&shortened(&scene.title)));
    put!(out, "<text class=\"subtitle\" x=\"20\" y=\"53\">{}</text>\n", escaped(&scene.subtitle));
    let drawn = Drawn::new(scene, view);
    out += &legend(&drawn, [LEGEND, PLOT[1] + 12.0]);
    out += &drawn.plot();
    (out, height)
}

/// The plot is as high as the yard wants it, within limits.
pub fn view(scene: &Scene) -> View {
    let [low, high] = scene.bounds();
    let ratio = (high[1] - low[1]).max(4.0) * 1.16 / ((high[0] - low[0]).max(4.0) * 1.12);
    View::new(scene, [PLOT[0], PLOT[1], PLOT[2], (PLOT[2] * ratio).clamp(500.0, 800.0)])
}
