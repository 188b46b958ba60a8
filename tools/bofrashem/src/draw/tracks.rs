//! What lies over the yard: the round, the short way, their ends and step numbers; and the nodes' numbers.
use super::labels::{Label, DIGIT, NEARER};
use super::plot::{arrow, Drawn};
use super::scene::Track;
use super::xml::{put, Write};
use std::collections::{HashMap, HashSet};

/// More numbers of nodes than this are not written.
const LABELS_MOST: usize = 1500;

/// The width of a track's arrow heads, and what stays free beside a track.
const HEAD: f64 = 1.8;
const CLEAR: f64 = 1.0;
/// The half of a start's or an end's mark, with its stroke.
const END: f64 = 10.0;

impl Drawn<'_> {
    pub fn tracks(&mut self) -> String {
        let over = &self.scene.over;
        let way = over.way.as_ref().map(|t| self.track("way", t, 4.0));
        let round = over.round.as_ref().map(|t| self.track("round", t, 2.6));
        way.unwrap_or_default() + &round.unwrap_or_default()
    }

    /// A track's steps, each to the right of its link, so that there and back can be told apart. What is walked again
    /// is drawn once. Nothing is written over it.
    fn track(&mut self, class: &str, track: &Track, wide: f64) -> String {
        let (mut d, mut heads) = (String::new(), String::new());
        let mut drawn = HashSet::new();
        let (aside, size) = ((self.spacing * 0.09).clamp(0.4, 3.0), (self.spacing * 0.26).clamp(2.0, 8.5));
        for pair in track.places.windows(2).filter(|pair| drawn.insert((pair[0], pair[1]))) {
            let (a, b) = (self.points[pair[0]], self.points[pair[1]]);
            let (dx, dy) = (b[0] - a[0], b[1] - a[1]);
            let far = dx.hypot(dy).max(1e-9);
            let off = [-dy / far * aside, dx / far * aside];
            let (a, b) = ([a[0] + off[0], a[1] + off[1]], [b[0] + off[0], b[1] + off[1]]);
            put!(d, "M{:.2} {:.2}L{:.2} {:.2}", a[0], a[1], b[0], b[1]);
            self.taken.stroke(a, b, wide / 2.0 + CLEAR);
            if let Some([one, tip, other]) = arrow(&mut heads, a, b, 0.55, size) {
                self.taken.stroke(one, tip, HEAD / 2.0 + CLEAR);
                self.taken.stroke(tip, other, HEAD / 2.0 + CLEAR);
            }
        }
        let mut out = format!("<g id=\"{class}\" data-steps=\"{}\">\n", track.places.len());
        for (class, w, d) in
            [(format!("track {class}"), wide, d), (format!("track arrows {class}"), HEAD, heads)]
        {
            if !d.is_empty() {
                put!(out, "<path class=\"{class}\" data-w=\"{w}\" stroke-width=\"{w}\" d=\"{d}\"/>\n");
            }
        }
        out + "</g>\n"
    }

    /// Start and end of what is drawn over the yard, the point of a circle, and step numbers where there is room.
    pub fn marks(&mut self) -> String {
        let mut out = String::from("<g id=\"marks\">\n");
        let over = &self.scene.over;
        for (class, track) in [("way", &over.way), ("round", &over.round)] {
            let Some((first, last)) =
                track.as_ref().and_then(|t| Some((*t.places.first()?, *t.places.last()?)))
            else {
                continue;
            };
            for [x, y] in [first, last].map(|end| self.points[end]) {
                self.taken.mark([x - END, y - END, x + END, y + END]);
            }
            self.ends.extend([first, last]);
            out += &mark(self.points[first], &format!("start {class}"), "<circle r=\"8.5\"/>");
            let square = "<rect x=\"-8\" y=\"-8\" width=\"16\" height=\"16\"/>";
            out += &mark(self.points[last], &format!("end {class}"), square);
        }
        if let Some((circle, _)) = &over.near {
            let [x, y, _] = circle.metres();
            out += &mark(self.view.at([x, y]), "middle", "<path class=\"point\" d=\"M-8 0h16M0 -8v16\"/>");
        }
        let steps = over.round.as_ref().map_or(Vec::new(), |t| steps(t, every(self.spacing)));
        for (place, said) in steps {
            out += &self.badge(place, &said);
        }
        out + "</g>\n"
    }

    /// A step's number beside its node.
    fn badge(&mut self, place: usize, said: &str) -> String {
        let (at, w) = (self.points[place], 7.0 + 6.2 * said.chars().count() as f64);
        let far = if self.ends.contains(&place) { END + 1.0 } else { self.radius() + 2.5 };
        let label = Label { at, size: [w, 12.0], far, nearer: 0.5 };
        let Some([l, t]) = self.taken.beside(&label) else { return String::new() };
        let (dx, dy) = (l - at[0], t - at[1]);
        let mut shape =
            format!("<rect x=\"{dx:.1}\" y=\"{dy:.1}\" width=\"{w:.1}\" height=\"12\" rx=\"6\"/>");
        put!(shape, "<text x=\"{:.1}\" y=\"{:.1}\">{said}</text>", dx + w / 2.0, dy + 9.6);
        mark(at, "step", &shape)
    }

    /// Numbers of nodes, as many as can't be misread; those of what is drawn over the yard first. Nodes at one point
    /// share a label: "2, 8".
    pub fn labels(&mut self) -> String {
        let [left, top, w, h] = self.view.plot;
        let mut together = self.together();
        let (mut out, mut count) = (String::new(), 0);
        for p in self.order() {
            let at = self.points[p];
            let inside = at[0] > left && at[0] < left + w && at[1] > top && at[1] < top + h;
            let nodes = if inside && count < LABELS_MOST { together.remove(&key(at)) } else { None };
            let Some(nodes) = nodes else { continue };
            let said = self.numbers(&nodes);
            let size = [DIGIT[0] * said.chars().count() as f64, DIGIT[1]];
            let end = nodes.iter().any(|p| self.ends.contains(p));
            let far = if end { END + 1.0 } else { self.radius() + 2.0 };
            if let Some([l, t]) = self.taken.beside(&Label { at, size, far, nearer: NEARER }) {
                count += nodes.len();
                put!(out, "<text x=\"{l:.1}\" y=\"{:.1}\">{said}</text>\n", t + DIGIT[1]);
            }
        }
        format!("<g id=\"labels\" data-count=\"{count}\">\n{out}</g>\n")
    }

    /// The nodes at each point.
    fn together(&self) -> HashMap<[u64; 2], Vec<usize>> {
        let mut at: HashMap<[u64; 2], Vec<usize>> = HashMap::new();
        for (p, point) in self.points.iter().enumerate() {
            at.entry(key(*point)).or_default().push(p);
        }
        at
    }

    /// Numbers of nodes at one point: "7", "2, 8", "2, 8, 9 …".
    fn numbers(&self, nodes: &[usize]) -> String {
        let some: Vec<String> =
            nodes.iter().take(3).map(|&p| self.scene.dots[p].number.to_string()).collect();
        some.join(", ") + if nodes.len() > 3 { " …" } else { "" }
    }

    fn order(&self) -> Vec<usize> {
        let over = &self.scene.over;
        let tracks = [&over.round, &over.way].into_iter().flatten().flat_map(|t| t.places.iter().copied());
        let near = over.near.iter().flat_map(|(_, within)| within.iter().copied());
        tracks.chain(near).chain(0..self.points.len()).collect()
    }
}

/// A point, to look it up.
fn key(at: [f64; 2]) -> [u64; 2] {
    at.map(f64::to_bits)
}

/// A shape that keeps its size when the picture grows.
fn mark([x, y]: [f64; 2], class: &str, shape: &str) -> String {
    let at = format!("data-x=\"{x:.2}\" data-y=\"{y:.2}\" transform=\"translate({x:.2} {y:.2})\"");
    format!("<g class=\"mark {class}\" {at}>{shape}</g>\n")
}

/// Of how many steps one is numbered, so that the numbers stand apart.
fn every(spacing: f64) -> usize {
    [1, 2, 5, 10, 20, 50, 100, 200].into_iter().find(|n| *n as f64 * spacing >= 36.0).unwrap_or(500)
}

/// The numbered steps at each place, start and end first: "3", "3·9", "3·9·12…".
fn steps(track: &Track, every: usize) -> Vec<(usize, String)> {
    let last = track.places.len().saturating_sub(1);
    let mut order: Vec<usize> = (0..last).filter(|k| k % every == 0).collect();
    order.insert(order.len().min(1), last);
    let (mut at, mut found) = (HashMap::new(), Vec::<(usize, Vec<usize>)>::new());
    for k in order {
        let Some(&place) = track.places.get(k) else { continue };
        let index = *at.entry(place).or_insert(found.len());
        if index == found.len() {
            found.push((place, Vec::new()));
        }
        found[index].1.push(k);
    }
    let said = |mut ks: Vec<usize>| {
        ks.sort_unstable();
        let first: Vec<String> = ks.iter().take(3).map(|k| k.to_string()).collect();
        first.join("·") + if ks.len() > 3 { "…" } else { "" }
    };
    found.into_iter().map(|(place, ks)| (place, said(ks))).collect()
}
