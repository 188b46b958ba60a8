//! Labels that can't be misread: no two closer than a character, each nearer to its own node than to any other, none
//! over a track.
use std::collections::HashMap;

/// A box: left, top, right, bottom.
pub type Rect = [f64; 4];
/// A stroke's two ends, and what stays free on each side of it.
pub type Stroke = ([f64; 2], [f64; 2], f64);

/// The width and the height of a digit of a node's number.
pub const DIGIT: [f64; 2] = [6.4, 7.6];
/// By how much a number is nearer to its own node than to any other.
pub const NEARER: f64 = 1.5;

/// Things by the tiles that they touch.
struct Tiles<T> {
    size: f64,
    held: HashMap<(i32, i32), Vec<T>>,
}

impl<T: Copy> Tiles<T> {
    fn new(size: f64) -> Tiles<T> {
        Tiles { size, held: HashMap::new() }
    }

    fn keys(&self, r: Rect) -> impl Iterator<Item = (i32, i32)> {
        let [x0, y0, x1, y1] = r.map(|v| (v / self.size).floor() as i32);
        (x0..=x1).flat_map(move |x| (y0..=y1).map(move |y| (x, y)))
    }

    fn put(&mut self, r: Rect, what: T) {
        for key in self.keys(r) {
            self.held.entry(key).or_default().push(what);
        }
    }

    /// What touches a tile that the box touches.
    fn at(&self, r: Rect) -> impl Iterator<Item = T> + '_ {
        self.keys(r).filter_map(|key| self.held.get(&key)).flatten().copied()
    }
}

fn wider([l, t, r, b]: Rect, by: f64) -> Rect {
    [l - by, t - by, r + by, b + by]
}

fn overlap(a: &Rect, b: &Rect) -> bool {
    a[0] < b[2] && b[0] < a[2] && a[1] < b[3] && b[1] < a[3]
}

/// The square of a point's distance from a box.
fn far_squared([l, t, r, b]: Rect, [x, y]: [f64; 2]) -> f64 {
    let (dx, dy) = ((l - x).max(x - r).max(0.0), (t - y).max(y - b).max(0.0));
    dx * dx + dy * dy
}

/// Whether a stroke meets a box: cut at the box's edges, something of it is left.
fn meets([l, t, r, b]: Rect, from: [f64; 2], to: [f64; 2]) -> bool {
    let (mut enters, mut leaves) = (0.0f64, 1.0f64);
    for (k, [low, high]) in [[l, r], [t, b]].into_iter().enumerate() {
        let d = to[k] - from[k];
        if d.abs() < 1e-12 {
            if from[k] < low || from[k] > high {
                return false;
            }
            continue;
        }
        let (one, other) = ((low - from[k]) / d, (high - from[k]) / d);
        enters = enters.max(one.min(other));
        leaves = leaves.min(one.max(other));
    }
    enters <= leaves
}

/// A label to be placed: its node's point, its size, how far it stands, and by how much nearer to its node than to
/// others.
pub struct Label {
    pub at: [f64; 2],
    pub size: [f64; 2],
    pub far: f64,
    pub nearer: f64,
}

/// What labels keep clear of, and the box that all stand in.
pub struct Taken {
    labels: Tiles<Rect>,
    marks: Tiles<Rect>,
    strokes: Tiles<Stroke>,
    points: Tiles<[f64; 2]>,
    inside: Rect,
}

impl Taken {
    /// Of nodes at these points.
    pub fn new(inside: Rect, points: &[[f64; 2]]) -> Taken {
        let mut tiles = Tiles::new(12.0);
        for &[x, y] in points {
            tiles.put([x, y, x, y], [x, y]);
        }
        Taken {
            labels: Tiles::new(48.0),
            marks: Tiles::new(48.0),
            strokes: Tiles::new(24.0),
            points: tiles,
            inside,
        }
    }

    /// A stroke that nothing is written over.
    pub fn stroke(&mut self, from: [f64; 2], to: [f64; 2], clear: f64) {
        let [l, t] = [0, 1].map(|k| from[k].min(to[k]));
        let [r, b] = [0, 1].map(|k| from[k].max(to[k]));
        self.strokes.put(wider([l, t, r, b], clear), (from, to, clear));
    }

    /// A mark that nothing is written over.
    pub fn mark(&mut self, r: Rect) {
        self.marks.put(r, r);
    }

    fn is_free(&self, label: &Label, r: Rect) -> bool {
        let [left, top, right, bottom] = self.inside;
        let inside = r[0] >= left && r[1] >= top && r[2] <= right && r[3] <= bottom;
        let apart = wider(r, DIGIT[0]);
        // where nodes are close, this says no at once
        inside
            && self.is_nearest(label, r, 1.0)
            && self.labels.at(apart).all(|other| !overlap(&apart, &other))
            && self.marks.at(r).all(|mark| !overlap(&r, &mark))
            && self.strokes.at(r).all(|(from, to, clear)| !meets(wider(r, clear), from, to))
    }

    /// Whether every other node is so many times as far from a box as the label's own, and a little more. Nodes at one
    /// point have one label.
    fn is_nearest(&self, label: &Label, r: Rect, times: f64) -> bool {
        let least = far_squared(r, label.at).sqrt() * times + label.nearer;
        let own = |p: [f64; 2]| p == label.at;
        self.points.at(wider(r, least)).all(|p| own(p) || far_squared(r, p) >= least * least)
    }

    /// A place for a label beside its node: right, left, above, below, then askew; then the same, farther away. Better
    /// one that is twice as near to it as to any other.
    pub fn beside(&mut self, label: &Label) -> Option<[f64; 2]> {
        let ([x, y], [w, h]) = (label.at, label.size);
        let spots = |far: f64| {
            let (right, left, up, down) = (x + far, x - far - w, y - far - h, y + far);
            let (mid_x, mid_y) = (x - w / 2.0, y - h / 2.0);
            let a = far * 0.75;
            let (east, west, north, south) = (x + a, x - a - w, y - a - h, y + a);
            [
                [right, mid_y],
                [left, mid_y],
                [mid_x, up],
                [mid_x, down],
                [east, north],
                [east, south],
                [west, north],
                [west, south],
            ]
        };
        let all = spots(label.far).into_iter().chain(spots(label.far + 3.0));
        let rect = |[l, t]: [f64; 2]| [l, t, l + w, t + h];
        let free: Vec<[f64; 2]> = all.into_iter().filter(|&spot| self.is_free(label, rect(spot))).collect();
        let twice = free.iter().find(|&&spot| self.is_nearest(label, rect(spot), 2.0));
        let at = *twice.or(free.first())?;
        self.labels.put(rect(at), rect(at));
        Some(at)
    }
}
