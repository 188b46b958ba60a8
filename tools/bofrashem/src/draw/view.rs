//! From metres to a picture's units.
use super::scene::Scene;

#[derive(Clone, Copy)]
pub struct View {
    /// Left, top, width, height of the plot.
    pub plot: [f64; 4],
    /// The point at the plot's middle, in metres.
    middle: [f64; 2],
    /// Units for a metre.
    pub scale: f64,
}

impl View {
    /// The whole scene with a margin.
    pub fn new(scene: &Scene, plot: [f64; 4]) -> View {
        let [low, high] = scene.bounds();
        let size = [0, 1].map(|k| (high[k] - low[k]).max(4.0));
        let scale = (plot[2] / (size[0] * 1.12 + 1.0)).min(plot[3] / (size[1] * 1.16 + 1.0));
        View { plot, middle: [0, 1].map(|k| (low[k] + high[k]) / 2.0), scale }
    }

    pub fn at(&self, [x, y]: [f64; 2]) -> [f64; 2] {
        let [left, top, w, h] = self.plot;
        let [dx, dy] = [(x - self.middle[0]) * self.scale, (y - self.middle[1]) * self.scale];
        [left + w / 2.0 + dx, top + h / 2.0 - dy]
    }

    /// The metres at the plot's left, bottom, right and top edge.
    pub fn edges(&self) -> [f64; 4] {
        let (w, h) = (self.plot[2] / 2.0 / self.scale, self.plot[3] / 2.0 / self.scale);
        [self.middle[0] - w, self.middle[1] - h, self.middle[0] + w, self.middle[1] + h]
    }

    /// Whether any edge of a box crosses the plot.
    pub fn shows_edge(&self, [bx0, by0, bx1, by1]: [f64; 4]) -> bool {
        let [x0, y0, x1, y1] = self.edges();
        let meets = bx0 < x1 && x0 < bx1 && by0 < y1 && y0 < by1;
        meets && !(bx0 < x0 && x1 < bx1 && by0 < y0 && y1 < by1)
    }

    /// The usual distance of linked nodes; of nodes without links, by their room.
    pub fn spacing(&self, scene: &Scene, points: &[[f64; 2]]) -> f64 {
        let far = |a: [f64; 2], b: [f64; 2]| (a[0] - b[0]).hypot(a[1] - b[1]);
        let lines = scene.lines.iter().map(|l| far(points[l.from], points[l.to]));
        let mut all: Vec<f64> = lines.filter(|d| *d > 0.0).collect();
        let room = (self.plot[2] * self.plot[3] / points.len().max(1) as f64).sqrt();
        if all.is_empty() {
            return room;
        }
        let middle = all.len() / 2;
        let (_, m, _) = all.select_nth_unstable_by(middle, f64::total_cmp);
        m.min(room * 1.5)
    }

    /// A length for the scale bar, in metres: 1, 2 or 5 and zeros; and its units.
    pub fn bar(&self) -> (f64, f64) {
        let most = 170.0 / self.scale;
        let ten = 10f64.powf(most.log10().floor());
        let metres = [5.0, 2.0, 1.0].into_iter().map(|k| k * ten).find(|m| *m <= most).unwrap_or(ten);
        (metres, metres * self.scale)
    }
}
