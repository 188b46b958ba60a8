//! Numbers of nodes in a picture can't be misread: no two labels closer than a character, each nearer to its own node
//! than to any other, none over a round's or a way's line and arrow heads.
mod common;
use bofrashem::{Cell, Link};
use common::{rows, run, sample, Folder};

type Point = [f64; 2];
/// Left, top, right, bottom.
type Rect = [f64; 4];

/// The width and the height of a digit of DejaVu Sans at ten units.
const DIGIT: [f64; 2] = [6.3, 7.3];

/// What a picture holds: dots, labels, the boxes of step numbers with their nodes, and the strokes of tracks.
struct Picture {
    dots: Vec<Point>,
    labels: Vec<(String, Rect)>,
    steps: Vec<(Point, Rect)>,
    strokes: Vec<(Point, Point)>,
}

fn attribute<'a>(tag: &'a str, name: &str) -> &'a str {
    tag.split(&format!(" {name}=\""))
        .nth(1)
        .unwrap_or_else(|| panic!("no {name}: {tag}"))
        .split('"')
        .next()
        .unwrap()
}

fn number(tag: &str, name: &str) -> f64 {
    attribute(tag, name).parse().unwrap()
}

/// The points of a path of M and L (and h for dots), a list for each M.
fn lines(d: &str) -> Vec<Vec<Point>> {
    let point = |s: &str| {
        let mut xy = s.split('h').next().unwrap().split(' ').map(|v| v.parse().unwrap());
        [xy.next().unwrap(), xy.next().unwrap()]
    };
    d.split('M').skip(1).map(|line| line.split('L').map(point).collect()).collect()
}

fn paths(svg: &str, class: &str) -> Vec<Vec<Point>> {
    let named = format!("class=\"{class}");
    let of_class = svg.split("<path ").filter(|p| p.starts_with(&named) && p.contains("data-w"));
    of_class.flat_map(|p| lines(attribute(p, "d"))).collect()
}

fn picture(svg: &str) -> Picture {
    let group = svg.split("<g id=\"labels\"").nth(1).unwrap().split("</g>").next().unwrap();
    let labels = group.split("<text").skip(1).map(|tag| {
        let said = tag.split('>').nth(1).unwrap().split('<').next().unwrap().to_string();
        let (x, y) = (number(tag, "x"), number(tag, "y"));
        let wide = DIGIT[0] * said.chars().count() as f64;
        (said, [x, y - DIGIT[1], x + wide, y])
    });
    let marks = svg.split("<g class=\"mark step\" ").skip(1).map(|mark| {
        let mark = format!(" {mark}");
        let (x, y) = (number(&mark, "data-x"), number(&mark, "data-y"));
        let rect = mark.split("<rect").nth(1).unwrap();
        let (l, t) = (x + number(rect, "x"), y + number(rect, "y"));
        ([x, y], [l, t, l + number(rect, "width"), t + number(rect, "height")])
    });
    // the legend shows a step, too, which is no node's
    let plot = svg.split("<g id=\"world\">").nth(1).unwrap();
    let in_plot = marks.filter(|([x, _], _)| *x < 890.0).collect();
    let strokes = ["track round", "track arrows round", "track way", "track arrows way"]
        .iter()
        .flat_map(|class| paths(plot, class))
        .flat_map(|line| line.windows(2).map(|two| (two[0], two[1])).collect::<Vec<_>>())
        .collect();
    let dots = paths(plot, "node ").into_iter().map(|line| line[0]).collect();
    Picture { dots, labels: labels.collect(), steps: in_plot, strokes }
}

fn far([l, t, r, b]: Rect, [x, y]: Point) -> f64 {
    (l - x).max(x - r).max(0.0).hypot((t - y).max(y - b).max(0.0))
}

/// How far apart two boxes are, along x or along y.
fn apart(a: Rect, b: Rect) -> f64 {
    (a[0] - b[2]).max(b[0] - a[2]).max((a[1] - b[3]).max(b[1] - a[3]))
}

/// Where nodes stand in the picture, by their places.
fn points(cell: &Cell, dots: &[Point]) -> Vec<Point> {
    let extent =
        |v: &mut dyn Iterator<Item = f64>| v.fold([f64::MAX, f64::MIN], |[l, h], v| [l.min(v), h.max(v)]);
    let along = |k: usize| {
        let metres = extent(&mut cell.nodes().iter().map(|n| n.position[k] as f64));
        let units = extent(&mut dots.iter().map(|p| p[k]));
        let scale = (units[1] - units[0]) / (metres[1] - metres[0]).max(1e-9);
        // y grows downwards in a picture
        move |v: f64| {
            if k == 0 {
                units[0] + (v - metres[0]) * scale
            } else {
                units[1] - (v - metres[0]) * scale
            }
        }
    };
    let (x, y) = (along(0), along(1));
    cell.nodes().iter().map(|n| [x(n.position[0] as f64), y(n.position[1] as f64)]).collect()
}

/// Holds a picture to the rules; says how many numbers and how many steps it shows.
fn held(name: &str, section: &[u8], words: &[&str]) -> (usize, usize) {
    let folder = Folder::new();
    let (yard, out) = (folder.file("yard", section), folder.path("a.svg"));
    let said = run(&[&["draw", &yard, "-o", &out][..], words].concat());
    assert_eq!(said.status, 0, "{name}: {}", said.err);
    let p = picture(&std::fs::read_to_string(&out).unwrap());
    let cell = Cell::read(section, &[]).unwrap();
    let at = points(&cell, &p.dots);
    let place = |n: &str| cell.nodes().iter().position(|node| node.node_id.to_string() == n).unwrap();
    let mut boxes: Vec<Rect> = p.steps.iter().map(|(_, r)| *r).collect();
    let mut owned: Vec<(String, Point, Rect, f64)> =
        p.steps.iter().map(|(own, r)| ("a step".into(), *own, *r, 0.3)).collect();
    for (said, r) in &p.labels {
        let all: Vec<usize> = said.trim_end_matches(" …").split(", ").map(place).collect();
        assert!(all.iter().all(|&q| at[q] == at[all[0]]), "{name}: {said} is of several points");
        owned.push((said.clone(), at[all[0]], *r, 1.0));
        boxes.push(*r);
    }
    for (k, a) in boxes.iter().enumerate() {
        for b in &boxes[..k] {
            assert!(
                apart(*a, *b) >= DIGIT[0] - 0.2,
                "{name}: two labels {} apart: {a:?} {b:?}",
                apart(*a, *b)
            );
        }
    }
    for (said, own, r, nearer) in &owned {
        let other = at.iter().filter(|q| (q[0] - own[0]).hypot(q[1] - own[1]) > 0.05);
        let least = other.map(|q| far(*r, *q)).fold(f64::MAX, f64::min);
        assert!(far(*r, *own) + nearer <= least, "{name}: {said}: own {}, other {least}", far(*r, *own));
        for &(from, to) in &p.strokes {
            for k in 0..=20 {
                let t = k as f64 / 20.0;
                let on = [0, 1].map(|k| from[k] + (to[k] - from[k]) * t);
                assert!(far(*r, on) > 0.9, "{name}: {said} is over a track");
            }
        }
    }
    (p.labels.len(), p.steps.len())
}

/// Aisles of nodes, each linked to its neighbours, with their places as numbers.
fn warehouse(wide: usize, deep: usize) -> Cell {
    let mut c = Cell::new();
    for p in 0..wide * deep {
        c.add_node(489, [4.0 * (p % wide) as f32 - 3400.0, 4.0 * (p / wide) as f32 - 400.0, 0.0]).unwrap();
    }
    for p in 0..wide * deep {
        let (x, y) = (p % wide, p / wide);
        let near = [
            (x > 0, p.wrapping_sub(1)),
            (x + 1 < wide, p + 1),
            (y > 0, p.wrapping_sub(wide)),
            (y + 1 < deep, p + wide),
        ];
        for (_, q) in near.into_iter().filter(|(there, _)| *there) {
            c.add_link(p, Link { length: 4, ..Link::to(489, q as u16) }).unwrap();
        }
    }
    c
}

/// The round file that goes along every second row, there and back.
fn serpentine(cell: &Cell, wide: usize, deep: usize, folder: &Folder) -> String {
    let mut places = Vec::new();
    for row in 0..deep {
        let (row, back) = (row * wide, row % 4 >= 2);
        match row / wide % 2 {
            0 => places.extend((0..wide).map(|x| row + if back { wide - 1 - x } else { x })),
            _ => places.push(row + if row / wide % 4 == 1 { wide - 1 } else { 0 }),
        }
    }
    let choice = |two: &[usize]| {
        let links = cell.links_of(two[0]).unwrap();
        links.iter().position(|l| l.node_id as usize == two[1]).unwrap().to_string()
    };
    let choices: Vec<String> = places.windows(2).map(choice).collect();
    let file = folder.path("round");
    let words: Vec<&str> =
        ["round", "make", "0", "-o", &file].into_iter().chain(choices.iter().map(|c| c.as_str())).collect();
    assert_eq!(run(&words).status, 0);
    file
}

#[test]
fn of_the_samples() {
    let read = |name: &str| std::fs::read(sample(name)).unwrap();
    let (dock, hall, yard) = (read("dock.section"), read("hall.section"), read("yard.section"));
    let (dock_round, hall_round) = (sample("dock.round"), sample("hall.round"));
    // the dock's crossing is one label of two numbers
    assert_eq!(held("dock", &dock, &[]), (12, 0));
    assert_eq!(held("hall", &hall, &[]), (18, 0));
    let (labels, steps) = held("dock", &dock, &["--round", &dock_round, "--way", "0", "12"]);
    assert!(labels >= 11 && steps == 5, "{labels} {steps}");
    let (labels, steps) = held("hall", &hall, &["--round", &hall_round, "--way", "0", "9"]);
    assert!(labels >= 16 && steps == 8, "{labels} {steps}");
    let folder = Folder::new();
    let short = folder.path("yard.round");
    run(&["way", &sample("yard.section"), "120", "2877", "--round", &short]);
    let (labels, _) = held("yard", &yard, &["--round", &short, "--way", "4900", "99"]);
    assert!(labels >= 10, "{labels}");
}

#[test]
fn of_warehouses_of_480_nodes() {
    for (wide, deep) in [(24, 20), (30, 16), (40, 12), (20, 24), (48, 10)] {
        let (cell, folder) = (warehouse(wide, deep), Folder::new());
        let (section, round) = (cell.write().unwrap(), serpentine(&cell, wide, deep, &folder));
        let name = format!("{wide} by {deep}");
        let (plain, _) = held(&name, &section, &[]);
        let (labels, steps) = held(&name, &section, &["--round", &round, "--way", "0", "479"]);
        println!("{name}: {plain} numbers; with a round {labels} numbers and {steps} steps");
        assert!(plain >= 60 && labels >= 30 && steps >= 10, "{name}: {plain}, {labels}, {steps}");
    }
}

#[test]
fn of_other_yards() {
    let mut same = Cell::new();
    for k in 0..9 {
        let x = if k < 5 { 0.0 } else { 10.0 * k as f32 };
        same.add_node(489, [x - 3400.0, -100.0, k as f32]).unwrap();
    }
    // five nodes at one point, of which three are named, and four others
    assert_eq!(held("one point", &same.write().unwrap(), &[]), (5, 0));
    for n in [1, 2, 50, 1000, 20_000] {
        let (labels, _) = held(&format!("{n} in rows"), &rows(n).write().unwrap(), &[]);
        assert!(labels >= n.min(4), "{n}: {labels}");
    }
    held("a row", &warehouse(480, 1).write().unwrap(), &[]);
    held("a column", &warehouse(1, 480).write().unwrap(), &[]);
}
