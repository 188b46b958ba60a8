//! `diff`: what a walker could tell apart in two yards. What no walker sees is left out: where arrays lie and what
//! lies between them, and in sound yards the numbers of nodes, which renumbering changes and no walk shows. Of two
//! folders, the files that both have: folders.rs.
use crate::cli;
use crate::fault::{shown, Trouble, REFUSED};
use crate::folders;
use crate::input::{Input, Opened};
use crate::nodes::{self, Target, Targets};
use crate::stream::Stream;
use crate::Told;
use bofrashem::{Cell, Link, SeenJunction, SeenNode};
use serde_json::{json, Value};
use std::collections::{HashMap, VecDeque};
use std::fmt::{Debug, Write};

/// A yard to compare: its cell, and where each node stood in the file.
struct Side {
    cell: Cell,
    places: Vec<usize>,
}

/// One difference: places as in the files.
struct Difference {
    a: Option<usize>,
    b: Option<usize>,
    what: String,
    left: String,
    right: String,
}

/// What differs and no walker sees: how many bytes, whether numbers, whether words of the root.
struct Unseen {
    bytes: usize,
    numbers: bool,
    root: bool,
}

struct Compared {
    found: Vec<Difference>,
    unseen: Unseen,
    by_place: bool,
    sound: bool,
}

impl Compared {
    fn same(&self) -> bool {
        self.found.is_empty()
    }
}

pub fn diff(args: &cli::Diff, input: &Input, stream: &mut Stream) -> Result<Told, Trouble> {
    let (a, b) = (&args.yards.a, &args.yards.b);
    if a.file.is_dir() && b.file.is_dir() {
        return folders::diff(args, input, stream);
    }
    let (result, a, b) = pair(a, b, input)?;
    let told = Told::either(stream.json, || text(args.most, &result), || value(&a, &b, &result));
    Ok(told.status(if result.same() { 0 } else { REFUSED }))
}

/// Two yards compared, and as they were opened.
fn pair(a: &cli::Yard, b: &cli::Yard, input: &Input) -> Result<(Compared, Opened, Opened), Trouble> {
    let (a, b) = (input.open(a)?, input.open(b)?);
    let sound = a.cell.is_sound() && b.cell.is_sound();
    let (left, right) = (side(&a, sound)?, side(&b, sound)?);
    let by_place = left.cell.nodes().len() == right.cell.nodes().len();
    let pairs = if by_place {
        (0..left.places.len()).map(|p| (p, p)).collect()
    } else {
        matched(&left.cell, &right.cell)
    };
    let found = compared(&left, &right, &pairs);
    let result = Compared { unseen: unseen(&a, &b, (&left, &right), &pairs), found, by_place, sound };
    Ok((result, a, b))
}

/// What is said of two yards among many: an object, or lines where they differ; and whether they are the same.
pub fn of_pair(
    a: &cli::Yard,
    b: &cli::Yard,
    most: usize,
    input: &Input,
    json: bool,
) -> Result<(String, bool), Trouble> {
    let (result, a, b) = pair(a, b, input)?;
    let words = match json {
        true => value(&a, &b, &result).to_string() + "\n",
        false if result.same() => String::new(),
        false => text(most, &result),
    };
    Ok((words, result.same()))
}

/// Sound yards are compared as renumbering leaves them, which no walker can notice (demand 3).
fn side(opened: &Opened, sound: bool) -> Result<Side, Trouble> {
    let mut cell = opened.cell.clone();
    let mut places: Vec<usize> = (0..cell.nodes().len()).collect();
    if sound {
        for (old, new) in cell.renumber().map_err(|r| opened.refused(r))?.into_iter().enumerate() {
            places[new as usize] = old;
        }
    }
    Ok(Side { cell, places })
}

/// Pairs of nodes at the same stored position and of the same area, in order.
fn matched(a: &Cell, b: &Cell) -> Vec<(usize, usize)> {
    let mut at: HashMap<(u16, [i16; 3]), VecDeque<usize>> = HashMap::new();
    for (p, n) in b.nodes().iter().enumerate() {
        at.entry((n.area_id, nodes::steps(n))).or_default().push_back(p);
    }
    let key = |p: usize| (a.nodes()[p].area_id, nodes::steps(&a.nodes()[p]));
    (0..a.nodes().len()).filter_map(|p| Some((p, at.get_mut(&key(p))?.pop_front()?))).collect()
}

/// A node of one side by the pair that it belongs to.
type Paired = HashMap<usize, usize>;

fn compared(left: &Side, right: &Side, pairs: &[(usize, usize)]) -> Vec<Difference> {
    let in_a: Paired = pairs.iter().enumerate().map(|(k, &(a, _))| (a, k)).collect();
    let in_b: Paired = pairs.iter().enumerate().map(|(k, &(_, b))| (b, k)).collect();
    let mut found = Vec::new();
    let only = |found: &mut Vec<Difference>, side: &Side, paired: &Paired, of_a: bool| {
        for p in (0..side.places.len()).filter(|p| !paired.contains_key(p)) {
            let (file, said) = (Some(side.places[p]), at(&side.cell, p));
            let (a, b) = if of_a { (file, None) } else { (None, file) };
            let (l, r) = if of_a { (said, String::new()) } else { (String::new(), said) };
            found.push(Difference {
                a,
                b,
                what: if of_a { "only in A" } else { "only in B" }.into(),
                left: l,
                right: r,
            });
        }
    };
    only(&mut found, left, &in_a, true);
    only(&mut found, right, &in_b, false);
    let mut from = Links { cell: &left.cell, targets: Targets::new(&left.cell), paired: in_a };
    let mut to = Links { cell: &right.cell, targets: Targets::new(&right.cell), paired: in_b };
    for &(a, b) in pairs {
        let mut seen = |what: &str, l: String, r: String| {
            if l != r {
                found.push(Difference {
                    a: Some(left.places[a]),
                    b: Some(right.places[b]),
                    what: what.into(),
                    left: l,
                    right: r,
                });
            }
        };
        node(&left.cell, &right.cell, a, b, &mut seen);
        links(&mut from, &mut to, (a, b), &mut seen);
    }
    found
}

fn at(cell: &Cell, place: usize) -> String {
    cell.nodes()
        .get(place)
        .map_or(String::new(), |n| format!("{} ({})", nodes::metres(n.position), nodes::kind(n)))
}

fn said(value: impl Debug) -> String {
    format!("{value:?}")
}

/// What a walk shows of two nodes.
fn node(a: &Cell, b: &Cell, p: usize, q: usize, seen: Seen) {
    let (Ok(s), Ok(t)) = (a.shown_node(p), b.shown_node(q)) else { return };
    let fields = |s: &SeenNode| SeenNode { junction: None, ..*s };
    if fields(&s) != fields(&t) {
        node_fields(&s, &t, seen);
    }
    let of = |cell: &Cell, s: &SeenNode| s.junction.and_then(|j| cell.shown_junction(j).ok());
    match (of(a, &s), of(b, &t)) {
        (None, None) => {}
        (Some(i), Some(j)) => junction(&i, &j, seen),
        (i, j) => {
            let has = |j: bool| if j { "yes" } else { "no" }.to_string();
            seen("junction", has(i.is_some()), has(j.is_some()));
        }
    }
}

fn node_fields(s: &SeenNode, t: &SeenNode, seen: Seen) {
    seen("area", said(s.area_id), said(t.area_id));
    seen("street", said(s.street_name), said(t.street_name));
    let metres = |s: &SeenNode| nodes::metres(s.position.map(f32::from_bits));
    seen("position", metres(s), metres(t));
    for k in 0..6 {
        seen(&format!("flags{k}"), said(s.flags[k]), said(t.flags[k]));
    }
    let unused = |s: &SeenNode| said([s.unused0, s.unused1, s.unused2, s.unused3, s.unused4 as u32]);
    seen("unused fields", unused(s), unused(t));
}

fn junction(i: &SeenJunction, j: &SeenJunction, seen: Seen) {
    seen("junction's corner", said(i.corner.map(f32::from_bits)), said(j.corner.map(f32::from_bits)));
    let heights = |j: &SeenJunction| said([f32::from_bits(j.min_z), f32::from_bits(j.max_z)]);
    seen("junction's heights", heights(i), heights(j));
    seen("junction's size", said([i.width, i.height]), said([j.width, j.height]));
    if (i.width, i.height) == (j.width, j.height) {
        let differ = i.values.iter().zip(&j.values).filter(|(v, w)| v != w).count();
        seen("junction's values", "0 others".into(), format!("{differ} others"));
    }
}

/// One side's links: its cell, where they lead, and which nodes have partners.
struct Links<'a> {
    cell: &'a Cell,
    targets: Targets<'a>,
    paired: Paired,
}

impl Links<'_> {
    fn of(&self, place: usize) -> &[Link] {
        self.cell.links_of(place).unwrap_or_default()
    }

    /// The pair of the node that a link leads to, if that is a node with a partner.
    fn pair(&self, target: Target) -> Option<usize> {
        if let Target::Node(to) = target {
            self.paired.get(&to).copied()
        } else {
            None
        }
    }

    fn words(&self, target: Target) -> String {
        match target {
            Target::Node(to) => format!("the node at {}", at(self.cell, to)),
            Target::Out(area, number) => format!("area {area} node {number}"),
            Target::NoNode => "no node".into(),
        }
    }
}

type Seen<'a> = &'a mut dyn FnMut(&str, String, String);

fn links(left: &mut Links, right: &mut Links, (p, q): (usize, usize), seen: Seen) {
    let (m, n) = (left.of(p).len(), right.of(q).len());
    seen("links", said(m), said(n));
    for k in 0..m.min(n) {
        let (a, b) = (left.of(p)[k], right.of(q)[k]);
        // the link chosen is shown by its flags and its length
        if (a.flags, a.length) != (b.flags, b.length) {
            seen(&format!("link {k}'s flags"), said(a.flags), said(b.flags));
            seen(&format!("link {k}'s length"), said(a.length), said(b.length));
        }
        let (l, r) = (left.targets.of(p, k, &a), right.targets.of(q, k, &b));
        let same = match (left.pair(l), right.pair(r)) {
            (None, None) => left.words(l) == right.words(r),
            (one, other) => one == other,
        };
        if !same {
            let (l, r) = (left.words(l), right.words(r));
            let other = if l == r { ", another one" } else { "" };
            seen(&format!("link {k} leads to"), l, r + other);
        }
    }
}

fn unseen(a: &Opened, b: &Opened, (left, right): (&Side, &Side), pairs: &[(usize, usize)]) -> Unseen {
    let (s, t) = (&a.sections.system, &b.sections.system);
    let number = |o: &Opened, side: &Side, p: usize| o.cell.nodes()[side.places[p]].node_id;
    let root = |o: &Opened| (o.cell.vft(), o.cell.kind_counts(), o.cell.unknowns());
    Unseen {
        bytes: s.iter().zip(t).filter(|(x, y)| x != y).count() + s.len().abs_diff(t.len()),
        numbers: pairs.iter().any(|&(p, q)| number(a, left, p) != number(b, right, q)),
        root: root(a) != root(b),
    }
}

/// A difference: "place 3 | 5: street: 0 | 7".
fn line(d: &Difference) -> String {
    let place = |p: Option<usize>| p.map_or("-".into(), |p| format!("{p}"));
    let names = if d.a == d.b { place(d.a) } else { format!("{} | {}", place(d.a), place(d.b)) };
    let sides = match (d.left.is_empty(), d.right.is_empty()) {
        (_, true) => d.left.clone(),
        (true, _) => d.right.clone(),
        _ => format!("{} | {}", d.left, d.right),
    };
    format!("place {names}: {}: {sides}\n", d.what)
}

fn text(most: usize, Compared { found, unseen, by_place, .. }: &Compared) -> String {
    let mut t: String = found.iter().take(most).map(line).collect();
    if found.len() > most {
        let _ = writeln!(t, ".. and {} more", found.len() - most);
    }
    let _ = match found.len() {
        0 => writeln!(t, "no walker can tell them apart"),
        n => writeln!(
            t,
            "{n} differences that a walker could see{}",
            if *by_place { "" } else { "; nodes matched by position" }
        ),
    };
    let mut also = Vec::new();
    if unseen.bytes > 0 {
        also.push(format!("{} bytes", unseen.bytes))
    }
    if unseen.numbers {
        also.push("nodes' numbers".into())
    }
    if unseen.root {
        also.push("words of the root".into())
    }
    if found.is_empty() && !also.is_empty() {
        let _ = writeln!(t, "what differs and no walker sees: {}", also.join(", "));
    }
    t
}

fn value(a: &Opened, b: &Opened, Compared { found, unseen, by_place, sound }: &Compared) -> Value {
    let listed: Vec<Value> = found
        .iter()
        .map(|d| json!({ "a": d.a, "b": d.b, "what": d.what, "left": d.left, "right": d.right }))
        .collect();
    json!({
        "a": shown(&a.sections.file), "b": shown(&b.sections.file), "same": found.is_empty(),
        "differences": listed, "matched_by": if *by_place { "place" } else { "position" }, "sound": sound,
        "unseen": { "bytes": unseen.bytes, "numbers": unseen.numbers, "root": unseen.root },
    })
}
