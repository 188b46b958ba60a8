//! What is shown of a node, in words and in JSON.
use crate::sound::is_own;
use bofrashem::{numbers, Cell, End, Link, Node, Walk};
use std::collections::HashMap;
use std::fmt;

/// The stored steps of a node: quarters of a metre along x and y, thirty-seconds along z.
pub fn steps(node: &Node) -> [i16; 3] {
    numbers::quantise(node.position)
}

/// Metres with two digits behind the point, as `{:.2}` has them. Stored ones are 32nds, which whole numbers say sooner:
/// a walk's text has many.
struct Metres(f32);

impl fmt::Display for Metres {
    fn fmt(&self, f: &mut fmt::Formatter<'_>) -> fmt::Result {
        let steps = self.0 * 32.0;
        if steps.fract() != 0.0 || steps.abs() > 1e6 || (steps == 0.0 && steps.is_sign_negative()) {
            return write!(f, "{:.2}", self.0);
        }
        let eighths = steps.abs() as u32 * 25;
        // a half goes to the even neighbour
        let hundredths = eighths / 8 + (eighths % 8 + eighths / 8 % 2 > 4) as u32;
        let sign = if steps < 0.0 { "-" } else { "" };
        write!(f, "{sign}{}.{:02}", hundredths / 100, hundredths % 100)
    }
}

/// Metres, as far as they are stored.
pub fn metres([x, y, z]: [f32; 3]) -> String {
    format!("{} {} {}", Metres(x), Metres(y), Metres(z))
}

/// What a node is called in words; a link that has no target here has no node.
pub fn kind(node: &Node) -> &'static str {
    match (node.is_ped_node(), node.link_count() == 0) {
        (false, false) => "road",
        (true, false) => "ped",
        (false, true) => "post",
        (true, true) => "ped post",
    }
}

/// "place 6 node 6 at 8.00 6.00 1.00 (road)".
pub struct Line<'a>(&'a Cell, usize);

pub fn line(cell: &Cell, place: usize) -> Line<'_> {
    Line(cell, place)
}

impl fmt::Display for Line<'_> {
    fn fmt(&self, f: &mut fmt::Formatter<'_>) -> fmt::Result {
        let Line(cell, place) = self;
        let Some(n) = cell.nodes().get(*place) else { return write!(f, "place {place}") };
        let [x, y, z] = n.position.map(Metres);
        write!(f, "place {place} node {} at {x} {y} {z} ({})", n.node_id, kind(n))
    }
}

/// The same as a JSON object, with more names behind its own, each after a comma. It is text, since a walk may visit
/// many: a step of a position is a 32nd at least, so that its digits are those of the number.
pub fn object(cell: &Cell, place: usize, more: impl fmt::Display) -> String {
    let Some(n) = cell.nodes().get(place) else { return format!("{{\"place\":{place}{more}}}") };
    let (steps, kind, links) = (steps(n), kind(n), n.link_count());
    let head = format!("\"place\":{place},\"node\":{},\"area\":{}", n.node_id, n.area_id);
    let of_node = format!("\"street\":{},\"position\":{:?},\"steps\":{steps:?}", n.street_name, n.position);
    format!("{{{head},{of_node},\"flags\":{:?},\"kind\":\"{kind}\",\"links\":{links}{more}}}", n.flags)
}

/// How many nodes of each kind: road, ped, and how many of either are posts.
#[derive(Default, Clone, Copy, PartialEq, Eq, Debug)]
pub struct Kinds {
    pub road: usize,
    pub ped: usize,
    pub posts: usize,
}

pub fn kinds(cell: &Cell) -> Kinds {
    let mut k = Kinds::default();
    for n in cell.nodes() {
        if n.is_ped_node() {
            k.ped += 1
        } else {
            k.road += 1
        }
        k.posts += (n.link_count() == 0) as usize;
    }
    k
}

/// The least and the most of each coordinate over all nodes.
pub fn bounds(cell: &Cell) -> Option<[[f32; 3]; 2]> {
    let first = cell.nodes().first()?.position;
    Some(cell.nodes().iter().fold([first, first], |[low, high], n| {
        [[0, 1, 2].map(|k| low[k].min(n.position[k])), [0, 1, 2].map(|k| high[k].max(n.position[k]))]
    }))
}

/// How many nodes stand outside the grid cell that the area names.
pub fn outside(cell: &Cell, area: u32) -> usize {
    let own = numbers::cell_of_area(area);
    cell.nodes().iter().filter(|n| numbers::cell_for_position(n.position[0], n.position[1]) != own).count()
}

/// Whether each node's number is its place, as after renumbering: then a number is found at once.
pub fn numbers_are_places(cell: &Cell) -> bool {
    cell.nodes().iter().enumerate().all(|(place, n)| n.node_id as usize == place)
}

/// Old places by new ones, where these are the new places by old ones.
pub fn inverse(new: &[usize]) -> Vec<usize> {
    let mut old = vec![0; new.len()];
    for (was, &is) in new.iter().enumerate() {
        old[is as usize] = was;
    }
    old
}

/// Where a link leads.
#[derive(Clone, Copy, PartialEq, Eq, Debug)]
pub enum Target {
    Node(usize),
    /// Out of the cell, to this area and number.
    Out(u16, u16),
    /// To a number that no node has.
    NoNode,
}

/// Where links lead, by a walk of one choice; asked once for each area and number, since nothing else decides it.
pub struct Targets<'a> {
    cell: &'a Cell,
    found: Found,
    known: HashMap<(u16, u16), Target>,
}

/// How the node of a number is found.
enum Found {
    /// By a walk in the yard itself, where numbers are places.
    ByWalk,
    /// By a walk in a renumbered copy, in a sound yard.
    InCopy(Renumbered),
    /// Among the places of all numbers, in a yard that isn't sound: by the tool itself.
    ByIndex(HashMap<u16, usize>),
}

/// A renumbered copy: nodes' new places by their old ones, and the other way round.
struct Renumbered {
    cell: Cell,
    new: Vec<usize>,
    old: Vec<usize>,
}

impl<'a> Targets<'a> {
    /// A number that isn't its node's place is looked for in the whole list. In a sound yard a renumbered copy, whose
    /// numbers are places, leads to the same nodes (demand 3).
    pub fn new(cell: &'a Cell) -> Targets<'a> {
        let found = match renumbered(cell) {
            _ if numbers_are_places(cell) => Found::ByWalk,
            Some(copy) if cell.is_sound() => Found::InCopy(copy),
            _ => Found::ByIndex(index(cell)),
        };
        Targets { cell, found, known: HashMap::new() }
    }

    /// Link k, which is this one, of the node at a place.
    pub fn of(&mut self, place: usize, k: usize, link: &Link) -> Target {
        let (cell, found) = (self.cell, &self.found);
        *self.known.entry((link.area_id, link.node_id)).or_insert_with(|| match found {
            Found::ByWalk => led(cell, place, k),
            Found::InCopy(r) => match led(&r.cell, r.new[place] as usize, k) {
                Target::Node(to) => Target::Node(r.old[to]),
                other => other,
            },
            Found::ByIndex(index) => looked_up(cell, index, link),
        })
    }
}

/// The place of each number: the place that equals it, if that node has it, else the first that has it.
fn index(cell: &Cell) -> HashMap<u16, usize> {
    let mut index = HashMap::new();
    for (place, n) in cell.nodes().iter().enumerate() {
        if n.node_id as usize == place {
            index.insert(n.node_id, place);
        } else {
            index.entry(n.node_id).or_insert(place);
        }
    }
    index
}

/// Where a link leads, by the index.
fn looked_up(cell: &Cell, index: &HashMap<u16, usize>, link: &Link) -> Target {
    if !cell.nodes().first().is_some_and(|n| is_own(n.area_id, link.area_id)) {
        return Target::Out(link.area_id, link.node_id);
    }
    index.get(&link.node_id).map_or(Target::NoNode, |&to| Target::Node(to))
}

fn renumbered(cell: &Cell) -> Option<Renumbered> {
    let mut copy = cell.clone();
    let new = copy.renumber().ok()?;
    Some(Renumbered { cell: copy, old: inverse(&new), new })
}

/// Where link k of the node at a place leads.
fn led(cell: &Cell, place: usize, k: usize) -> Target {
    match cell.walk(place, &[k as u8]) {
        Ok(Walk { end: End::Left(area, number), .. }) => Target::Out(area, number),
        Ok(walk) => walk.visited.get(1).map_or(Target::NoNode, |&to| Target::Node(to as usize)),
        Err(_) => Target::NoNode,
    }
}

#[cfg(test)]
mod tests {
    use super::*;

    #[test]
    fn metres_as_two_digits_are_written() {
        let stored = (-32_768..=32_767).map(|k| k as f32 / 32.0);
        let far = (-32_768..=32_767).map(|k| k as f32 / 4.0);
        for v in stored.chain(far).chain([0.1, -0.004, -0.0, 1e9, f32::NAN, f32::INFINITY]) {
            assert_eq!(Metres(v).to_string(), format!("{v:.2}"));
        }
    }

    #[test]
    fn a_renumbered_copy_leads_to_the_same_nodes() {
        let mut cell = Cell::new();
        for p in 0..200usize {
            cell.add_node(9, [p as f32, 0.0, 0.0]).unwrap();
            let mut node = cell.nodes()[p];
            node.node_id = (p * 37 % 200) as u16 + 7;
            node.set_special(if p % 3 == 0 { 10 } else { 0 });
            cell.put_node(p, node).unwrap();
            for to in [p * 7 % 200, p * 11 % 200] {
                cell.add_link(p, Link::to(9, (to * 37 % 200) as u16 + 7)).unwrap();
            }
            cell.add_link(p, Link::to(8, p as u16)).unwrap();
        }
        assert!(cell.is_sound());
        let mut targets = Targets::new(&cell);
        assert!(matches!(targets.found, Found::InCopy(_)));
        for p in 0..200 {
            for (k, link) in cell.links_of(p).unwrap().iter().enumerate() {
                assert_eq!(targets.of(p, k, link), led(&cell, p, k));
            }
        }
    }

    /// Small cells of every kind, unsound ones too: the index finds what a walk finds.
    #[test]
    fn the_index_leads_where_walks_lead() {
        let mut seed = 5u32;
        let mut below = |n: u32| {
            seed = seed.wrapping_mul(1_664_525).wrapping_add(1_013_904_223);
            ((seed >> 16) % n) as usize
        };
        let mut kinds = [0; 3];
        for _ in 0..20_000 {
            let own = [5, 1029, 0][below(3)];
            let areas = [own, own, own & !1024, own | 1024, 6];
            let (mut cell, n) = (Cell::new(), 1 + below(5));
            for p in 0..n {
                cell.add_node(areas[below(5)], [0.0; 3]).unwrap();
                let mut node = cell.nodes()[p];
                node.node_id = below(6) as u16;
                cell.put_node(p, node).unwrap();
            }
            for p in 0..n {
                cell.add_link(p, Link::to(areas[below(5)], below(6) as u16)).unwrap();
            }
            let index = index(&cell);
            for p in 0..n {
                let walked = led(&cell, p, 0);
                assert_eq!(looked_up(&cell, &index, &cell.links_of(p).unwrap()[0]), walked, "{cell:?}");
                kinds[match walked {
                    Target::Node(_) => 0,
                    Target::Out(..) => 1,
                    Target::NoNode => 2,
                }] += 1;
            }
        }
        assert!(kinds.iter().all(|k| *k > 5_000), "{kinds:?}");
    }
}
