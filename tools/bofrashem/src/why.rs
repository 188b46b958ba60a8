//! What was wrong here, behind a refusal's number: which number, of what, in which file. Whether something is refused,
//! the proved calls say; this only finds the numbers to show.
use crate::fault::{Fault, Here, LISTS};
use crate::kinds::Kind;
use bofrashem::{Cell, Refusal, VersionedRound};

/// Where the address and the count of each array stand in the root, how long the count is, and an entry.
const ARRAYS: [(usize, usize, usize, usize); 5] =
    [(16, 24, 4, 40), (40, 48, 4, 8), (56, 96, 4, 12), (64, 100, 4, 1), (80, 90, 2, 8)];

/// An array of a yard's file, as its root names it.
struct Array {
    address: u64,
    count: usize,
    width: usize,
}

/// A little-endian number of so many bytes, 0 where they are not there.
fn number(bytes: &[u8], at: usize, wide: usize) -> u64 {
    let held = bytes.get(at..at + wide).unwrap_or_default();
    held.iter().rev().fold(0, |n, &b| n << 8 | b as u64)
}

fn array(system: &[u8], list: usize) -> Option<Array> {
    let &(address, count, wide, width) = ARRAYS.get(list)?;
    Some(Array { address: number(system, address, 8), count: number(system, count, wide) as usize, width })
}

impl Array {
    fn is_graphics(&self) -> bool {
        self.address >> 28 == 6
    }

    /// An entry's bytes, where they are there.
    fn entry<'a>(&self, system: &'a [u8], graphics: &'a [u8], k: usize) -> Option<&'a [u8]> {
        let from = (self.address & 0xFFF_FFFF) as usize + k * self.width;
        let section = if self.is_graphics() { graphics } else { system };
        section.get(from..from + self.width)
    }
}

/// Why a yard's file is not read.
pub fn unread(r: Refusal, system: &[u8], graphics: &[u8]) -> Fault {
    let kind = Kind::of(system);
    // too little to tell by is no more than that
    let untold = kind == Kind::Other && r == Refusal::FewSystemBytes;
    if kind != Kind::Yard && !untold && !matches!(r, Refusal::SectionTooLong(_)) {
        let is = if kind == Kind::Other { String::new() } else { format!(", but {kind}") };
        return Fault::said(r, format!("this is no yard{is}"));
    }
    match unread_at(r, system, graphics) {
        Some(at) => Fault::Refused(r, Here::At(at)),
        None => Fault::Refused(r, Here::AsCause),
    }
}

fn unread_at(r: Refusal, system: &[u8], graphics: &[u8]) -> Option<String> {
    let count = |list| array(system, list).map_or(0, |a| a.count);
    match r {
        Refusal::FewSystemBytes => Some(format!("{} bytes", system.len())),
        Refusal::BadArray(list) => {
            let (a, name) = (array(system, list)?, LISTS.get(list)?);
            let (section, length) =
                if a.is_graphics() { ("graphics", graphics.len()) } else { ("system", system.len()) };
            let entries = format!("{} of {} bytes at address {:#x}", a.count, a.width, a.address);
            Some(format!("{name}: {entries}; the {section} section has {length} bytes"))
        }
        Refusal::TooMany(p) => {
            Some(format!("{} {}", count([0, 2][p.min(1)]), ["nodes", "junctions"][p.min(1)]))
        }
        Refusal::BadLinkRange(p) => {
            let node = array(system, 0)?.entry(system, graphics, p)?;
            let (start, links) = (number(node, 26, 2), number(node, 37, 1) >> 3);
            Some(format!("node {p}: {links} links from link {start} on, of {}", count(1)))
        }
        Refusal::BadHeightmapRange(p) => {
            let j = array(system, 2)?.entry(system, graphics, p)?;
            let (start, wide, high) = (number(j, 8, 2), number(j, 10, 1), number(j, 11, 1));
            Some(format!("junction {p}: {wide} times {high} values from value {start} on, of {}", count(3)))
        }
        _ => None,
    }
}

/// "node places are 0 to 12", or that there are none.
fn counted(n: usize, what: &str) -> String {
    match n {
        0 => "there are none".into(),
        n => format!("{what} are 0 to {}", n - 1),
    }
}

/// No node at a place of a yard.
pub fn no_place(at: usize, cell: &Cell) -> Fault {
    Fault::said(Refusal::NoSuchPlace, no_node_words(at, cell.nodes().len()))
}

fn no_node_words(at: usize, nodes: usize) -> String {
    format!("no node is at place {at}: {}", counted(nodes, "node places"))
}

/// No node of a yard has a number.
pub fn no_number(number: usize, cell: &Cell) -> Fault {
    Fault::said(Refusal::NoSuchPlace, no_number_words(number, cell))
}

fn no_number_words(number: usize, cell: &Cell) -> String {
    let all = cell.nodes().iter().map(|n| n.node_id);
    match (all.clone().min(), all.max()) {
        _ if number > 65_535 => format!("no node has number {number}: the highest that can be is 65535"),
        (Some(low), Some(high)) => format!("no node has number {number}: they run from {low} to {high}"),
        _ => format!("no node has number {number}: there are no nodes"),
    }
}

/// What walks and ways are refused for: one of these places has no node, or no walk joins them.
pub fn walk(r: Refusal, cell: &Cell, asked: &[usize]) -> Fault {
    match (r, asked) {
        (Refusal::NoSuchPlace, _) => {
            let missing = asked.iter().find(|&&at| at >= cell.nodes().len());
            missing.map_or(Fault::Refused(r, Here::AsCause), |&at| no_place(at, cell))
        }
        (Refusal::Unreachable, [from, to]) => {
            Fault::said(r, format!("no walk leads from place {from} to place {to}"))
        }
        _ => Fault::Refused(r, Here::AsCause),
    }
}

/// Why bytes are no round file.
pub fn round_file(r: Refusal, bytes: &[u8]) -> Fault {
    let words = match r {
        Refusal::NoRoundFile => match Kind::of(bytes) {
            Kind::Round if bytes.len() < 5 => "cut before its version".into(),
            Kind::Round => format!("a round file of version {}: 1 and 2 are read", number(bytes, 3, 2)),
            Kind::Other => "this is no round file".into(),
            kind => format!("this is no round file, but {kind}"),
        },
        Refusal::BadRoundLength => {
            let (head, count) = if number(bytes, 3, 2) == 2 { (11, 9) } else { (9, 7) };
            if bytes.len() < head {
                format!("{} bytes, and the head alone has {head}", bytes.len())
            } else {
                let choices = number(bytes, count, 2) as usize;
                format!("{} bytes; a round file of {choices} choices has {}", bytes.len(), head + choices)
            }
        }
        _ => return Fault::Refused(r, Here::AsCause),
    };
    Fault::said(r, words)
}

/// Why a round is not followed in a yard, whose file has this name.
pub fn round(r: Refusal, round: &VersionedRound, cell: &Cell, yard: &str) -> Fault {
    let words = match (r, round.area) {
        (Refusal::OtherArea, Some(area)) => match cell.area() {
            Some(own) => format!("the round is of area {area}, {yard} of area {own}"),
            None => format!("the round is of area {area}, and {yard} has no nodes"),
        },
        (Refusal::NoSuchPlace, _) => {
            let start = round.round.start as usize;
            format!("its start is no node of {yard}: {}", no_number_words(start, cell))
        }
        _ => return Fault::Refused(r, Here::AsCause),
    };
    Fault::said(r, words)
}

/// A set of so many members has not that one.
pub fn no_member(member: usize, members: usize) -> Fault {
    Fault::said(Refusal::NoSuchPlace, format!("no member {member}: {}", counted(members, "members")))
}

/// A member has no such place.
pub fn no_place_in(member: usize, at: usize, cell: &Cell) -> Fault {
    Fault::said(Refusal::NoSuchPlace, format!("member {member}: {}", no_node_words(at, cell.nodes().len())))
}
