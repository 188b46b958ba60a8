//! `set`: cells whose walks cross from one into another.
use crate::cli;
use crate::fault::{shown, Fault, Here, Trouble};
use crate::input::{Input, Opened};
use crate::walks::{end_text, step_names, walk_object};
use crate::{nodes, sound, why, Told};
use bofrashem::{Cell, CrossingWalk, Link, Location, Refusal, Round, VersionedRound, Yard};
use serde_json::{json, Value};
use std::fmt::Write;
use std::path::Path;

/// The set, and its members as they were opened, in the order of joining.
pub struct Set {
    pub yard: Yard,
    pub members: Vec<Opened>,
}

/// So many choices are worth a renumbered copy.
const LONG: usize = 1000;

impl Set {
    pub fn open(yards: &[cli::Yard], input: &Input) -> Result<Set, Trouble> {
        let mut set = Set { yard: Yard::new(), members: Vec::new() };
        for yard in yards {
            let opened = input.open(yard)?;
            set.yard.join(&opened.cell).map_err(|r| set.unjoined(r, &opened.cell).of(&yard.file))?;
            set.members.push(opened);
        }
        Ok(set)
    }

    fn unjoined(&self, r: Refusal, cell: &Cell) -> Fault {
        let area = |cell: &Cell| cell.area().unwrap_or(0);
        match r {
            Refusal::AtLimit => {
                Fault::Refused(r, Here::At("a set has at most 9 members and 65,536 nodes".into()))
            }
            Refusal::AreaInSet => {
                let first = self.members.iter().position(|m| area(&m.cell) == area(cell));
                let file = first.map_or(String::new(), |m| shown(&self.members[m].sections.file));
                let at = format!("area {}, as member {}, {file}", area(cell), first.unwrap_or(0));
                Fault::Refused(r, Here::At(at))
            }
            r => Fault::Refused(r, Here::AsCause),
        }
    }

    fn cells(&self) -> impl Iterator<Item = &Cell> {
        self.members.iter().map(|m| &m.cell)
    }

    /// A walk that crosses. A number that isn't its node's place is looked for in the whole member; a long walk goes
    /// in a renumbered copy then, whose numbers are places, and which no walk of a sound set can tell from it.
    pub fn walk(&self, member: usize, place: usize, choices: &[u8]) -> Result<CrossingWalk, Refusal> {
        let start = Location { member, place };
        let worth = choices.len() >= LONG && !self.cells().all(nodes::numbers_are_places);
        match worth && self.yard.is_sound() && self.has(start) {
            true => self.walk_in_copy(start, choices),
            false => self.yard.crossing_walk(member, place, choices),
        }
    }

    fn has(&self, at: Location) -> bool {
        self.members.get(at.member as usize).is_some_and(|m| (at.place as usize) < m.cell.nodes().len())
    }

    fn walk_in_copy(&self, start: Location, choices: &[u8]) -> Result<CrossingWalk, Refusal> {
        let mut copy = self.yard.clone();
        let new: Vec<Vec<usize>> = (0..copy.len()).map(|m| copy.renumber(m)).collect::<Result<_, _>>()?;
        let old: Vec<Vec<usize>> = new.iter().map(|new| nodes::inverse(new)).collect();
        let (m, p) = (start.member as usize, start.place as usize);
        let mut walk = copy.crossing_walk(m, new[m][p] as usize, choices)?;
        for at in &mut walk.visited {
            at.place = old[at.member][at.place];
        }
        Ok(walk)
    }

    /// The walk that a round, of this file, is: of version 2 from the member of its area, of version 1 from this one.
    pub fn follow(
        &self,
        round: &VersionedRound,
        member: usize,
        file: &Path,
    ) -> Result<CrossingWalk, Trouble> {
        let start = Round { start: round.round.start, choices: Vec::new() };
        // an empty round finds the start, or is refused
        let found = self.yard.follow(&VersionedRound { area: round.area, round: start }, member);
        let at = match found.map(|walk| walk.visited.first().copied()) {
            Ok(Some(at)) => at,
            Ok(None) => return Err(Fault::Refused(Refusal::NoSuchPlace, Here::AsCause).of(file)),
            Err(r) => return Err(self.unfollowed(r, round, member).of(file)),
        };
        let walk = self.walk(at.member as usize, at.place as usize, &round.round.choices);
        walk.map_err(|r| Fault::Refused(r, Here::AsCause).of(file))
    }

    fn unfollowed(&self, r: Refusal, round: &VersionedRound, member: usize) -> Fault {
        let of_area = round.area.map_or(Some(member), |area| self.yard.member_of_area(area));
        match (r, of_area.and_then(|m| self.members.get(m))) {
            (Refusal::OtherArea, _) => {
                let area = round.area.unwrap_or(0);
                Fault::said(r, format!("the round is of area {area}, which no member has"))
            }
            (_, Some(m)) => why::round(r, round, &m.cell, &shown(&m.sections.file)),
            (_, None) => why::no_member(member, self.members.len()),
        }
    }

    fn no_walk(&self, r: Refusal, member: usize, place: usize) -> Fault {
        match (r, self.members.get(member)) {
            (Refusal::NoSuchPlace, None) => why::no_member(member, self.members.len()),
            (Refusal::NoSuchPlace, Some(m)) => why::no_place_in(member, place, &m.cell),
            _ => Fault::Refused(r, Here::AsCause),
        }
    }
}

pub fn set(args: &cli::Set, input: &Input, json: bool) -> Result<Told, Trouble> {
    let set = Set::open(&args.yards.0, input)?;
    if let Some(file) = &args.round {
        let (round, _) = input.round(file)?;
        let walk = set.follow(&round, args.member, file)?;
        return Ok(told(&set, &walk, &round.round.choices, json));
    }
    match args.walk.as_deref() {
        Some([member, place, choices @ ..]) => {
            let bytes: Option<Vec<u8>> = choices.iter().map(|&c| u8::try_from(c).ok()).collect();
            let choices = bytes.ok_or_else(|| Fault::Usage("choices are 0 to 255".into()).plain())?;
            let walk =
                set.walk(*member, *place, &choices).map_err(|r| set.no_walk(r, *member, *place).plain())?;
            Ok(told(&set, &walk, &choices, json))
        }
        _ => Ok(Told::either(json, || text(&set), || value(&set))),
    }
}

/// Why a set is not sound, whatever the check says of it: the first member that isn't, or the first link into a member
/// that names no node there.
fn reason(set: &Set) -> Option<String> {
    let cells: Vec<&Cell> = set.cells().collect();
    for (m, cell) in cells.iter().enumerate() {
        if let Some(reason) = sound::reason(cell) {
            return Some(format!("member {m}: {reason}"));
        }
    }
    for (m, cell) in cells.iter().enumerate() {
        let own = cell.area().unwrap_or(0) as u16;
        for node in 0..cell.nodes().len() {
            for (link, l) in cell.links_of(node).unwrap_or_default().iter().enumerate() {
                let to = cells.iter().position(|c| c.area().unwrap_or(0) == l.area_id as u32);
                let other = to.filter(|_| !sound::is_own(own, l.area_id));
                if let Some(to) = other.filter(|&to| cells[to].node(l.node_id).is_none()) {
                    let names = format!("names number {} of member {to}, which no node has", l.node_id);
                    return Some(format!("member {m}: link {link} of node {node} {names}"));
                }
            }
        }
    }
    None
}

fn total(set: &Set) -> usize {
    set.cells().map(|c| c.nodes().len()).sum()
}

fn text(set: &Set) -> String {
    let mut t = String::new();
    for (m, Opened { sections, cell }) in set.members.iter().enumerate() {
        let (area, nodes, links) = (cell.area().unwrap_or(0), cell.nodes().len(), cell.link_count());
        // a String takes every byte
        let _ =
            writeln!(t, "member {m}   {}: area {area}, {nodes} nodes, {links} links", shown(&sections.file));
    }
    let _ = writeln!(t, "together   {} members, {} nodes", set.members.len(), total(set));
    if set.yard.is_sound() {
        return t + "sound      yes\n";
    }
    match reason(set) {
        Some(reason) => t + &format!("sound      no: {reason}\n"),
        None => t + "sound      no\n",
    }
}

fn value(set: &Set) -> Value {
    let member = |Opened { sections, cell }: &Opened| {
        let (area, nodes) = (cell.area().unwrap_or(0), cell.nodes().len());
        json!({ "file": shown(&sections.file), "area": area, "nodes": nodes, "links": cell.link_count() })
    };
    let members: Vec<Value> = set.members.iter().map(member).collect();
    let sound = set.yard.is_sound();
    let because = if sound { None } else { reason(set) };
    json!({ "members": members, "nodes": total(set), "sound": sound, "unsound_because": because })
}

/// A crossing walk in words or in JSON.
fn told(set: &Set, walk: &CrossingWalk, choices: &[u8], json: bool) -> Told {
    Told::either(json, || walk_text(set, walk, choices), || walk_value(set, walk, choices))
}

/// The link that was chosen at step k, where there is one.
fn chosen(set: &Set, walk: &CrossingWalk, choices: &[u8], k: usize) -> Option<Link> {
    let (at, choice) = (walk.visited.get(k)?, *choices.get(k)? as usize);
    set.members.get(at.member as usize)?.cell.links_of(at.place as usize).ok()?.get(choice).copied()
}

/// How many links were followed, and their metres.
pub fn followed(set: &Set, walk: &CrossingWalk, choices: &[u8]) -> (usize, u32) {
    let followed = walk.visited.len().saturating_sub(1);
    let links = (0..followed).filter_map(|k| chosen(set, walk, choices, k));
    (followed, links.map(|l| l.length as u32).sum())
}

fn walk_text(set: &Set, walk: &CrossingWalk, choices: &[u8]) -> String {
    let mut t = String::new();
    for (k, at) in walk.visited.iter().enumerate() {
        let Some(member) = set.members.get(at.member as usize) else { continue };
        let _ = write!(t, "{k} member {} {}", at.member, nodes::line(&member.cell, at.place as usize));
        if let Some(choice) = choices.get(k) {
            let _ = match chosen(set, walk, choices, k) {
                Some(l) => write!(t, ", link {choice} of {} m", l.length),
                None => write!(t, ", no link {choice}"),
            };
        }
        t.push('\n');
    }
    let (followed, metres) = followed(set, walk, choices);
    let _ = writeln!(t, "{}\n{followed} links followed, {metres} m", end_text(walk.end));
    t
}

fn walk_value(set: &Set, walk: &CrossingWalk, choices: &[u8]) -> String {
    let visited = walk.visited.iter().enumerate().filter_map(|(k, at)| {
        let cell = &set.members.get(at.member as usize)?.cell;
        let step = step_names(k, choices, chosen(set, walk, choices, k));
        Some(nodes::object(cell, at.place as usize, format!(",\"member\":{}{step}", at.member)))
    });
    walk_object(walk.end, followed(set, walk, choices), visited)
}
