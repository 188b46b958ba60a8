//! Demand 3 as a test of its statement: a list of renumberings and write-then-reads, refused ones too, on a sound cell
//! as read; then every place's walks, held to the walks of the cell that document 01 defines for the bytes first read.
use super::scratch::with_scratch;
use super::seen::{self, Call, Met};
use super::cells::claims;
use super::drawn::settled;
use super::{memory, same, Verdict, MODEL, PORT};
use crate::inputs::files::File;
use crate::inputs::rng::Rng;
use crate::model::cell::{Cell, Junction};
use crate::model::walk::{is_sound, walk, Seen, Walk};
use crate::model::{read, renumber, room, write, Answer};
use crate::port::memory::Memory;

/// The cell as first read, the memory as the calls left it, and where each node first read now stands.
struct List<'a> {
    first: &'a Cell,
    /// The cell as document 01 has it after the calls.
    now: Cell,
    memory: Memory,
    /// By place: which node stands there, named by its first place.
    order: Vec<usize>,
    renumbered: bool,
    /// A write-then-read was accepted.
    settled: bool,
}

pub fn check(f: &File) -> Verdict {
    let Ok(first) = read::read(&f.system, &f.graphics) else { return Ok(()) };
    if !is_sound(&first) { return Ok(()); }
    seen::met(Met::Sound);
    seen::met_if(first.is_island(), Met::Island);
    seen::met_if(claims(&first), Met::Claimed);
    let r = &mut Rng::new(f.aux);
    let lent = first.counts().map(|n| n + r.below(4));
    let mut memory = Memory::rubbish(r, lent);
    same("reading's answer", PORT, &memory.read(&f.system, &f.graphics), MODEL, &Ok(()))?;
    listed(&first, memory, r)
}

/// A list of calls on a sound cell in its memory, drawn or as read, and the walks before and after.
pub fn listed(first: &Cell, memory: Memory, r: &mut Rng) -> Verdict {
    let at_first = memory.clone();
    let order = (0..first.nodes.len()).collect();
    let mut list = List { first, now: first.clone(), memory, order, renumbered: false, settled: false };
    for _ in 0..r.below(8) { if r.once_in(2) { list.renumber(r)? } else { list.write_then_read(r)? } }
    if list.order.iter().enumerate().any(|(now, &p)| now != p) { seen::met(Met::Moved); }
    list.numbers()?;
    list.walks(&at_first, r)
}

impl List<'_> {
    fn renumber(&mut self, r: &mut Rng) -> Verdict {
        let n = self.order.len();
        let any = r.below(65_536);
        let scratch = r.pick(&[65_536, 65_536, 65_536, 65_536, 65_537, 70_000, 65_535, 0, any]);
        let any = r.below(n + 1);
        let places: Vec<u32> = (0..r.pick(&[n, n, n, n + 1, n + 5, n.saturating_sub(1), any])).map(|_| r.u32())
            .collect();
        let (before, mut after) = (self.memory.clone(), places.clone());
        let answer = with_scratch(scratch, |s| { disturb(s, &before, r); self.memory.renumber(s, &mut after) });
        let model = room(6, &[65_536, n], &[scratch, places.len()]);
        seen::note(Call::Renumber, &model);
        same("renumbering's answer", PORT, &answer, MODEL, &model)?;
        if model.is_err() {
            same("refused renumbering: the new places", PORT, &after, MODEL, &places)?;
            return memory::unchanged("refused renumbering", &before, &self.memory);
        }
        // Non-ped nodes first, then ped nodes, each group in old order.
        let ped = |k: &usize| self.first.nodes[self.order[*k]].is_ped();
        let by_new: Vec<usize> = (0..n).filter(|k| !ped(k)).chain((0..n).filter(ped)).collect();
        let mut expected = places;
        for (new, &old) in by_new.iter().enumerate() { expected[old] = new as u32; }
        same("new places", PORT, &after, MODEL, &expected)?;
        self.order = by_new.iter().map(|&old| self.order[old]).collect();
        self.renumbered = true;
        renumber::renumber(&mut self.now, 65_536, n).expect("room for it");
        Ok(())
    }

    fn write_then_read(&mut self, r: &mut Rng) -> Verdict {
        let written = write::written(&self.now).map(|bytes| bytes.len());
        let full = written.unwrap_or(1_200);
        let any = r.below(full + 60);
        let length = r.pick(&[full, full, full, full + 1, full + 40, full - 1, 1_151, 0, any]);
        let section = r.bytes(length);
        let (before, mut after) = (self.memory.clone(), section.clone());
        let answer = self.memory.write_then_read(&mut after);
        let model = written.and_then(|full| room(5, &[full], &[length]).map(|_| full));
        seen::note(Call::WriteRead, &model);
        same("write-then-read's answer", PORT, &answer, MODEL, &model)?;
        let kept = if model.is_ok() { full } else { 0 };
        same("the section's later bytes", PORT, &&after[kept..], MODEL, &&section[kept..])?;
        if model.is_err() { return memory::unchanged("refused write-then-read", &before, &self.memory); }
        self.settled = true;
        self.now = settled(&self.now);
        same("the cell after write-then-read", PORT, &self.memory.cell(), MODEL, &self.now)
    }

    /// The cell is still sound, and after a renumbering each number is its place.
    fn numbers(&self) -> Verdict {
        same("soundness after calls", PORT, &with_scratch(65_536, |s| self.memory.sound(s)), MODEL, &Ok(true))?;
        if !self.renumbered { return Ok(()); }
        let numbers: Vec<usize> = self.memory.nodes[..self.order.len()].iter().map(|w| (w[0] >> 16) as usize)
            .collect();
        same("numbers after renumbering", PORT, &numbers, MODEL, &(0..self.order.len()).collect())
    }

    /// Two walks from every place of a small cell, or from some of a larger one, and one from no place.
    fn walks(&self, at_first: &Memory, r: &mut Rng) -> Verdict {
        let n = self.order.len();
        let mut moved = vec![0; n];
        for (now, &p) in self.order.iter().enumerate() { moved[p] = now; }
        let after = if self.settled { settled(self.first) } else { self.first.clone() };
        for k in 0..2 * n.min(9) {
            let start = if n <= 9 { k / 2 } else { r.below(n) };
            let choices = choices(self.first, start, r);
            let shown = walk(self.first, start, &choices).expect("a node");
            let count = shown.places.len();
            seen::note_end(&shown.end);
            seen::met_times(Met::Followed, count as u64 - 1);
            let visited = r.pick(
                &[choices.len() + 1, choices.len() + 1, count, count + 1, count - 1, choices.len() / 2]);
            let then = room(8, &[count], &[visited]).map(|_| shown);
            seen::note(Call::Walk, &then);
            same("a walk at first", PORT, &walked(at_first, start, &choices, visited)?, MODEL, &then)?;
            let now = then.map(|_| walk(&after, start, &choices).expect("a node"))
                .map(|w| Walk { places: w.places.iter().map(|&p| moved[p]).collect(), ..w });
            same("a walk after calls", PORT, &walked(&self.memory, moved[start], &choices, visited)?, MODEL, &now)?;
        }
        same("a walk from no place", PORT, &walked(&self.memory, n + r.below(3), &[0], r.below(3))?, MODEL,
            &walk(self.first, n, &[]))
    }
}

/// Choices of which most follow a link that is there.
fn choices(cell: &Cell, start: usize, r: &mut Rng) -> Vec<u8> {
    let mut here = Some(start);
    let length = r.below(16);
    (0..length).map(|_| {
        let links = here.map_or(&[][..], |p| &cell.nodes[p].links);
        let choice = if links.is_empty() || r.once_in(16) { r.pick(&[0, 1, 2, 31, 255]) } else {
            r.below(links.len()) as u8
        };
        here = links.get(choice as usize).filter(|l| cell.belongs(l.area_id)).and_then(|l| cell.node(l.node_id));
        choice
    }).collect()
}

/// Rubbish in the scratch that could be taken for places: at the numbers that links and refs name, and anywhere.
fn disturb(scratch: &mut [u32], m: &Memory, r: &mut Rng) {
    for w in m.links.iter().chain(m.refs.iter()) {
        if let Some(x) = scratch.get_mut(w[1] as usize) {
            *x = if r.once_in(4) { r.u32() } else { r.below(m.nodes.len() + 1) as u32 };
        }
    }
    for _ in 0..8 { let at = r.below(scratch.len()); if let Some(x) = scratch.get_mut(at) { *x = r.u32(); } }
}

/// A walk by the port, with all that it shows.
fn walked(m: &Memory, start: usize, choices: &[u8], visited: usize) -> Result<Answer<Walk>, super::Mismatch> {
    const BEYOND: u32 = 0xA5A5_A5A5;
    let mut places = vec![BEYOND; visited];
    let (answer, kept) = m.walk(start, choices, &mut places);
    let count = answer.as_ref().map_or(0, |a| a.1);
    same("what a walk leaves as it was", PORT, &(kept, places[count..].iter().all(|&p| p == BEYOND)), MODEL,
        &(true, true))?;
    Ok(answer.map(|(end, _)| {
        let places: Vec<usize> = places[..count].iter().map(|&p| p as usize).collect();
        let seen = places.iter().map(|&p| see(m, p)).collect();
        let chosen = places.iter().zip(choices).filter_map(|(&p, &b)| link(m, p, b)).collect();
        Walk { end, places, seen, chosen }
    }))
}

fn see(m: &Memory, place: usize) -> Seen {
    let [area, street, x, y, z, f0, f1, f2, f3, f4, f5, a, b, c, d, e, links, has, junction] =
        m.shown_node(place).0.expect("a node");
    Seen {
        area_id: area as u16,
        street_name: street as u32,
        position: [x as u32, y as u32, z as u32],
        flags: [f0 as u8, f1 as u8, f2 as u8, f3 as u8, f4 as u8, f5 as u8],
        unused: [a, b, c, d, e].map(|word| word as u32),
        links,
        junction: (has == 1).then(|| see_junction(m, junction)),
    }
}

fn see_junction(m: &Memory, place: usize) -> Junction {
    let [x, y, min_z, max_z, width, height] = m.shown_junction(place).0.expect("a junction");
    let values = m.shown_values(place, (width * height) as usize).0.expect("a junction");
    Junction { position: [x, y], min_z, max_z, width: width as u8, height: height as u8, values }
}

/// The link that a byte chooses, if there is one.
fn link(m: &Memory, place: usize, choice: u8) -> Option<([u8; 3], u8)> {
    let [is, f0, f1, f2, length] = m.shown_link(place, choice).0.expect("a node");
    (is == 1).then_some(([f0, f1, f2], length))
}
