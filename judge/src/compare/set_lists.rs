//! T-09 as a test of its statement: a list of renumberings and write-then-reads, refused ones too, of any members of a
//! sound set, each a cell as read; then crossing walks, held to those of the set as it was first.
use super::scratch::with_scratch;
use super::seen::{self, met, met_if, Call, Met};
use super::sets::cell;
use super::{same, Verdict, MODEL, PORT};
use crate::inputs::rng::Rng;
use crate::model::cell::Cell;
use crate::model::sets::{crossing, join, renumber_member, sound, MOST_MEMBERS};
use crate::model::{read, refuse_if, write, Answer};
use crate::port::memory::Memory;
use crate::port::sets::Set;

const AREAS: [u16; 9] = [5, 1_029, 6, 489, 1_513, 0, 2_053, 31, 9];
const SECTION: usize = 8_192;
const BEFORE: u32 = 0xA5A5_A5A5;

/// The cells as they were joined, the set as the calls left it, and where each member's nodes now stand.
struct List {
    first: Vec<Cell>,
    now: Vec<Cell>,
    joined: Set,
    port: Set,
    moved: Vec<Vec<usize>>,
}

pub fn check(seed: &u64) -> Verdict {
    let r = &mut Rng::new(*seed);
    let Some(first) = sound_set(r) else { return Ok(()) };
    met(Met::Sound);
    let mut list = List::of(r, first)?;
    for _ in 0..r.below(8) {
        let beyond = r.once_in(8) as usize;
        let j = r.below(list.first.len() + beyond);
        if r.once_in(2) { list.renumber(r, j)? } else { list.write_then_read(r, j)? }
    }
    let stays = |list: &[usize]| list.iter().enumerate().all(|(old, &new)| old == new);
    met_if(list.moved.iter().any(|m| !stays(m)), Met::Moved);
    let said = with_scratch(65_536, |s| list.port.sound(s));
    same("soundness after calls", MODEL, &Ok(true), PORT, &said)?;
    for _ in 0..12 { list.walks(r)?; }
    Ok(())
}

/// Up to nine cells as read that are sound together; none where too few tries were sound.
fn sound_set(r: &mut Rng) -> Option<Vec<Cell>> {
    let most = 1 + r.below(MOST_MEMBERS);
    let mut set: Vec<Cell> = Vec::new();
    for k in 0..3 * most {
        if set.len() == most { break; }
        let drawn = cell(r, AREAS[(k + set.len()) % AREAS.len()], &set);
        let Ok(bytes) = write::written(&drawn) else { continue };
        let c = read::read(&bytes, &[]).expect("what was written is read");
        if join(&set, &c).is_err() { continue; }
        set.push(c);
        if !sound(&set) { set.pop(); }
    }
    (!set.is_empty()).then_some(set)
}

impl List {
    fn of(r: &mut Rng, first: Vec<Cell>) -> Result<List, super::Mismatch> {
        let spare = r.below(2);
        let mut port = Set::rubbish(r, first.len() + spare, [80, 160, 40, 90, 40]);
        for c in &first {
            let sizes = c.counts().map(|n| n + r.below(2));
            same("joining", MODEL, &Ok(()), PORT, &port.join(&Memory::of(r, c, c.counts()), sizes))?;
        }
        let moved = first.iter().map(|c| (0..c.nodes.len()).collect()).collect();
        Ok(List { now: first.clone(), first, joined: port.clone(), port, moved })
    }

    fn renumber(&mut self, r: &mut Rng, j: usize) -> Verdict {
        let n = self.first.get(j).map_or(0, |c| c.nodes.len());
        let scratch = r.pick(&[65_536, 65_536, 65_536, 65_535]);
        let mut places = vec![BEFORE; r.pick(&[n, n, n + 2, n.saturating_sub(1)])];
        let (before, room) = (self.port.clone(), places.len());
        let have = with_scratch(scratch, |s| self.port.renumber(j, s, &mut places));
        let want = renumber_member(&mut self.now, j, scratch, room);
        seen::note(Call::Renumber, &have);
        same("renumbering a member", MODEL, &want.as_ref().map(|_| ()).map_err(|e| *e), PORT, &have)?;
        let Ok(new) = want else { return same("a refused renumbering", MODEL, &before, PORT, &self.port) };
        same("the members renumbered", MODEL, &self.now, PORT, &self.port.cells())?;
        let told: Vec<u32> = new.iter().map(|&p| p as u32).chain((n..room).map(|_| BEFORE)).collect();
        same("new places", MODEL, &told, PORT, &places)?;
        for p in &mut self.moved[j] { *p = new[*p]; }
        let numbers: Vec<usize> = self.port.memory(j).cell().nodes.iter().map(|n| n.node_id as usize).collect();
        same("numbers after renumbering", MODEL, &(0..n).collect(), PORT, &numbers)
    }

    fn write_then_read(&mut self, r: &mut Rng, j: usize) -> Verdict {
        let full = self.first.get(j).map_or(0, |c| write::layout(c.counts()).1);
        let length = r.pick(&[SECTION, full, full, full.saturating_sub(1), 0]);
        let mut section = r.bytes(length);
        let mut bytes = section.clone();
        let (before, sizes) = (self.port.clone(), self.port.sizes());
        let have = self.port.write_then_read(j, &mut section);
        let want: Answer<usize> = refuse_if(j >= self.now.len(), 13, 0)
            .and_then(|()| write::write_then_read(&mut self.now[j], &mut bytes, sizes[j]));
        seen::note(Call::WriteRead, &have);
        same("write-then-read of a member", MODEL, &want, PORT, &have)?;
        same("its section", MODEL, &bytes, PORT, &section)?;
        if want.is_err() { return same("a refused write-then-read", MODEL, &before, PORT, &self.port); }
        same("the members written and read", MODEL, &self.now, PORT, &self.port.cells())
    }

    fn at(&self, (i, p): (usize, usize)) -> (usize, usize) { (i, self.moved[i][p]) }

    /// A walk from some node in the set as joined, and from where that node now stands.
    fn walks(&self, r: &mut Rng) -> Verdict {
        let i = r.below(self.first.len());
        if self.first[i].nodes.is_empty() { return Ok(()); }
        let start = (i, r.below(self.first[i].nodes.len()));
        let choices: Vec<u8> = (0..r.below(14)).map(|_| r.pick(&[0, 0, 0, 1, 1, 2, 200])).collect();
        let (end, at) = crossing(&self.first, start, &choices).expect("a node");
        seen::note_end(&end);
        met_if(at.iter().any(|l| l.0 != i), Met::Followed);
        let room = r.pick(&[choices.len() + 1, choices.len() + 1, at.len(), at.len() - 1]);
        let whole = refuse_if(at.len() > room, 7, 8).map(|()| (end, at.len()));
        seen::note(Call::Set, &whole);
        let then: Vec<_> = at.iter().map(|&l| self.at(l)).collect();
        walked(&self.joined, start, &choices, room, &whole, &at)?;
        walked(&self.port, self.at(start), &choices, room, &whole, &then)?;
        if whole.is_err() { return Ok(()); }
        for (k, (&(i, p), &(_, q))) in at.iter().zip(&then).enumerate() {
            same("what is shown", "before", &self.joined.shown_node(i, p), PORT, &self.port.shown_node(i, q))?;
            let by = choices.get(k).copied().unwrap_or(0);
            same("a link shown", "before", &self.joined.shown_link(i, p, by), PORT, &self.port.shown_link(i, q, by))?;
        }
        Ok(())
    }
}

fn walked(
    s: &Set, start: (usize, usize), choices: &[u8], room: usize, want: &Answer<(crate::model::walk::End, usize)>,
    at: &[(usize, usize)],
) -> Verdict {
    let mut visited = vec![[BEFORE; 2]; room];
    let (have, kept) = s.crossing(start, choices, &mut visited);
    let told = if want.is_ok() { at } else { &[] };
    let mut list: Vec<[u32; 2]> = told.iter().map(|&(i, p)| [i as u32, p as u32]).collect();
    list.resize(room, [BEFORE; 2]);
    same("a crossing walk", MODEL, want, PORT, &have)?;
    same("its locations", MODEL, &list, PORT, &visited)?;
    same("what it leaves", MODEL, &true, PORT, &kept)
}
