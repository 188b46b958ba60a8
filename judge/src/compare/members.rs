//! Calls on one member of a set, against T-09's sentences: each is the cell's own call on that member, whose lists are
//! its parts; the other members, and what is behind all parts, stay. The cell's own calls are held to document 01 by
//! their own families, and here once more.
use super::seen::{self, Call};
use super::{lookups, same, scripts, shown, Verdict, MODEL, PORT};
use crate::inputs::rng::Rng;
use crate::inputs::scripts::{op, Op};
use crate::inputs::stores::{store, Store};
use crate::model::cell::Cell;
use crate::model::sets::MOST_MEMBERS;
use crate::model::{refuse_if, room, Answer, MOST_JUNCTIONS, MOST_NODES};
use crate::port::memory::Memory;
use crate::port::sets::Set;

const SECTION: usize = 60_000;
const LISTS: [usize; 5] = [0, 1, 2, 3, 4];

/// What decides before the cell's own call: 13 no such member; 14 over a limit, and for a node more at the total; 7 at
/// the lowest list that is lent and shorter than all parts together, or in which a part is shorter than its count.
pub fn asked(set: &Set, member: usize, lent: &[usize], one_more: bool) -> Answer<()> {
    refuse_if(member >= set.count, 13, 0)?;
    let counts: Vec<[usize; 5]> = (0..set.count).map(|i| set.counts(i)).collect();
    let together: usize = counts.iter().map(|c| c[0]).sum();
    let over = counts.iter().any(|c| c[0] > MOST_NODES || c[2] > MOST_JUNCTIONS);
    refuse_if(set.count > MOST_MEMBERS || together > MOST_NODES || over, 14, 0)?;
    refuse_if(one_more && together == MOST_NODES, 14, 0)?;
    let (sizes, used, have) = (set.sizes(), set.used(), set.lent());
    LISTS.into_iter().try_for_each(|k| {
        let part_short = counts.iter().zip(&sizes).any(|(c, s)| c[k] > s[k]);
        refuse_if(part_short || lent.contains(&k) && used[k] > have[k], 7, k)
    })
}

/// A set as a caller's slip may leave it: a list too short for the parts, a part too short for its count, or a count
/// over a limit.
fn by_hand(r: &mut Rng, port: &Set) -> Set {
    let (mut s, used) = (port.clone(), port.used());
    let (k, i) = (r.below(5), r.below(s.count.max(1)));
    match r.below(6) {
        0 | 1 => s.shorten(k, used[k].saturating_sub(1 + r.below(3))),
        2 => if s.count > 0 { s.members[i][10 + k] = s.members[i][15 + k] + 1 },
        3 => if s.count > 0 { s.members[i][10] = r.pick(&[65_530, 65_536, 65_537, u32::MAX]) },
        4 => if s.count > 0 { s.members[i][12] = r.pick(&[4_096, 4_097]) },
        _ => s.count = s.members.len(),
    }
    s
}

/// An edit, as the families of scripts and stores make it.
#[derive(Debug)]
enum Edit { Op(Op), Store(Store) }

fn edit(r: &mut Rng, cell: &Cell) -> Edit {
    loop {
        let next = if r.once_in(3) { Edit::Store(store(r, cell)) } else { Edit::Op(op(r, cell, cell.counts())) };
        match next {
            Edit::Op(Op::Renumber { .. } | Op::Walk { .. } | Op::Write { .. }) => {}
            Edit::Store(Store::Renumber | Store::WriteRead) => {}
            next => return next,
        }
    }
}

/// The lists that its call is lent.
fn lists(edit: &Edit) -> &'static [usize] {
    match edit {
        Edit::Op(Op::AddNode { .. } | Op::SetPosition { .. } | Op::PutNode { .. }) => &[0],
        Edit::Store(Store::AddNode(_)) => &[0],
        Edit::Op(Op::AddLink { .. } | Op::PutLink { .. }) => &[0, 1],
        Edit::Store(Store::AddLink { .. } | Store::Links { .. }) => &[0, 1],
        Edit::Op(Op::AddRef(_) | Op::PutRef { .. }) => &[4],
        Edit::Op(Op::AddJunction(_) | Op::PutValue { .. }) => &[2, 3],
        Edit::Store(Store::AddJunction(_) | Store::Heightmap { .. }) => &[2, 3],
        Edit::Op(Op::PutJunction { .. }) => &[2],
        Edit::Op(_) => &LISTS,
        Edit::Store(_) => &[],
    }
}

/// The member's call. What no call looks at is `junk`.
fn on_set(s: &mut Set, i: usize, edit: &Edit, junk: [u32; 2], section: &mut [u8]) -> Answer<()> {
    match edit {
        Edit::Op(op) => match op {
            Op::AddNode { area_id, position } => s.add_node(i, *area_id, *position),
            Op::SetPosition { place, position } => s.set_position(i, *place, *position),
            Op::AddLink { place, link } => s.add_link(i, *place, link),
            Op::AddRef(x) => s.add_ref(i, x),
            Op::AddJunction(j) => s.add_junction(i, j, junk[0]),
            Op::PutNode { place, node } => s.put_node(i, *place, node, junk),
            Op::PutLink { place, index, link } => s.put_link(i, *place, *index, link),
            Op::PutRef { place, r } => s.put_ref(i, *place, r),
            Op::PutJunction { place, junction } => s.put_junction(i, *place, junction, junk[0]),
            Op::PutValue { place, index, value } => s.put_height(i, *place, *index, *value),
            _ => s.write_then_read(i, section).map(|_| ()),
        },
        Edit::Store(store) => match store {
            Store::Truncate { list, count } => s.truncate(i, *list, *count),
            Store::Links { place, links } => s.put_links(i, *place, links),
            Store::Heightmap { place, size, values } => s.put_heightmap(i, *place, *size, values),
            Store::AddNode(area) => s.add_node(i, *area, [0; 3]),
            Store::AddLink { place, link } => s.add_link(i, *place, link),
            Store::AddJunction(j) => s.add_junction(i, j, junk[0]),
            own => {
                let mut m = if i < s.count { s.memory(i) } else { Memory::default() };
                store_words(&mut m, own);
                s.put_words(i, m.ynd[..10].try_into().expect("ten words"))
            }
        },
    }
}

/// The cell's own call.
fn on_cell(m: &mut Memory, edit: &Edit, junk: [u32; 2], section: &mut [u8]) -> Answer<()> {
    match edit {
        Edit::Op(op) => match op {
            Op::AddNode { area_id, position } => m.add_node(*area_id, *position),
            Op::SetPosition { place, position } => m.set_position(*place, *position),
            Op::AddLink { place, link } => m.add_link(*place, link),
            Op::AddRef(x) => m.add_ref(x),
            Op::AddJunction(j) => m.add_junction(j, junk[0]),
            Op::PutNode { place, node } => m.put_node(*place, node, junk),
            Op::PutLink { place, index, link } => m.put_link(*place, *index, link),
            Op::PutRef { place, r } => m.put_ref(*place, r),
            Op::PutJunction { place, junction } => m.put_junction(*place, junction, junk[0]),
            Op::PutValue { place, index, value } => m.put_height(*place, *index, *value),
            _ => m.write_then_read(section).map(|_| ()),
        },
        Edit::Store(store) => match store {
            Store::Truncate { list, count } => m.truncate(*list, *count),
            Store::Links { place, links } => m.put_links(*place, links),
            Store::Heightmap { place, size, values } => m.put_heightmap(*place, *size, values),
            Store::AddNode(area) => m.add_node(*area, [0; 3]),
            Store::AddLink { place, link } => m.add_link(*place, link),
            Store::AddJunction(j) => m.add_junction(j, junk[0]),
            own => { store_words(m, own); Ok(()) }
        },
    }
}

fn store_words(m: &mut Memory, store: &Store) {
    match store {
        Store::Vft(v) => m.ynd[0] = *v,
        Store::KindCount { peds, count } => m.ynd[1 + *peds as usize] = *count,
        Store::Unknowns(u) => m.ynd[3..10].copy_from_slice(u),
        _ => {}
    }
}

/// An edit of any member, or of none; now and then of a set made by hand.
pub fn edits(r: &mut Rng, set: &mut [Cell], port: &mut Set) -> Verdict {
    let i = r.below(set.len() + 1);
    let cell = set.get(i).cloned().unwrap_or_default();
    let (edit, junk) = (edit(r, &cell), [r.u32(), r.u32()]);
    let length = if r.once_in(4) { r.below(1_400) } else { SECTION };
    if r.once_in(4) { return one_edit(&mut by_hand(r, port), i, &edit, junk, length).map(|_| ()); }
    let before = port.memory_or_none(i);
    let answer = one_edit(port, i, &edit, junk, length)?;
    if i >= set.len() { return Ok(()); }
    if let Edit::Op(op) = &edit {
        let model = match op {
            // the caller's section, not the script's
            Op::WriteRead { .. } => Op::WriteRead { section: length },
            op => op.clone(),
        };
        let want = scripts::on_model(&mut set[i], &model, free(&before, &cell));
        same(&format!("{edit:?} of a member"), MODEL, &want, PORT, &answer)?;
    } else {
        set[i] = port.memory(i).cell();
    }
    same("the members after an edit", MODEL, &set.to_vec(), PORT, &port.cells())
}

/// The lists' lengths without the entries that no node or junction has any more.
fn free(m: &Memory, cell: &Cell) -> [usize; 5] {
    let (lent, counts, held) = (m.lent(), m.counts(), cell.counts());
    LISTS.map(|k| lent[k] - (counts[k] - held[k]))
}

/// One edit: the set's causes, then the cell's own call; all else stays, and a refused one leaves all.
fn one_edit(s: &mut Set, i: usize, edit: &Edit, junk: [u32; 2], length: usize) -> Result<Answer<()>, super::Mismatch> {
    let (before, mut m) = (s.clone(), s.memory_or_none(i));
    let (mut section, mut written) = (vec![0xA5; length], vec![0xA5; length]);
    let one_more = matches!(edit, Edit::Op(Op::AddNode { .. }) | Edit::Store(Store::AddNode(_)));
    let want = asked(&before, i, lists(edit), one_more).and_then(|()| on_cell(&mut m, edit, junk, &mut written));
    let have = on_set(s, i, edit, junk, &mut section);
    let what = format!("{edit:?} of member {i}");
    seen::note(if matches!(edit, Edit::Op(Op::WriteRead { .. })) { Call::WriteRead } else { Call::Edit }, &have);
    same(&what, MODEL, &want, PORT, &have)?;
    same(&format!("{what}: the section"), MODEL, &written, PORT, &section)?;
    let after = if want.is_ok() { before.with(i, &m) } else { before };
    same(&format!("{what}: all six lists"), MODEL, &after, PORT, s)?;
    Ok(have)
}

/// Lookups, entries, what a walk shows, and writing, of any member or of none; now and then in a set made by hand.
pub fn looks(r: &mut Rng, port: &Set) -> Verdict {
    let i = r.below(port.count + 1);
    let (at, k, choice) = (r.below(6), r.below(4), r.below(5) as u8);
    let own = port.memory_or_none(i);
    if i < port.count {
        lookups::entries(&own, at, k)?;
        shown::showing(&own, &own.cell(), at, choice)?;
    }
    let made = if r.once_in(4) { Some(by_hand(r, port)) } else { None };
    let s = made.as_ref().unwrap_or(port);
    let (m, before) = (s.memory_or_none(i), s.clone());
    found(r, s, &m, i)?;
    entries(s, &m, i, at, k)?;
    seen_of(s, &m, i, at, choice)?;
    written(r, s, &m, i)?;
    same("a set that is looked at", MODEL, &before, PORT, s)
}

/// What the cell's own call gives, where the set's causes don't decide.
fn or_own<T>(set: &Set, i: usize, lent: &[usize], own: impl FnOnce() -> (Answer<T>, bool)) -> (Answer<T>, bool) {
    match asked(set, i, lent, false) { Ok(()) => own(), Err(cause) => (Err(cause), true) }
}

fn found(r: &mut Rng, s: &Set, m: &Memory, i: usize) -> Verdict {
    let (area, number) = (m.nodes.first().map_or(7, |w| w[0] as u16), r.below(20) as u16);
    let node = or_own(s, i, &[0], || m.node(number));
    seen::note(Call::Lookup, &node.0);
    same("a member's node", MODEL, &node, PORT, &s.node(i, number))?;
    let junction = or_own(s, i, &[0, 4], || m.junction_of(area, number));
    same("a member's junction_of", MODEL, &junction, PORT, &s.junction_of(i, area, number))?;
    same("a member's area", MODEL, &or_own(s, i, &[0], || m.area()), PORT, &s.area(i))
}

fn entries(s: &Set, m: &Memory, i: usize, at: usize, k: usize) -> Verdict {
    same("a member's words", MODEL, &or_own(s, i, &[], || (Ok(m.ynd), true)), PORT, &s.get_cell(i))?;
    let node = or_own(s, i, &[0], || m.get_node(at));
    seen::note(Call::Entry, &node.0);
    same("a member's get_node", MODEL, &node, PORT, &s.get_node(i, at))?;
    let link = or_own(s, i, &[0, 1], || m.get_link(at, k));
    same("a member's get_link", MODEL, &link.0, PORT, &s.get_link(i, at, k).0)?;
    let taken = or_own(s, i, &[4], || m.get_ref(at));
    same("a member's get_ref", MODEL, &taken.0, PORT, &s.get_ref(i, at).0)?;
    same("a member's get_junction", MODEL, &or_own(s, i, &[2], || m.get_junction(at)), PORT, &s.get_junction(i, at))?;
    let value = or_own(s, i, &[2, 3], || m.get_height(at, k));
    same("a member's get_height", MODEL, &value, PORT, &s.get_height(i, at, k))
}

fn seen_of(s: &Set, m: &Memory, i: usize, at: usize, choice: u8) -> Verdict {
    let node = or_own(s, i, &[0, 1, 2, 4], || m.shown_node(at));
    seen::note(Call::Shown, &node.0);
    same("what is shown of a member's node", MODEL, &node, PORT, &s.shown_node(i, at))?;
    let junction = or_own(s, i, &[2], || m.shown_junction(at));
    same("what is shown of a member's junction", MODEL, &junction, PORT, &s.shown_junction(i, at))?;
    let room = choice as usize;
    let values = or_own(s, i, &[2, 3], || m.shown_values(at, room));
    same("what is shown of a member's heightmap", MODEL, &values, PORT, &s.shown_values(i, at, room))?;
    let link = or_own(s, i, &[0, 1], || m.shown_link(at, choice));
    same("what is shown of a member's link", MODEL, &link, PORT, &s.shown_link(i, at, choice))
}

fn written(r: &mut Rng, s: &Set, m: &Memory, i: usize) -> Verdict {
    let length = if r.once_in(4) { r.below(1_400) } else { SECTION };
    let (mut section, mut want) = (vec![0xA5; length], vec![0xA5; length]);
    let expected = asked(s, i, &LISTS, false).and_then(|()| m.write(&mut want));
    let have = s.write(i, &mut section);
    seen::note(Call::Write, &have);
    same("writing a member", MODEL, &expected, PORT, &have)?;
    same("a member's section", MODEL, &want, PORT, &section)
}

/// The member of an area copied into a cell's memory: what its counts say; entries behind stay. 7 the lowest list that
/// is too short for it.
pub fn hands_back(r: &mut Rng, set: &[Cell], port: &Set, area: u16) -> Verdict {
    let j = set.iter().position(|c| c.area() == area);
    let counts = j.map_or([1; 5], |j| port.counts(j));
    let mut lent = counts.map(|n| n + r.below(3));
    if r.once_in(4) { let k = r.below(5); lent[k] = lent[k].saturating_sub(1 + r.below(3)); }
    let mut to = Memory::rubbish(r, lent);
    let (before, kept) = (to.clone(), port.clone());
    let want = refuse_if(j.is_none(), 13, 0).and_then(|()| room(0, &counts, &lent));
    let have = port.hand_back(area, &mut to);
    seen::note(Call::Set, &have);
    same("handing back", MODEL, &want, PORT, &have)?;
    same("the set that hands back", MODEL, &kept, PORT, port)?;
    let Some(j) = j.filter(|_| want.is_ok()) else { return same("a refused handing back", MODEL, &before, PORT, &to) };
    same("the cell handed back", MODEL, &set[j], PORT, &to.cell())?;
    same("its words", MODEL, &port.memory(j).ynd, PORT, &to.ynd)?;
    same("behind the cell handed back", MODEL, &before.beyond(counts), PORT, &to.beyond(counts))
}
