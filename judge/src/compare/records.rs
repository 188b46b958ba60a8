//! Sections, the root and the four records, at any offset of a file.
use super::seen::{self, Met};
use super::{same, Verdict, MODEL, PORT, RUST};
use crate::blocks::{Pod, Reader, Writer};
use crate::inputs::files::File;
use crate::inputs::rng::Rng;
use crate::model::cell::Cell;
use crate::model::records::{ADDRESS_AT, COUNT_AT, COUNT_WIDTH, ROOT, WIDTHS};
use crate::model::sections::{le, part, put_le};
use crate::model::{refuse_if, write, Refused, MOST_JUNCTIONS, MOST_NODES, MOST_SECTION};
use crate::port;
use crate::resource::lend_sections;
use crate::ynd::{Node, NodeJunction, NodeJunctionRef, NodeLink};

pub fn check(f: &File) -> Verdict {
    let mut r = Rng::new(f.aux);
    let mut padded = f.system.clone();
    padded.resize(ROOT.max(padded.len()), 0);
    lend_sections(f.system.clone(), f.graphics.clone());
    let reader = Reader::open(&[]).ok().expect("sections lent");
    for i in 0..5 {
        located(f, &reader, le(&padded, ADDRESS_AT[i], 8), le(&padded, COUNT_AT[i], COUNT_WIDTH[i]), WIDTHS[i])?;
        let (address, count) = (r.next() >> r.below(64), r.below(9) as u64);
        located(f, &reader, address, count, WIDTHS[r.below(5)])?;
    }
    root(&f.system)?;
    for array in [0, 1, 2, 4] { record(array, &f.system, r.below(f.system.len() + 50))?; }
    let most = if r.once_in(9) { 3_000_000 } else { 66_000 };
    let mut counts = [0; 5].map(|_| if r.once_in(3) { 0 } else { r.below(most) as u32 });
    if !r.once_in(9) { counts[2] %= 4_200; }
    layout(counts)
}

/// The part of the section that an address names.
fn located(f: &File, reader: &Reader, address: u64, count: u64, width: u64) -> Verdict {
    let model = part(&f.system, &f.graphics, address, count, width);
    seen::met(if model.is_some() { Met::Found } else { Met::NotFound });
    // The arrays' rule for null and zero stands in `Reader::structs`, before `slice`.
    let judged = if address == 0 || count == 0 { Some(&[][..]) } else {
        reader.slice(address, (count * width) as usize).ok()
    };
    same("the part that an address names", MODEL, &model, RUST, &judged)?;
    let (found, kept) = port::sections::locate(address, count as u32, width as u8, f.system.len(), f.graphics.len());
    let port = found.map(|[s, at, n]| [&f.system, &f.graphics][s].get(at..at + n).unwrap_or(&[0xEE]));
    same("the part that an address names", PORT, &(port, kept), MODEL, &(model, true))
}

/// The root as read and written: word 1 at offset 4, the pages' address, and the second ref count twice. Of no bytes
/// it is that of the new cell, as writing stores it.
fn root(system: &[u8]) -> Verdict {
    let few = system.len() < ROOT && !system.is_empty();
    let sizes = refuse_if(system.len() > MOST_SECTION, 2, 0).and_then(|_| refuse_if(few, 1, 0));
    let model = sizes.map(|_| {
        let new = write::written(&Cell::undrawn()).unwrap();
        let mut bytes = if system.is_empty() { new[..ROOT].to_vec() } else { system[..ROOT].to_vec() };
        put_le(&mut bytes, 4, 4, 1);
        put_le(&mut bytes, 8, 8, 0x5000_0070);
        let refs = le(&bytes, 90, 2);
        put_le(&mut bytes, 88, 2, refs);
        (0..28).map(|i| le(&bytes, 4 * i, 4) as u32).collect::<Vec<u32>>()
    });
    same("the root", MODEL, &model, PORT, &port::sections::root(system))
}

/// A record read and written is its own bytes; 3 where it doesn't end inside the section.
fn record(array: usize, section: &[u8], at: usize) -> Verdict {
    let width = WIDTHS[array] as usize;
    let found = section.get(at..at + width);
    let judged = found.map(|b| match array {
        0 => again::<Node>(b),
        1 => again::<NodeLink>(b),
        2 => again::<NodeJunction>(b),
        _ => again::<NodeJunctionRef>(b),
    });
    same("a record read and written", MODEL, &found.map(<[u8]>::to_vec), RUST, &judged)?;
    let model = judged.ok_or(Refused(3, array));
    same("a record read and written", PORT, &port::sections::record(array, section, at as u32), MODEL, &model)
}

fn again<T: Pod>(bytes: &[u8]) -> Vec<u8> {
    let mut w = Writer::new(0, 0);
    T::read(bytes).write(&mut w);
    w.into_inner()
}

fn layout(counts: [u32; 5]) -> Verdict {
    let over = counts[0] as usize > MOST_NODES || counts[2] as usize > MOST_JUNCTIONS;
    let (at, end) = write::layout(counts.map(|n| n as usize));
    let addresses = [0, 1, 2, 3, 4].map(|i| if counts[i] == 0 { 0 } else { 0x5000_0000 + at[i] as u64 });
    let model = refuse_if(over, 14, 0).and_then(|_| refuse_if(end > MOST_SECTION, 2, 0)).map(|_| (addresses, end));
    same("the layout", MODEL, &model, PORT, &port::sections::lay_out(counts))
}
