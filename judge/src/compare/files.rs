//! Reading and counting, then every call on the cell that was read.
use super::seen::{self, Call, Met};
use super::{cells, memory, same, Mismatch, Verdict, MODEL, PORT, RUST};
use crate::inputs::files::File;
use crate::inputs::rng::Rng;
use crate::inputs::{damage, files};
use crate::model::cell::Cell;
use crate::model::records::{ADDRESS_AT, COUNT_AT};
use crate::model::sections::le;
use crate::model::{read, Answer, Refused};
use crate::port;
use crate::port::memory::Memory;
use crate::rust;

pub fn generate(r: &mut Rng) -> File {
    let file = files::valid(r);
    if r.once_in(2) { damage::damaged(r, file) } else { file }
}

pub fn check(f: &File) -> Verdict {
    let model = read::read(&f.system, &f.graphics);
    seen::note(Call::Read, &model);
    seen::met_if(f.system.is_empty() && model.is_ok(), Met::Undrawn);
    // 2 and 6 are added by document 01; the Rust has no such limits. No system bytes it refuses: they are T-02's.
    if rust::BY_THE_DOCUMENTS || (!f.system.is_empty() && !matches!(model, Err(Refused(2 | 6, _)))) {
        match (&model, rust::read(&f.system, &f.graphics)) {
            (Ok(m), Ok(y)) => same("reading", MODEL, &rust::masked(m), RUST, &rust::cell_of(&y))?,
            (Err(m), Err(y)) => same("reading's refusal", MODEL, &rust::refusal(*m, &y), RUST, &y)?,
            (m, y) => {
                let judged = y.map(|y| rust::cell_of(&y));
                let sides = [(MODEL, format!("{m:?}")), (RUST, format!("{judged:?}"))];
                return Err(Mismatch { what: "reading".into(), sides });
            }
        }
    }
    let counts = model.as_ref().map(|c| c.counts()).map_err(|e| *e);
    same("counting", MODEL, &counts, "document 01's count", &read::count(&f.system, &f.graphics))?;
    same("counting", PORT, &port::cells::count(&f.system, &f.graphics), MODEL, &(counts, true))?;
    reading(f, &model)?;
    let Ok(cell) = &model else { return Ok(()) };
    seen::met_if(copied(f, cell), Met::Copies);
    cells::check(cell, f.aux)
}

/// Each node gets its copy of a range that two share.
fn copied(f: &File, cell: &Cell) -> bool {
    let word = |at, width| le(&f.system, at, width);
    !f.system.is_empty() && word(ADDRESS_AT[1], 8) != 0 && cell.counts()[1] > word(COUNT_AT[1], 4) as usize
}

/// Reading into lists with room to spare, and into lists of which one may be too short.
fn reading(f: &File, whole: &Answer<Cell>) -> Verdict {
    let mut r = Rng::new(f.aux ^ 0x5EED);
    let counts = whole.as_ref().map_or([3; 5], |c| c.counts());
    let mut lent = counts.map(|n| n + r.below(3));
    // Now and then two lists are too short, so that the lower place counts.
    for _ in 0..r.pick(&[0, 0, 0, 0, 1, 2]) {
        let i = r.below(5);
        lent[i] = r.pick(&[counts[i].saturating_sub(1), r.clone().below(counts[i] + 1)]);
    }
    let before = Memory::rubbish(&mut r, lent);
    let mut after = before.clone();
    let port = after.read(&f.system, &f.graphics);
    let model = read::read_into(&f.system, &f.graphics, lent);
    if whole.is_ok() { seen::note(Call::Read, &model); }
    same("reading's answer", PORT, &port, MODEL, &model.as_ref().map(|_| ()).map_err(|e| *e))?;
    match model {
        Ok(cell) => same("reading: every list", PORT, &after, MODEL, &before.with(&cell)),
        Err(_) => memory::unchanged("refused reading", &before, &after),
    }
}
