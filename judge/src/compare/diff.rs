//! The whole run: every family of inputs in turn.
use super::numbers::{area, cell_for_position, file_name, grid_cell, lane_offset, length_between, metres};
use super::numbers::{next_to_square, position, steps_of};
use super::run::Run;
use super::{access, agree, cells, far, files, large, page, paths, posts, programs, reach, rounds};
use super::{drawn, scripts, sets, soak, stores, versions};
#[cfg(not(feature = "drop-in"))]
use super::{drop_in, records};
use super::{Mismatch, MODEL};
use crate::inputs::{self, floats, limits, memories, names, rng::Rng, shrink, squares};
use crate::model::length;

/// The bits of 2^-24.
const SMALL: u64 = 0x3380_0000;
/// In a short run and in a full one: lists of calls, large cells, yards with posts, far memories and scripts, pairs
/// for each target next to a square.
const LISTS: [u64; 2] = [20_000, 1_000_000];
const LARGE: [u64; 2] = [60, 400];
const POSTS: [u64; 2] = [60, 400];
const FAR: [u64; 2] = [1_000, 5_000];
const FAR_SCRIPTS: [u64; 2] = [100, 400];
const PAIRS: [u64; 2] = [400, 10_000];

pub fn diff(seed: u64, seconds: f64, full: bool, only: Option<String>) {
    page::held_to_page();
    let run = Run::new(seed, full, only);
    let of = |counts: [u64; 2]| counts[full as usize];
    numbers(&run, seconds, of(PAIRS));
    around_limits(&run);
    let (generate, small) = (files::generate, shrink::smaller_file);
    run.random("files", seconds * 0.3, generate, files::check, small);
    run.counted("edits of far ranges", of(FAR_SCRIPTS), inputs::far::script, far::edits, |_| Vec::new());
    run.counted("large cells", of(LARGE), inputs::large::cell, large::check, |_| Vec::new());
    run.counted("nodes without links", of(POSTS), inputs::posts::file, posts::check, |_| Vec::new());
    run.random("scripts", seconds * 0.25, inputs::scripts::script, scripts::check, inputs::scripts::smaller);
    run.random("stores", seconds * 0.1, inputs::stores::stores, stores::check, inputs::stores::smaller);
    #[cfg(not(feature = "drop-in"))]
    of_the_port(&run, seconds);
    run.report.close();
}

fn around_limits(run: &Run) {
    let r = &mut Rng::new(run.seed);
    run.list("files around limits", &limits::files(r), files::check);
    run.list("cells around limits", &limits::cells(r), |c| cells::check(c, run.seed));
    run.list("scripts around limits", &limits::scripts(r), scripts::check);
}

/// Families whose calls are not the Rust's, or that need its text.
#[cfg(not(feature = "drop-in"))]
fn of_the_port(run: &Run, seconds: f64) {
    let (generate, small) = (files::generate, shrink::smaller_file);
    run.random("sections and records", seconds * 0.1, generate, records::check, small);
    run.random("drop-in", seconds * 0.05, generate, drop_in::check, small);
    let on_port = |(m, aux): &(_, u64)| cells::on_port(m, &mut Rng::new(*aux));
    run.random("any memory", seconds * 0.1, memories::any, on_port, |_| Vec::new());
    run.counted("far ranges", FAR[run.full as usize], inputs::far::any, far::check, |_| Vec::new());
    reach::family(run);
    rounds::families(run);
    versions::families(run);
    sets::families(run);
    agree::family(run);
    paths::family(run);
    lists(run, LISTS[run.full as usize]);
    run.random("stores in any memory", seconds * 0.05, inputs::stores::any, stores::in_any, |_| Vec::new());
    programs::programs(run);
}

/// Lists of calls alone, so many.
pub fn soak(seed: u64, count: u64) {
    let run = Run::new(seed, true, None);
    lists(&run, count);
    run.report.close();
}

fn lists(run: &Run, count: u64) {
    run.counted("lists of calls on sound cells", count, inputs::files::sound, soak::check, shrink::smaller_file);
    sets::lists(run, count);
    run.counted("lists of calls on drawn cells", count / 2, inputs::drawn::drawing, drawn::check,
        inputs::drawn::smaller);
}

fn numbers(run: &Run, seconds: f64, pairs: u64) {
    let thresholds = &length::thresholds();
    run.sweep("steps", 1 << 32, [61, 1], |i| steps_of(i as u32));
    run.sweep("grid", 1 << 32, [61, 1], |i| cell_for_position(i as u32, (i as u32).wrapping_mul(0x9E37_79B1)));
    // All f32 from 2^-24 up, the infinite ones and those that are no number too; below, squares that are subnormal
    // cost most of the time.
    let along = |i: u64| length_between(thresholds, [[0; 3], [0, (SMALL + i) as u32, 0]]);
    run.sweep("lengths along an axis", 0x8000_0000 - SMALL, [401, 1], along);
    run.sweep("lengths next to squares", squares::TARGETS * pairs, [1, 1], |i| {
        let r = &mut Rng::for_input(run.seed, "lengths next to squares", i);
        let (target, from) = squares::target(i);
        let none = || Mismatch {
            what: "no pair of positions".into(), sides: [(MODEL, format!("s {target:#x}")), (MODEL, "".into())]
        };
        next_to_square(thresholds, squares::pair(target, r).ok_or_else(none)?, from)
    });
    run.sweep("metres", 1 << 16, [1, 1], |i| metres(i as u16 as i16));
    run.sweep("lane offsets", 1 << 8, [1, 1], |i| lane_offset(i as u8));
    run.sweep("areas", 1 << 32, [65_537, 17], |i| area(i as u32));
    run.sweep("areas of 16 bits", 1 << 16, [1, 1], |i| area(i as u32));
    run.sweep("accessors", 1 << 16, [1, 1], |i| access::check(i as u8, (i >> 8) as u8));
    run.sweep("new ones", 1 << 16, [257, 1], |i| access::new_ones(i as u16, !i as u16));
    run.sweep("grid cells", 40 * 40, [1, 1], |i| grid_cell(i as u32 % 40, i as u32 / 40));
    run.sweep("names with a middle", names::middles(7), [7, 1], |i| file_name(names::with_middle(i).as_bytes()));
    run.sweep("names of parts", names::rows(5), [1, 1], |i| file_name(names::row(i).as_bytes()));
    run.sweep("names of four letters", names::spelled(12), [61, 1], |i| file_name(names::spelling(i).as_bytes()));
    let each = seconds / 40.0;
    run.random("positions", each, floats::position, |p| position(*p), |_| Vec::new());
    run.random("lengths", each, floats::pair, |p| length_between(thresholds, *p), |_| Vec::new());
    run.random("names", each, names::bytes, |n| file_name(n), |_| Vec::new());
}
