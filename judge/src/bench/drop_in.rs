//! ns a node: the wrapper's module `ynd`. Its cells are `Vec`s of a caller's structs, as the Rust's are.
use super::cells::{cell, read, written};
use super::{both, both_in, timed, Goal, Row, Wanted, SIZES};
use crate::model::write;
use crate::resource::lend_sections;
use crate::rust;
use bofrashem::ynd::Ynd;
use std::hint::black_box;
use std::time::Duration;

pub fn rows(wanted: &Wanted) -> Vec<Row> {
    let mut out: Vec<Row> = SIZES.into_iter().flat_map(|size| of_size(size, wanted)).collect();
    out.sort_by_key(|r| r.call);
    out
}

/// A look-up where numbers are not places, ns a call: so many of them.
const ANY_NUMBER: &str = "the drop-in, node where numbers aren't places";
const LOOKS: usize = 50;

fn of_size(size: usize, wanted: &Wanted) -> Vec<Row> {
    let mut out = Vec::new();
    let cell = cell(size);
    let bytes = write::written(&cell).expect("a cell that is written");
    let (their, our) = (rust::ynd_of(&cell), Ynd::from_sections(&bytes, &[]).expect("it is read"));
    if wanted.has(ANY_NUMBER) { out.push(of_any_number(size, &their, &our)); }
    let mut row = |call, rust: &dyn Fn() -> Duration, port: &dyn Fn() -> Duration| {
        if !wanted.has(call) { return; }
        let (rust, port) = both(size, rust, port);
        out.push(Row { call, size, rust: Some(rust), floor: None, port: Some(port), goal: Goal::Ratio(1.0) });
    };
    let rust_reads = || { lend_sections(bytes.clone(), Vec::new()); timed(read) };
    row("the drop-in, reading", &rust_reads, &|| timed(|| Ynd::from_sections(&bytes, &[])));
    let rust_renumbers = || { let mut y = their.clone(); timed(|| y.recalculate_node_indices()) };
    row("the drop-in, renumbering", &rust_renumbers, &|| {
        let mut y = our.clone();
        timed(|| y.recalculate_node_indices())
    });
    row("the drop-in, writing", &|| timed(|| written(&their, &bytes[..1152])), &|| timed(|| our.to_section()));
    let (mut their, mut our) = (their, our);
    their.recalculate_node_indices();
    our.recalculate_node_indices();
    let rust_finds = || timed(|| for i in 0..size { black_box(their.node(i as u16)); });
    row("the drop-in, node", &rust_finds, &|| timed(|| for i in 0..size { black_box(our.node(i as u16)); }));
    let rust_asks = || timed(|| for n in &their.nodes { black_box(n.special()); });
    row("the drop-in, special", &rust_asks, &|| timed(|| for n in &our.nodes { black_box(n.special()); }));
    out
}

fn of_any_number(size: usize, their: &crate::ynd::Ynd, our: &Ynd) -> Row {
    let asked: Vec<u16> = (0..size).step_by(size.div_ceil(LOOKS)).map(|i| i as u16).collect();
    let rust = || timed(|| for &i in &asked { black_box(their.node(i)); });
    let port = || timed(|| for &i in &asked { black_box(our.node(i)); });
    let (rust, port) = both_in((20_000 / size).max(1), asked.len(), rust, port);
    Row { call: ANY_NUMBER, size, rust: Some(rust), floor: None, port: Some(port), goal: Goal::Ratio(1.0) }
}
