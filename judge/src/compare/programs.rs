//! The programs as processes, where they are built: what each writes for its standard input.
use super::files::generate;
use super::printed::{printround, thresholds};
use super::run::Run;
use super::seen::{self, Call, Met};
use super::{same, Mismatch, Verdict, MODEL, PORT, RUST};
use crate::inputs::files::File;
use crate::inputs::limits;
use crate::inputs::rng::Rng;
use crate::inputs::shrink::smaller_file;
use crate::model::{read, Answer, Refused};
use crate::rust;
use crate::slips;
use crate::ynd::{area_id_from_file_name, cell_file_name, cell_for_position, cell_of_area, PathLink, PathNode};
use std::fs;
use std::io::Write;
use std::path::Path;
use std::process::{Command, Stdio};

/// What `cellsum` takes at most.
const MOST: usize = 65_536;
/// Random files in a short run and in a full one.
const FILES: [u64; 2] = [2_000, 4_000];

/// Paths start at the repository's root, where the judge is run.
pub fn programs(run: &Run) {
    let families = [
        ("cellsum", cellsum as fn(&Run)), ("pairs", pairs), ("vectors", vectors), ("printround", printround),
        ("thresholds", thresholds),
    ];
    for (name, family) in families {
        if Path::new(&binary(name)).is_file() { family(run) } else {
            run.left_out(name, &format!("{} is not built (tools/programs {name})", binary(name)));
        }
    }
}

fn binary(name: &str) -> String { format!("crates/{name}/out/{name}") }

/// What a program writes, and whether it ended well.
pub fn written(name: &str, input: &[u8]) -> Result<(String, bool), Mismatch> {
    let failed = |e: std::io::Error| Mismatch {
        what: format!("running {name}"), sides: [(PORT, e.to_string()), (MODEL, "a run".into())]
    };
    let mut child = Command::new(binary(name)).stdin(Stdio::piped()).stdout(Stdio::piped()).stderr(Stdio::null())
        .spawn().map_err(failed)?;
    // A program that has read enough may close its input early.
    let _ = child.stdin.take().expect("a pipe").write_all(input);
    let out = child.wait_with_output().map_err(failed)?;
    let said = String::from_utf8_lossy(&out.stdout).into_owned();
    Ok((slips::programs::said(name, input, said), out.status.success()))
}

fn cellsum(run: &Run) {
    run.list("cellsum, samples and limits", &sections(), sum);
    let random = |r: &mut Rng| File { graphics: Vec::new(), ..generate(r) };
    run.counted("cellsum", FILES[run.full as usize], random, sum, smaller_file);
}

/// The samples, and zeros, any bytes and files of each length around the limits.
fn sections() -> Vec<(String, File)> {
    let r = &mut Rng::new(4);
    let file = |system: Vec<u8>| File { system, graphics: Vec::new(), aux: 0 };
    let mut out: Vec<(String, File)> = fs::read_dir("samples").into_iter().flatten().flatten().map(|e| e.path())
        .filter(|p| p.extension().is_some_and(|e| e == "section"))
        .map(|p| (p.display().to_string(), file(fs::read(&p).unwrap_or_default())))
        .collect();
    out.sort_by(|a, b| a.0.cmp(&b.0));
    for n in [0, 1, 111, 112, 113, 4_095, 4_096, 4_097, MOST - 1, MOST, MOST + 1, 2 * MOST, 300_000] {
        out.push((format!("{n} zero bytes"), file(vec![0; n])));
        out.push((format!("{n} bytes"), file(r.bytes(n))));
        let mut padded = loop {
            let f = crate::inputs::files::valid(r);
            if f.graphics.is_empty() && f.system.len() <= n.max(2_000) { break f.system }
        };
        padded.resize(n.max(padded.len()), 0xA5);
        out.push((format!("a valid file in {} bytes", padded.len()), file(padded)));
    }
    for n in [4_096, 4_097] { out.push((format!("{n} junctions"), limits::from_start(2, n))); }
    out
}

/// The line of document 01 for a system section with graphics empty.
fn sum(f: &File) -> Verdict {
    let model = read::count(&f.system, &[]);
    let long = f.system.len() > MOST;
    if !long { seen::note(Call::Program, &model); }
    seen::met_if(f.system.is_empty(), Met::Undrawn);
    let expected = if long { "too long\n".into() } else { line(&model) };
    same("what cellsum writes", PORT, &written("cellsum", &f.system)?, MODEL, &(expected, true))?;
    if long || f.system.is_empty() || matches!(model, Err(Refused(2 | 6, _))) { return Ok(()); }
    let judged = rust::read(&f.system, &[]).ok().map(|y| rust::cell_of(&y).counts());
    same("counts", MODEL, &model.ok(), RUST, &judged)
}

fn line(counts: &Answer<[usize; 5]>) -> String {
    match counts {
        Ok([nodes, links, junctions, _, refs]) => format!(
            "nodes {nodes} links {links} junctions {junctions} refs {refs}\n"),
        Err(Refused(number, place)) => format!("refused {number} {place}\n"),
    }
}

/// The pairs as the Rust answers them, and as the repository has them.
fn pairs(run: &Run) {
    run.list("pairs", &[(String::new(), ())], |_| {
        let port = written("pairs", &[])?;
        same("what pairs writes", PORT, &port, RUST, &(judged_pairs(), true))?;
        same("crates/pairs/stdout", PORT, &port.0, MODEL,
            &fs::read_to_string("crates/pairs/stdout").unwrap_or_default())
    });
}

fn judged_pairs() -> String {
    let steps = |x: f32| { let mut n = PathNode::default(); n.set_position(rust::vec3([x.to_bits(); 3])); n.position };
    let xy = |x: f32| (steps(x).x * 4.0) as i32;
    let along = |x: f32| cell_for_position(x, 0.0).0;
    let length = |b: [f32; 3]| PathLink::length_between(rust::vec3([0; 3]), rust::vec3(b.map(f32::to_bits)));
    let area = |name: &str| area_id_from_file_name(name).map_or("none".into(), |a| a.to_string());
    let rows = [
        ("steps of x -0.3", xy(-0.3).to_string()),
        ("steps of x 8191.75", xy(8191.75).to_string()),
        ("steps of x 8192", xy(8192.0).to_string()),
        ("steps of x NaN", xy(f32::NAN).to_string()),
        ("steps of z -1024", ((steps(-1024.0).z * 32.0) as i32).to_string()),
        ("grid of x -1/8192", along(-1.0 / 8192.0).to_string()),
        ("grid of x -1/2048", along(-1.0 / 2048.0).to_string()),
        ("x of area 1177", cell_of_area(1177).0.to_string()),
        ("y of area 1177", cell_of_area(1177).1.to_string()),
        ("length for s 25", length([3.0, 4.0, 0.0]).to_string()),
        ("length for s 32761 - 1/512", length([180.999_984_741_210_937_5, 0.0625, 0.0]).to_string()),
        ("file of cell 25 4", cell_file_name(25, 4)),
        ("area of nodes489.ynd", area("nodes489.ynd")),
        ("area of nodes+007.ynd", area("nodes+007.ynd")),
        ("area of nodes4294967296.ynd", area("nodes4294967296.ynd")),
    ];
    let lines: String = rows.iter().map(|(what, value)| format!("{what}: {value}\n")).collect();
    format!("pairs of document 01, numbers\n{lines}")
}

/// The vectors program on the vectors that the repository has.
fn vectors(run: &Run) {
    run.list("vectors", &[(String::new(), ())], |_| {
        let input = slips::vectors::taken(fs::read("crates/vectors/stdin").unwrap_or_default());
        let expected = fs::read_to_string("crates/vectors/stdout").unwrap_or_default();
        same("what vectors writes", PORT, &written("vectors", &input)?, MODEL, &(expected, true))
    });
}
