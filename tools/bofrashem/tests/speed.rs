//! How long the program takes on a large yard and on many small ones: cargo test --release --test speed -- --ignored
//! --nocapture. The limits are those that were asked for, with each run started anew.
mod common;
use bofrashem::{Link, Ref, Round};
use common::{numbered, rows, sample, Folder};
use std::os::unix::fs::symlink;
use std::process::{Command, Stdio};
use std::time::{Duration, Instant};

/// The best of five runs.
fn timed(words: &[&str]) -> Duration {
    (0..5)
        .map(|_| {
            let start = Instant::now();
            let run = Command::new(env!("CARGO_BIN_EXE_bofrashem"))
                .args(words)
                .stdout(Stdio::null())
                .status()
                .unwrap();
            assert!(run.success(), "{words:?}");
            start.elapsed()
        })
        .min()
        .unwrap()
}

#[test]
#[ignore = "a measurement"]
fn large_yards_and_many_files() {
    let folder = Folder::new();
    let large = folder.file("large", &rows(60_000).write().unwrap());
    // 7,919 is a prime: each number once, and none near its neighbour's
    let shuffled =
        folder.file("shuffled", &numbered(60_000, |p| (p * 7_919 % 60_000) as u16).write().unwrap());
    let mut lost = numbered(60_000, |p| (p * 7_919 % 60_000) as u16);
    lost.put_link(0, 0, Link::to(528, 65_000)).unwrap();
    // as many refs as there may be junctions
    for k in 0..4_096u16 {
        lost.add_ref(Ref { area_id: 528, node_id: k * 14, junction_id: 0, unk0: 0 }).unwrap();
    }
    let unsound = folder.file("unsound", &lost.write().unwrap());
    let (svg, html) = (folder.path("large.svg"), folder.path("large.html"));
    let ynd = folder.path("large.ynd");
    timed(&["convert", &large, &ynd]);
    let dock = std::fs::read(sample("dock.section")).unwrap();
    let many: Vec<String> = (0..1000).map(|k| folder.file(&format!("f{k}"), &dock)).collect();
    let check: Vec<&str> = std::iter::once("check").chain(many.iter().map(String::as_str)).collect();
    // a round over nodes that are numbered the other way round
    let back = folder.file("back", &numbered(65_400, |p| 65_399 - p as u16).write().unwrap());
    let long = Round { start: 65_399, choices: vec![0; 65_399] };
    let round = folder.file("back.round", &long.to_bytes().unwrap());
    let rows: [(&str, &[&str], f64); 12] = [
        ("info, 60,000 nodes", &["info", &large], 0.2),
        ("info, 60,000 nodes in a container", &["info", &ynd], 0.2),
        ("draw an SVG, 60,000 nodes", &["draw", &large, "-o", &svg], 2.0),
        ("draw an SVG, 60,000 nodes, numbers in no order", &["draw", &shuffled, "-o", &svg], 2.0),
        ("draw a page, 60,000 nodes", &["draw", &large, "-o", &html], 2.0),
        ("draw a page, 60,000 nodes, unsound, numbers in no order", &["draw", &unsound, "-o", &html], 2.0),
        ("check, 1,000 files of 13 nodes", &check, 2.0),
        ("diff, 60,000 nodes", &["diff", &large, &ynd], 2.0),
        ("round follow, 65,399 choices, numbers in no order", &["round", "follow", &back, &round], 0.1),
        ("the same, --json", &["round", "follow", &back, &round, "--json"], 2.0),
        ("print --large of it", &["print", "--large", &back, &round], 0.1),
        ("draw an SVG of it", &["draw", &back, "--round", &round, "-o", &svg], 2.0),
    ];
    println!("| Run | Took, s | Goal, s |\n|---|---|---|");
    for (name, words, goal) in rows {
        let took = timed(words).as_secs_f64();
        println!("| {name} | {took:.3} | {goal} |");
        assert!(cfg!(debug_assertions) || took <= goal, "{name}: {took} s");
    }
}

/// Processor seconds of all children that ended (proc(5): fields 16 and 17, hundredths of a second).
fn of_children() -> f64 {
    let stat = std::fs::read_to_string("/proc/self/stat").unwrap();
    let fields: Vec<&str> = stat.rsplit(") ").next().unwrap().split(' ').collect();
    fields[13..15].iter().map(|f| f.parse::<f64>().unwrap()).sum::<f64>() / 100.0
}

/// Seconds by the clock and of processors, and the most memory in MB, of a run whose answer is thrown away.
fn watched(words: &[&str]) -> (f64, f64, f64) {
    let (start, before) = (Instant::now(), of_children());
    let mut child =
        Command::new(env!("CARGO_BIN_EXE_bofrashem")).args(words).stdout(Stdio::null()).spawn().unwrap();
    let status = format!("/proc/{}/status", child.id());
    let mut most = 0.0;
    while child.try_wait().unwrap().is_none() {
        let held = std::fs::read_to_string(&status).unwrap_or_default();
        let line = held.lines().find(|line| line.starts_with("VmHWM:"));
        let kb = line.and_then(|line| line.split_whitespace().nth(1)?.parse().ok());
        most = kb.unwrap_or(0.0_f64).max(most);
        std::thread::sleep(Duration::from_millis(2));
    }
    (start.elapsed().as_secs_f64(), of_children() - before, most / 1024.0)
}

/// Many yards: a tenth of 5,000 nodes, the others small; how much of the cores is used, and how memory grows.
#[test]
#[ignore = "a measurement"]
fn a_fleet_of_yards() {
    let cores = std::thread::available_parallelism().unwrap().get() as f64;
    println!("| Run | Files | Took, s | Processors, s | Of {cores} cores | MB |\n|---|---|---|---|---|---|");
    for n in [1_000, 10_000] {
        let folder = Folder::new();
        let names: Vec<String> = (0..n).map(|k| folder.path(&format!("y{k:05}"))).collect();
        for (k, name) in names.iter().enumerate() {
            let yard = ["yard", "dock", "hall"][if k % 10 == 0 { 0 } else { 1 + k % 2 }];
            symlink(sample(&format!("{yard}.section")), name).unwrap();
        }
        let files: Vec<&str> = names.iter().map(String::as_str).collect();
        let whole = folder.path("");
        for (name, words) in [
            ("check", [&["check"][..], &files].concat()),
            ("check --json", [&["check", "--json"][..], &files].concat()),
            ("info --json", [&["info", "--json"][..], &files].concat()),
            ("diff of folders", vec!["diff", &whole, &whole]),
        ] {
            let (took, used, mb) = watched(&words);
            let share = used / took / cores;
            println!("| {name} | {n} | {took:.2} | {used:.2} | {share:.2} | {mb:.0} |");
        }
    }
}
