//! `make slips`: each slip in a run of its own, of the family that claims its rule. Fails where one is not caught by
//! it, or where the control, which changes nothing, is told from the port.
use super::table::SLIPS;
use super::CONTROL;
use std::process::Command;
use std::time::Instant;

/// Seconds of the control's run, over all families.
const SECONDS: &str = "10";

pub fn slips(seed: u64, only: Option<String>) {
    let (mut caught, mut missed) = (0, Vec::new());
    for (_, name, family, what) in SLIPS.iter().filter(|r| only.as_deref().is_none_or(|o| o == r.1)) {
        let began = Instant::now();
        let (said, code) = run(seed, &["--only", family, "--slip", name]);
        let line = said.lines().find(|l| l.starts_with(&format!("MISMATCH in {family}")));
        let line = line.filter(|_| code == Some(1)).map_or(format!("NOT CAUGHT in {family}"), cut);
        println!("{:>6.1} s  {name}: {what}\n          {line}", began.elapsed().as_secs_f64());
        if line.starts_with("MISMATCH") { caught += 1; } else { missed.push(*name); }
    }
    let told = only.is_none() && control(seed);
    println!("seed {seed}: {caught} slips caught, {} not", missed.len());
    if !missed.is_empty() { println!("not caught: {}", missed.join(", ")); }
    if !missed.is_empty() || caught == 0 || told { std::process::exit(1); }
}

/// Whether the control was told from the port.
fn control(seed: u64) -> bool {
    let (said, _) = run(seed, &["--seconds", SECONDS, "--slip", CONTROL]);
    let told = said.lines().any(|l| l.starts_with("MISMATCH")) || !said.contains("all agree");
    println!("          control, all families: {}", if told { "TOLD FROM THE PORT" } else { "all agree" });
    told
}

fn run(seed: u64, args: &[&str]) -> (String, Option<i32>) {
    let own = std::env::current_exe().expect("the judge's own file");
    let run = Command::new(own).args(["diff", "--seed", &seed.to_string()]).args(args).output();
    let run = run.expect("the judge runs");
    (String::from_utf8_lossy(&run.stdout).into_owned(), run.status.code())
}

fn cut(line: &str) -> String { line.chars().take(100).collect() }
