//! Input that is no yard, and yards that are damaged: every answer is an answer or a refusal in words, and nothing
//! panics. BOFRASHEM_FUZZ_SECONDS and BOFRASHEM_FUZZ_SEED say how long and from where.
mod common;
use bofrashem::{Round, VersionedRound};
use bofrashem_tool::container::{close, is_container};
use common::{mixed, rows, run, run_with, sample, split, with_graphics, Folder, Random};
use std::time::{Duration, Instant};

/// A yard's bytes, those of its graphics section, if it has one of its own, and a round file's.
#[derive(Clone)]
struct Files {
    yard: Vec<u8>,
    graphics: Option<Vec<u8>>,
    round: Vec<u8>,
}

impl Files {
    fn yard(yard: &[u8]) -> Files {
        Files { yard: yard.to_vec(), graphics: None, round: std::fs::read(sample("hall.round")).unwrap() }
    }
}

/// Command lines; "FILE" stands for the yard, with its graphics section if it has one.
const COMMANDS: [&str; 23] = [
    "info FILE",
    "info --json FILE",
    "check FILE",
    "check FILE FILE",
    "walk FILE 0 0 0 1 255 0",
    "near FILE -3328 -256 300",
    "way FILE 0 3",
    "round show ROUND",
    "round follow FILE ROUND",
    "print FILE ROUND",
    "print --large --json FILE ROUND",
    "renumber FILE OUT",
    "convert FILE OUT.ynd",
    "diff FILE FILE",
    "set FILE",
    "set FILE --walk 0 0 0 1 2",
    "set FILE --round ROUND",
    "info FILE FILE",
    "draw FILE OTHER --round ROUND -o OUT.svg",
    "draw FILE -o OUT.svg --near -3328 -256 100",
    "draw FILE -o OUT.svg --round ROUND",
    "draw FILE -o OUT.html --way 0 1 --round ROUND",
    "draw FILE -o OUT.html --json",
];

/// Status 0 or 1, of `diff` 0 or 3, and words where it isn't 0. Whether the yard is read.
fn all_answer(files: &Files, folder: &Folder) -> bool {
    let mut yard = vec![folder.file("yard", &files.yard)];
    if let Some(graphics) = &files.graphics {
        yard.extend(["--graphics".into(), folder.file("graphics", graphics)]);
    }
    let (round, out) = (folder.file("round", &files.round), folder.path("o"));
    let other = folder.file("other", &rows(3).write().unwrap());
    let answer = |line: &str| {
        let word = |w: &str| match w {
            "FILE" => yard.clone(),
            "ROUND" => vec![round.clone()],
            "OTHER" => vec![other.clone()],
            w => vec![w.replace("OUT", &out)],
        };
        let words: Vec<String> = line.split(' ').flat_map(word).collect();
        let said = run(&words.iter().map(String::as_str).collect::<Vec<_>>());
        let in_words = !said.err.is_empty() || !said.out.is_empty();
        let wrong = if line.starts_with("diff") { 3 } else { 1 };
        assert!(
            said.status == 0 || (said.status == wrong && in_words),
            "{line}: {} {}",
            said.status,
            said.err
        );
        said.status
    };
    for line in COMMANDS {
        answer(line);
    }
    // a yard is the same to itself, if it is read
    let read = answer("info FILE") == 0;
    assert!(!read || answer("diff FILE FILE") == 0);
    read
}

#[test]
fn a_folder_and_a_missing_file() {
    let folder = Folder::new();
    for file in [folder.path(""), folder.path("none")] {
        let said = run(&["info", &file]);
        assert_eq!(said.status, 3);
        assert!(said.err.contains("can't be read"), "{}", said.err);
    }
    let said = run(&["draw", &sample("dock.section"), "-o", &folder.path("none/x.svg")]);
    assert_eq!((said.status, said.err.contains("can't be written")), (3, true));
    assert_eq!(run(&["diff", "-", "-"]).status, 2);
}

#[test]
fn every_length_around_the_root() {
    for n in [1, 2, 15, 16, 17, 110, 111, 112, 113, 65_536, 65_537] {
        let said = run_with(&vec![0; n], &["info", "-"]);
        assert_eq!(said.status, (n < 112) as i32, "{n}");
        assert!(n >= 112 || said.err.contains(&format!("refused 1 0: 1 to 111 system bytes ({n} bytes)")));
    }
    let said = run_with(&vec![0; 16_777_217], &["info", "-"]);
    assert!(
        said.err.contains("refused 2 0: a section over 16,777,216 bytes (the system section)"),
        "{}",
        said.err
    );
}

#[test]
fn every_truncation_of_the_dock() {
    let folder = Folder::new();
    let dock = std::fs::read(sample("dock.section")).unwrap();
    for n in (0..dock.len()).step_by(7) {
        all_answer(&Files::yard(&dock[..n]), &folder);
    }
}

/// Bytes changed, words set to values at limits, a part cut off or repeated.
fn damage(bytes: &mut Vec<u8>, random: &mut Random) {
    for _ in 0..1 + random.below(6) {
        if bytes.is_empty() {
            return;
        }
        let at = random.below(bytes.len());
        match random.below(6) {
            0 => bytes[at] = random.next() as u8,
            1 => bytes[at] ^= 1 << random.below(8),
            2 => {
                // a word of the root
                let word =
                    [0u32, 1, 0x5000_0000, 0x6000_0000, 0x5000_0070, 65_535, 65_536, u32::MAX, 0x7fff_ffff]
                        [random.below(9)];
                let at = random.below(28) * 4;
                if at + 4 <= bytes.len() {
                    bytes[at..at + 4].copy_from_slice(&word.to_le_bytes());
                }
            }
            3 => bytes.truncate(at),
            4 => {
                let end = (at + random.below(64)).min(bytes.len());
                let part = bytes[at..end].to_vec();
                bytes.splice(at..at, part);
            }
            _ => {
                let end = (at + 2 + random.below(40)).min(bytes.len());
                let fill = random.next() as u8;
                bytes[at..end].fill(fill);
            }
        }
    }
}

/// Sections, containers, yards of two sections; containers with graphics pages; the hall's round, and a long one.
fn seeds() -> Vec<Files> {
    let read = |name: &str| std::fs::read(sample(name)).unwrap();
    let sections =
        [read("dock.section"), read("hall.section"), mixed().write().unwrap(), rows(300).write().unwrap()];
    let mut seeds = Vec::new();
    for section in &sections {
        let (system, graphics) = split(section);
        seeds.push(Files::yard(section));
        seeds.push(Files::yard(&close(section)));
        seeds.push(Files::yard(&with_graphics(&system, &graphics)));
        seeds.push(Files { graphics: Some(graphics), ..Files::yard(&system) });
    }
    let round = VersionedRound { area: Some(528), round: Round { start: 0, choices: vec![0; 900] } };
    let round = round.to_bytes().unwrap();
    let last = seeds[12..].iter().cloned();
    let others: Vec<Files> = last.map(|files| Files { round: round.clone(), ..files }).collect();
    seeds.extend(others);
    seeds
}

/// One of the files changed, and sometimes another.
fn damaged(mut files: Files, random: &mut Random) -> Files {
    for _ in 0..1 + random.below(2) {
        match (random.below(6), &mut files.graphics) {
            (0, _) => damage(&mut files.round, random),
            (1 | 2, Some(graphics)) => damage(graphics, random),
            _ => damage(&mut files.yard, random),
        }
    }
    // a container has its own graphics section, and --graphics beside it is a slip of the command line
    if is_container(&files.yard) {
        files.graphics = None;
    }
    files
}

#[test]
fn damaged_yards_and_containers() {
    let number = |name: &str, or: u64| std::env::var(name).ok().and_then(|v| v.parse().ok()).unwrap_or(or);
    let (seconds, seed) = (number("BOFRASHEM_FUZZ_SECONDS", 5), number("BOFRASHEM_FUZZ_SEED", 34));
    let (seeds, folder, mut random) = (seeds(), Folder::new(), Random(seed));
    let (start, mut tried, mut read) = (Instant::now(), 0u64, 0u64);
    while start.elapsed() < Duration::from_secs(seconds) {
        let files = damaged(seeds[random.below(seeds.len())].clone(), &mut random);
        read += all_answer(&files, &folder) as u64;
        tried += 1;
    }
    println!(
        "{tried} damaged files in {seconds} s from seed {seed}, {read} of them still read, {} commands each",
        COMMANDS.len()
    );
}
