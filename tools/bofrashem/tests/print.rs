//! `print` says what printround says, byte for byte.
mod common;
use bofrashem::{Cell, Link, Round, VersionedRound};
use common::{root, run, run_with, sample, Folder};

/// What printround's own test gives it, and what it prints.
#[test]
fn the_worked_example() {
    let stdin = std::fs::read(root().join("crates/printround/stdin")).unwrap();
    let end = 4 + u32::from_le_bytes(stdin[..4].try_into().unwrap()) as usize;
    let folder = Folder::new();
    let round = folder.file("round", &stdin[end..]);
    let said = run_with(&stdin[4..end], &["print", "-", &round]);
    assert_eq!(said.out, std::fs::read(root().join("crates/printround/stdout")).unwrap());
    assert_eq!((said.status, said.err.as_str()), (0, ""));
}

/// samples/README.md shows what printround prints of the samples.
#[test]
fn the_samples() {
    let page = std::fs::read_to_string(root().join("samples/README.md")).unwrap();
    for name in ["dock", "hall"] {
        let said = run(&["print", &sample(&format!("{name}.section")), &sample(&format!("{name}.round"))]);
        assert!(page.contains(&format!("\n```\n{}```\n", said.text())), "{}", said.text());
    }
}

/// A ring of n nodes, each with a link to the next.
fn ring(n: usize) -> Cell {
    let mut c = Cell::new();
    for p in 0..n {
        c.add_node(3, [p as f32, 0.0, 0.0]).unwrap();
        c.add_link(p, Link::to(3, ((p + 1) % n) as u16)).unwrap();
    }
    c
}

fn printed(cell: &[u8], round: &[u8], large: bool) -> (String, i32) {
    let folder = Folder::new();
    let (yard, file) = (folder.file("yard", cell), folder.file("round", round));
    let mut words = vec!["print", &yard, &file];
    if large {
        words.push("--large");
    }
    let said = run(&words);
    (said.text().to_string(), said.status)
}

fn round(start: u16, choices: usize, area: Option<u16>) -> Vec<u8> {
    VersionedRound { area, round: Round { start, choices: vec![0; choices] } }.to_bytes().unwrap()
}

#[test]
fn refusals_are_a_number_alone() {
    let yard = ring(4).write().unwrap();
    let alone = |n: u32| (format!("refused {n}\n"), 1);
    assert_eq!(printed(&yard[..100], &round(0, 1, None), false), alone(1));
    assert_eq!(printed(&yard, &round(9, 1, None), false), alone(13));
    assert_eq!(printed(&yard, &round(0, 1, Some(4)), false), alone(19));
    assert_eq!(printed(&yard, b"RND\x03\0", false), alone(15));
    assert_eq!(printed(&yard, b"RND\x01\0", false), alone(16));
    assert_eq!(printed(&[], &round(0, 0, None), false), alone(13));
    let ended = printed(
        &yard,
        &VersionedRound { area: None, round: Round { start: 0, choices: vec![0, 9] } }.to_bytes().unwrap(),
        false,
    );
    assert_eq!(
        ended,
        ("round area 3 choices 2\n0 node 0 x 0 y 0 z 0\n1 node 1 x 4 y 0 z 0\nend no-link\n".into(), 0)
    );
}

/// The memory that the program lends, and the input that it takes.
#[test]
fn what_the_program_lends() {
    assert_eq!(printed(&ring(1025).write().unwrap(), &round(0, 1, None), false), ("refused 7\n".into(), 1));
    assert!(printed(&ring(1025).write().unwrap(), &round(0, 1, None), true).0.ends_with("end done\n"));
    assert!(printed(&ring(1024).write().unwrap(), &round(0, 1, None), false).0.ends_with("end done\n"));
    // 16,384 visited places: 16,383 links can be followed
    let yard = ring(4).write().unwrap();
    assert_eq!(printed(&yard, &round(0, 16_383, None), false).0.lines().count(), 16_386);
    assert_eq!(printed(&yard, &round(0, 16_384, None), false), ("refused 7\n".into(), 1));
    let most = 65_536 - 4 - yard.len() - 9;
    let full = printed(&yard, &round(0, most, None), false);
    assert_eq!(full, ("refused 7\n".into(), 1));
    assert_eq!(printed(&yard, &round(0, most + 1, None), false), ("bad input\n".into(), 1));
    assert_eq!(printed(&vec![0; 65_537], &[], false), ("bad input\n".into(), 1));
}

#[test]
fn words_of_a_refusal_go_to_standard_error() {
    let said = run(&["print", &sample("yard.section"), &sample("hall.round")]);
    assert_eq!((said.text(), said.status), ("bad input\n", 1));
    assert!(said.err.contains("--large"), "{}", said.err);
    let said = run(&["print", "--json", &sample("yard.section"), &sample("hall.round")]);
    assert!(said.out.is_empty() && said.err.contains("\"kind\":\"bad-input\""), "{}", said.err);
}
