//! Sets of cells: walks that cross.
mod common;
use bofrashem::{Cell, Link, Round, VersionedRound, Yard};
use common::{numbered, run, split, Folder};

/// A cell of two nodes, linked to each other, whose second also leads to node `to.1` of area `to.0`.
fn cell(area: u16, to: (u16, u16)) -> Vec<u8> {
    let mut c = Cell::new();
    for k in 0..2 {
        c.add_node(area, [k as f32 * 10.0, area as f32, 0.0]).unwrap();
    }
    for (from, link) in [(0, Link::to(area, 1)), (1, Link::to(area, 0)), (1, Link::to(to.0, to.1))] {
        c.add_link(from, link).unwrap();
    }
    c.write().unwrap()
}

#[test]
fn a_walk_crosses_and_leaves() {
    let folder = Folder::new();
    let (a, b) = (folder.file("a", &cell(1, (2, 0))), folder.file("b", &cell(2, (3, 9))));
    let said = run(&["set", &a, &b]);
    assert!(said.text().contains("2 members, 4 nodes\nsound      yes"), "{}", said.text());
    let v = run(&["set", &a, &b, "--json", "--walk", "0", "0", "0", "1", "0", "1"]).json();
    let members: Vec<u64> =
        v["visited"].as_array().unwrap().iter().map(|n| n["member"].as_u64().unwrap()).collect();
    assert_eq!(members, [0, 0, 1, 1]);
    assert_eq!(
        (v["end"]["how"].as_str(), v["end"]["area"].as_u64(), v["end"]["node"].as_u64()),
        (Some("left"), Some(3), Some(9))
    );
    // alone, the cell is left
    assert!(run(&["walk", &a, "0", "0", "1"]).text().contains("end left 2 0"));
}

/// A round file crosses: of version 2 from the member of its area, of version 1 from the member that is named.
#[test]
fn a_round_crosses() {
    let folder = Folder::new();
    let (a, b) = (folder.file("a", &cell(1, (2, 0))), folder.file("b", &cell(2, (1, 1))));
    let round = |name: &str, words: &[&str]| {
        let file = folder.path(name);
        let all = [&["round", "make"], words, &["-o", &file]].concat();
        assert_eq!(run(&all).status, 0);
        file
    };
    let (one, two) = (round("1", &["0", "0", "1", "0"]), round("2", &["0", "0", "1", "0", "--area", "2"]));
    let walked = |words: &[&str]| {
        let v = run(&[&["--json", "set", &a, &b], words].concat()).json();
        let at = |n: &serde_json::Value| (n["member"].as_u64().unwrap(), n["place"].as_u64().unwrap());
        v["visited"].as_array().unwrap().iter().map(at).collect::<Vec<_>>()
    };
    assert_eq!(walked(&["--round", &one]), [(0, 0), (0, 1), (1, 0), (1, 1)]);
    assert_eq!(walked(&["--round", &one, "--member", "1"]), [(1, 0), (1, 1), (0, 1), (0, 0)]);
    assert_eq!(walked(&["--round", &two]), walked(&["--round", &one, "--member", "1"]));
    assert_eq!(walked(&["--walk", "1", "0", "0", "1", "0"]), walked(&["--round", &two]));
    let err = |words: &[&str]| run(&[&["set", &a], words].concat()).err;
    assert!(err(&["--round", &two]).ends_with("refused 19 0: the round is of area 2, which no member has\n"));
    assert!(err(&["--round", &one, "--member", "3"]).ends_with("13 0: no member 3: members are 0 to 0\n"));
    let start = round("3", &["9", "--area", "1"]);
    assert!(err(&["--round", &start]).contains(&format!("its start is no node of {a}: no node has number 9")));
}

/// Long walks of a sound set whose numbers aren't places: as the plain walk goes, and fast.
#[test]
fn long_walks_of_a_set_are_fast() {
    let folder = Folder::new();
    let n = 30_000u16;
    let ring = |area: u16, other: u16| {
        let mut c = numbered(n as usize, |p| n - 1 - p as u16);
        for p in 0..n as usize {
            let mut node = c.nodes()[p];
            node.area_id = area;
            c.put_node(p, node).unwrap();
            // every tenth node leads over
            let to = if p % 10 == 9 { other } else { area };
            c.set_links(p, &[Link { length: 1, ..Link::to(to, n - 1 - (p as u16 + 1) % n) }]).unwrap();
        }
        c
    };
    let (a, b) = (ring(1, 2), ring(2, 1));
    let files = [folder.file("a", &a.write().unwrap()), folder.file("b", &b.write().unwrap())];
    let (round, choices) = (folder.path("r"), vec![0; 60_000]);
    let of = Round { start: 5, choices: choices.clone() };
    std::fs::write(&round, VersionedRound { area: Some(2), round: of }.to_bytes().unwrap()).unwrap();
    let began = std::time::Instant::now();
    let said = run(&["set", &files[0], &files[1], "--round", &round, "--json"]);
    let took = began.elapsed();
    assert_eq!(said.status, 0, "{}", said.err);
    assert!(took.as_secs_f64() < 2.0, "{took:?}");
    let mut yard = Yard::new();
    for c in [&a, &b] {
        yard.join(c).unwrap();
    }
    assert!(yard.is_sound());
    let few = VersionedRound { area: Some(2), round: Round { start: 5, choices: choices[..3000].to_vec() } };
    let plain = yard.follow(&few, 0).unwrap();
    let v = said.json();
    let at = |n: &serde_json::Value| (n["member"].as_u64().unwrap(), n["place"].as_u64().unwrap());
    let walked: Vec<(u64, u64)> = v["visited"].as_array().unwrap().iter().map(at).collect();
    let expected: Vec<(u64, u64)> = plain.visited.iter().map(|l| (l.member as u64, l.place as u64)).collect();
    assert!(walked.len() == 60_001 && walked[..3001] == expected[..]);
    assert!(expected.iter().any(|l| l.0 == 0) && expected.iter().any(|l| l.0 == 1));
}

#[test]
fn members_of_two_sections() {
    let folder = Folder::new();
    let (a, b) = (cell(1, (2, 0)), cell(2, (3, 9)));
    let ((s, g), (t, h)) = (split(&a), split(&b));
    let (s, g, t, h) =
        (folder.file("s", &s), folder.file("g", &g), folder.file("t", &t), folder.file("h", &h));
    let (one, both) = (["--json", "set", &s, "--graphics", &g], [&t, "--graphics", &h]);
    let v = run(&[&one[..], &both[..]].concat()).json();
    assert_eq!(
        (v["nodes"].as_u64(), v["sound"].as_bool(), v["members"][1]["file"] == t),
        (Some(4), Some(true), true)
    );
    let v = run(&[&one[..], &both[..], &["--walk", "0", "0", "0", "1", "0"]].concat()).json();
    assert_eq!(v["visited"][2]["member"].as_u64(), Some(1));
    // the walk may stand before them
    let words = [&["set", "--walk", "0", "0", "0", "--graphics"][..], &[&g, &s]].concat();
    assert_eq!(run(&words).status, 2);
    assert!(run(&["set", &s, &t, "--graphics", &h]).err.contains("refused 3 0"));
}

#[test]
fn refusals_and_reasons() {
    let folder = Folder::new();
    let a = folder.file("a", &cell(1, (2, 7)));
    let b = folder.file("b", &cell(2, (1, 0)));
    let twice = run(&["set", &a, &a]);
    let words = format!("refused 18 0: the area is already in the set (area 1, as member 0, {a})");
    assert_eq!((twice.status, twice.err.contains(&words)), (1, true), "{}", twice.err);
    assert!(run(&["set", &a, &b])
        .text()
        .contains("sound      no: member 0: link 1 of node 1 names number 7 of member 1"));
    let walk = |m: &str, p: &str| run(&["set", &a, &b, "--walk", m, p]).err;
    assert_eq!(walk("2", "0"), "bofrashem: refused 13 0: no member 2: members are 0 to 1\n");
    assert_eq!(
        walk("1", "7"),
        "bofrashem: refused 13 0: member 1: no node is at place 7: node places are 0 to 1\n"
    );
    assert_eq!(run(&["set", &a, "--walk", "0", "0", "256"]).status, 2);
    let ten: Vec<String> = (0..10).map(|k| folder.file(&format!("f{k}"), &cell(10 + k, (1, 1)))).collect();
    let words: Vec<&str> = std::iter::once("set").chain(ten.iter().map(String::as_str)).collect();
    assert!(run(&words).err.contains("refused 14 0"));
}
