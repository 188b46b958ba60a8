//! Every refusal that a file or a command line can meet, said with its number, its place and its words. Numbers 8, 11
//! and 12 no file leads to: a record has at most 31 links, a root at most 65,535 refs, values are as many as are read.
mod common;
use bofrashem::{Cell, Link};
use common::{run, sample, Folder};
use serde_json::Value;

/// What a command says of an error, in words and in JSON: the same number, place and text.
fn error(words: &[&str]) -> (u64, u64, String, Option<String>) {
    let (plain, said) = (run(words), run(&[&["--json"], words].concat()));
    let v: Value = serde_json::from_str(&said.err).unwrap_or_else(|_| panic!("{words:?}: {}", said.err));
    let (number, place) = (v["error"]["number"].as_u64().unwrap(), v["error"]["place"].as_u64().unwrap());
    let (text, at) = (v["error"]["text"].as_str().unwrap(), v["error"]["at"].as_str());
    assert!(plain.err.contains(&format!("{number} {place}: {text}")), "{words:?}: {}", plain.err);
    assert!(at.is_none_or(|at| plain.err.contains(&format!("({at})"))), "{words:?}: {}", plain.err);
    assert_eq!((plain.status, said.status, said.out.len()), (1, 1, 0));
    assert!(text.split(' ').count() > 2, "{text}");
    (number, place, text.into(), at.map(String::from))
}

/// The hall, with some bytes changed.
fn hall(at: usize, bytes: &[u8]) -> Vec<u8> {
    let mut hall = std::fs::read(sample("hall.section")).unwrap();
    hall[at..at + bytes.len()].copy_from_slice(bytes);
    hall
}

/// The hall's arrays: where their address stands in the root.
const ADDRESSES: [usize; 5] = [16, 40, 56, 64, 80];
const LISTS: [&str; 5] = ["the nodes", "the links", "the junctions", "the heightmap", "the refs"];

/// Where an array of the hall begins.
fn array(list: usize) -> usize {
    let hall = hall(0, &[]);
    u32::from_le_bytes(hall[ADDRESSES[list]..ADDRESSES[list] + 4].try_into().unwrap()) as usize - 0x5000_0000
}

#[test]
fn of_reading() {
    let folder = Folder::new();
    let of = |bytes: &[u8]| {
        let (number, place, _, at) = error(&["info", &folder.file("yard", bytes)]);
        (number, place, at)
    };
    let at = |words: &str| Some(words.to_string());
    assert_eq!(of(&[0; 100]), (1, 0, at("100 bytes")));
    assert_eq!(of(&vec![0; 16_777_217]), (2, 0, at("the system section")));
    let graphics = folder.file("g", &vec![0; 16_777_217]);
    let words = ["info", &sample("hall.section"), "--graphics", &graphics];
    assert_eq!((error(&words).0, error(&words).1), (2, 1));
    for (list, words) in LISTS.iter().enumerate() {
        let bad = hall(ADDRESSES[list], &0x5FFF_FFF0u32.to_le_bytes());
        let (number, place, said) = of(&bad);
        let numbers = "bytes at address 0x5ffffff0; the system section has 2304 bytes";
        assert_eq!((number, place), (3, list as u64));
        // one address that is no address at all is damage, and the file a yard all the same
        let (number, place, other) = of(&hall(ADDRESSES[list], &0x9FFF_FFF0u32.to_le_bytes()));
        assert!((number, place) == (3, list as u64) && other.is_some_and(|s| s.starts_with(words)));
        assert!(said.as_ref().is_some_and(|s| s.starts_with(words) && s.ends_with(numbers)), "{said:?}");
    }
    // node 3's link start, junction 1's heightmap start
    let node = "node 3: 2 links from link 65535 on, of 42";
    assert_eq!(of(&hall(array(0) + 3 * 40 + 26, &[255, 255])), (4, 3, at(node)));
    let junction = "junction 1: 6 times 3 values from value 65535 on, of 34";
    assert_eq!(of(&hall(array(2) + 12 + 8, &[255, 255])), (5, 1, at(junction)));
    let large = |at: usize, n: u32| {
        let mut bytes = [hall(at, &n.to_le_bytes()), vec![0; 3_000_000]].concat();
        // arrays that are long enough
        for list in [0, 2] {
            bytes[ADDRESSES[list]..ADDRESSES[list] + 4]
                .copy_from_slice(&(0x5000_0000u32 + 2304).to_le_bytes());
        }
        bytes
    };
    assert_eq!(of(&large(24, 65_537)), (6, 0, at("65537 nodes")));
    assert_eq!(of(&large(96, 4_097)), (6, 1, at("4097 junctions")));
}

#[test]
fn of_memory_on_paper() {
    let folder = Folder::new();
    let mut cell = Cell::new();
    for _ in 0..1025 {
        cell.add_node(489, [0.0; 3]).unwrap();
    }
    let file = folder.file("yard", &cell.write().unwrap());
    let said = run(&["--json", "print", &file, &sample("hall.round")]);
    let v: Value = serde_json::from_str(&said.err).unwrap();
    assert_eq!((v["error"]["number"].as_u64(), v["error"]["at"].as_str()), (Some(7), Some("the nodes")));
    assert!(run(&["print", &file, &sample("hall.round")]).err.contains("refused 7 0: lent memory too short"));
}

/// Nodes that share their links, and junctions that share their values, are read and can't be written.
#[test]
fn of_writing() {
    let folder = Folder::new();
    let mut cell = Cell::new();
    for _ in 0..2200 {
        cell.add_node(489, [0.0; 3]).unwrap();
    }
    cell.set_links(0, &[Link::to(489, 0); 31]).unwrap();
    let mut bytes = cell.write().unwrap();
    let nodes = u32::from_le_bytes(bytes[16..20].try_into().unwrap()) as usize - 0x5000_0000;
    for node in 0..2200 {
        bytes[nodes + node * 40 + 37] |= 31 << 3;
        bytes[nodes + node * 40 + 26..nodes + node * 40 + 28].fill(0);
    }
    let (file, out) = (folder.file("links", &bytes), folder.path("out"));
    // 31 links a node: over 65,535 lie before the 2,115th
    assert_eq!(error(&["convert", &file, &out]).3.as_deref(), Some("node 2115"));
    assert_eq!((error(&["convert", &file, &out]).0, error(&["renumber", &file, &out]).0), (9, 9));
    // three junctions of 255 by 255 values over the same ones
    let mut bytes = [hall(96, &3u32.to_le_bytes()), vec![0; 70_000]].concat();
    bytes[100..104].copy_from_slice(&65_025u32.to_le_bytes());
    for (list, to) in [(2, 2304u32), (3, 2400)] {
        bytes[ADDRESSES[list]..ADDRESSES[list] + 4].copy_from_slice(&(0x5000_0000 + to).to_le_bytes());
    }
    for junction in 0..3 {
        bytes[2304 + junction * 12 + 10..2304 + junction * 12 + 12].fill(255);
    }
    let file = folder.file("heights", &bytes);
    assert_eq!(run(&["info", &file]).status, 0);
    let (number, place, _, at) = error(&["convert", &file, &out]);
    assert_eq!((number, place, at.as_deref()), (10, 2, Some("junction 2")));
    assert!(!std::path::Path::new(&out).exists());
}

#[test]
fn of_calls_and_rounds() {
    let folder = Folder::new();
    let (dock, hall) = (sample("dock.section"), sample("hall.section"));
    let (dock, hall) = (dock.as_str(), hall.as_str());
    let number = |words: &[&str]| {
        let (number, place, ..) = error(words);
        assert_eq!(place, 0);
        number
    };
    for words in [
        vec!["walk", dock, "13"],
        vec!["walk", dock, "--numbers", "99"],
        vec!["way", dock, "0", "13"],
        vec!["draw", dock, "--way", "0", "99", "-o", "-"],
        vec!["set", dock, "--walk", "1", "0"],
        vec!["set", dock, "--walk", "0", "13"],
    ] {
        assert_eq!(number(&words), 13, "{words:?}");
    }
    let (a, b) = (folder.file("a", b"RNE\x01\0abcd"), folder.file("b", b"RND\x01\0abc"));
    assert_eq!((number(&["round", "show", &a]), number(&["round", "follow", hall, &a])), (15, 15));
    assert_eq!((number(&["round", "show", &b]), number(&["draw", hall, "--round", &b, "-o", "-"])), (16, 16));
    let many = vec!["0"; 65_536];
    assert_eq!(number(&[&["round", "make", "0", "-o", "-"], &many[..]].concat()), 16);
    assert_eq!(number(&["way", dock, "0", "6"]), 17);
    let other = folder.path("other");
    run(&["round", "make", "0", "--area", "7", "-o", &other]);
    assert_eq!(number(&["round", "follow", hall, &other]), 19);
    let start = folder.path("start");
    run(&["round", "make", "99", "-o", &start]);
    assert_eq!(number(&["draw", hall, "--round", &start, "-o", "-"]), 13);
}

/// What was wrong is said: which number, of what, in which file; and a file that is no yard is called that.
#[test]
fn the_words_say_what_was_wrong_here() {
    let folder = Folder::new();
    let dock = sample("dock.section");
    let said = |words: &[&str]| run(words).err.trim_end().replace("bofrashem: ", "");
    let text = folder.file("notes.txt", "This is not a yard at all.\n".repeat(20).as_bytes());
    let picture = folder.path("a.svg");
    run(&["draw", &dock, "-o", &picture]);
    let cases: [(&[&str], String); 12] = [
        (
            &["walk", &dock, "99"],
            format!("{dock}: refused 13 0: no node is at place 99: node places are 0 to 12"),
        ),
        (
            &["way", &dock, "0", "9999"],
            format!("{dock}: refused 13 0: no node is at place 9999: node places are 0 to 12"),
        ),
        (
            &["walk", &dock, "--numbers", "99"],
            format!("{dock}: refused 13 0: no node has number 99: they run from 0 to 12"),
        ),
        (
            &["walk", &dock, "--numbers", "70000"],
            format!("{dock}: refused 13 0: no node has number 70000: the highest that can be is 65535"),
        ),
        (&["way", &dock, "0", "6"], format!("{dock}: refused 17 0: no walk leads from place 0 to place 6")),
        (&["info", &text], format!("{text}: refused 3 0: this is no yard, but text")),
        (&["info", &picture], format!("{picture}: refused 3 0: this is no yard, but a picture (SVG)")),
        (
            &["info", &sample("dock.round")],
            format!("{}: refused 1 0: this is no yard, but a round file", sample("dock.round")),
        ),
        (&["round", "show", &text], format!("{text}: refused 15 0: this is no round file, but text")),
        (&["round", "show", &dock], format!("{dock}: refused 15 0: this is no round file, but a yard")),
        (&["draw", &dock, "--way", "0", "99", "-o", "-"], said(&["way", &dock, "0", "99"])),
        (
            &["walk", "/dev/null", "0"],
            "/dev/null: refused 13 0: no node is at place 0: there are none".into(),
        ),
    ];
    for (words, expected) in cases {
        assert_eq!(said(words), expected, "{words:?}");
    }
    // random bytes are no yard either
    let any: Vec<u8> = (0..500u32).map(|k| (k.wrapping_mul(2_654_435_761) >> 13) as u8).collect();
    let any = folder.file("any", &any);
    assert_eq!(said(&["info", &any]), format!("{any}: refused 3 0: this is no yard"));
}

/// The same of rounds.
#[test]
fn the_words_say_what_was_wrong_with_a_round() {
    let folder = Folder::new();
    let (dock, round) = (sample("dock.section"), folder.path("r"));
    let said = |words: &[&str]| run(words).err.trim_end().replace("bofrashem: ", "");
    let made = |words: &[&str]| run(&[&["round", "make"], words, &["--force", "-o", &round]].concat()).status;
    assert_eq!(made(&["99"]), 0);
    let follow = ["round", "follow", &dock, &round];
    let start = format!("its start is no node of {dock}: no node has number 99: they run from 0 to 12");
    assert_eq!(said(&follow), format!("{round}: refused 13 0: {start}"));
    assert_eq!(made(&["0", "--area", "7"]), 0);
    assert_eq!(said(&follow), format!("{round}: refused 19 0: the round is of area 7, {dock} of area 489"));
    for (bytes, words) in [
        (&b"RND\x07\0abcdefg"[..], "15 0: a round file of version 7: 1 and 2 are read"),
        (b"RND\x01\0abc", "16 0: 8 bytes, and the head alone has 9"),
        (b"RND\x02\0\0\0\0\0\x05\0ab", "16 0: 13 bytes; a round file of 5 choices has 16"),
    ] {
        let file = folder.file("damaged", bytes);
        assert_eq!(said(&["round", "show", &file]), format!("{file}: refused {words}"));
    }
}

#[test]
fn of_a_set() {
    let folder = Folder::new();
    let cells: Vec<String> = (0..10)
        .map(|area| {
            let mut cell = Cell::new();
            cell.add_node(area, [0.0; 3]).unwrap();
            folder.file(&format!("c{area}"), &cell.write().unwrap())
        })
        .collect();
    assert_eq!(error(&["set", &cells[0], &cells[1], &cells[0]]).0, 18);
    let words: Vec<&str> = std::iter::once("set").chain(cells.iter().map(String::as_str)).collect();
    let (number, _, _, at) = error(&words);
    assert_eq!((number, at.as_deref()), (14, Some("a set has at most 9 members and 65,536 nodes")));
}
