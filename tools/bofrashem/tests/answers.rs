//! What the commands answer on good input.
mod common;
use common::{mixed, root, run, run_with, sample, split, Folder};
use serde_json::Value;

#[test]
fn info_in_words_and_in_json() {
    let said = run(&["info", &sample("dock.section")]);
    assert_eq!((said.status, said.err.as_str()), (0, ""));
    for line in ["nodes      13 (11 road, 2 ped; 0 posts, without links)", "links      22", "sound      yes"]
    {
        assert!(said.text().contains(line), "{}", said.text());
    }
    let v = run(&["--json", "info", &sample("hall.section")]).json();
    assert_eq!(
        (v["nodes"].as_u64(), v["links"].as_u64(), v["junctions"].as_u64()),
        (Some(18), Some(42), Some(2))
    );
    assert_eq!(
        (v["heights"].as_u64(), v["refs"].as_u64(), v["area"].as_u64()),
        (Some(34), Some(2), Some(489))
    );
    assert_eq!((v["grid_cell"].to_string(), v["sound"].as_bool()), ("[9,15]".into(), Some(true)));
    assert_eq!(v["nodes_outside_grid_cell"].as_u64(), Some(0));
    assert_eq!(v["bounds"]["min"].to_string(), "[-3368.0,-281.0,0.0]");
}

#[test]
fn info_names_the_first_reason() {
    let folder = Folder::new();
    let file = folder.file("mixed", &mixed().write().unwrap());
    let v = run(&["info", "--json", &file]).json();
    assert_eq!(v["sound"].as_bool(), Some(false));
    assert_eq!(v["unsound_because"]["kind"], "link-to-none");
    assert_eq!(v["unsound_because"]["place"].as_u64(), Some(4));
    assert_eq!((v["posts"].as_u64(), v["ped_nodes"].as_u64()), (Some(2), Some(1)));
    assert!(run(&["info", &file]).text().contains("sound      no: link 0 of node 4 names number 999"));
}

#[test]
fn a_yard_not_drawn_yet() {
    let folder = Folder::new();
    let empty = folder.file("empty", &[]);
    let said = run(&["info", &empty]);
    assert_eq!(said.status, 0);
    assert!(said.text().contains("a yard not drawn yet"), "{}", said.text());
    assert_eq!(run_with(&[], &["info", "-"]).status, 0);
    assert_eq!(run(&["check", &empty]).status, 0);
    assert_eq!(run(&["near", &empty, "0", "0", "5"]).status, 0);
    let walk = run(&["walk", &empty, "0"]);
    assert_eq!((walk.status, walk.err.contains("refused 13 0")), (1, true));
}

#[test]
fn two_sections() {
    let folder = Folder::new();
    let (system, graphics) = split(&std::fs::read(sample("dock.section")).unwrap());
    let (system, graphics) = (folder.file("s", &system), folder.file("g", &graphics));
    let v = run(&["info", "--json", &system, "--graphics", &graphics]).json();
    assert_eq!((v["nodes"].as_u64(), v["sound"].as_bool()), (Some(13), Some(true)));
    let alone = run(&["info", &system]);
    assert_eq!((alone.status, alone.err.contains("refused 3 0")), (1, true));
}

/// Each --graphics belongs to the file before it.
#[test]
fn two_sections_of_several_yards() {
    let folder = Folder::new();
    let (dock, hall) = (sample("dock.section"), sample("hall.section"));
    let two = |name: &str, from: &str| {
        let (system, graphics) = split(&std::fs::read(from).unwrap());
        (folder.file(name, &system), folder.file(&format!("{name}.g"), &graphics))
    };
    let ((d, dg), (h, hg)) = (two("d", &dock), two("h", &hall));
    let (d, dg, h, hg) = (d.as_str(), dg.as_str(), h.as_str(), hg.as_str());
    assert_eq!(run(&["check", d, "--graphics", dg, &hall, h, "--graphics", hg]).status, 0);
    let said = run(&["check", &hall, d, h, "--graphics", hg]);
    assert_eq!((said.status, said.text().starts_with(&format!("{d}: refused 3 0"))), (1, true));
    let missing = folder.path("none");
    let said = run(&["check", d, "--graphics", &missing]);
    assert!(said.text().starts_with(&format!("{d}: {missing}: can't be read")), "{}", said.text());
    let v = run(&["check", "--json", d, "--graphics", &missing]).json();
    assert!(v["files"][0]["text"].as_str().unwrap().starts_with(&missing) && v["files"][0]["file"] == d);

    assert_eq!(run(&["diff", d, "--graphics", dg, &dock]).status, 0);
    assert_eq!(run(&["diff", &dock, d, "--graphics", dg]).status, 0);
    assert_eq!(run(&["diff", d, "--graphics", dg, h, "--graphics", hg]).status, 1);
    assert!(run(&["diff", d, &dock, "--graphics", dg]).err.contains("refused 3 0"));
    let piped = run_with(&std::fs::read(dg).unwrap(), &["diff", d, "--graphics", "-", &dock]);
    assert_eq!((piped.status, piped.text().starts_with("no walker")), (0, true));
    for wrong in [
        vec!["check", "--graphics", dg, d],
        vec!["check", d, "--graphics", dg, "--graphics", hg],
        vec!["diff", "--graphics", dg, d, &dock],
        vec!["diff", d, "--graphics", dg],
        vec!["info", d, "--graphics", dg, "--graphics", hg],
    ] {
        let said = run(&wrong);
        assert_eq!((said.status, said.out.len(), said.err.contains("--help")), (2, 0, true), "{wrong:?}");
    }
}

#[test]
fn every_walk_ends_in_its_way() {
    let dock = sample("dock.section");
    let v = run(&["walk", &dock, "6", "0", "1", "1", "1", "--json"]).json();
    assert_eq!(
        (v["end"]["how"].as_str(), v["followed"].as_u64(), v["metres"].as_u64()),
        (Some("done"), Some(4), Some(12))
    );
    assert_eq!(v["visited"][4]["place"].as_u64(), Some(10));
    assert!(run(&["walk", &dock, "0", "9"]).text().contains("end no-link"));
    let folder = Folder::new();
    let file = folder.file("mixed", &mixed().write().unwrap());
    assert!(run(&["walk", &file, "0", "1"]).text().contains("end left 490 7"));
    assert!(run(&["walk", &file, "4", "0"]).text().contains("end no-node"));
    assert_eq!(run(&["walk", &dock, "13"]).status, 1);
    assert_eq!(run(&["walk", &dock, "0", "256"]).status, 2);
    assert!(run(&["walk", &dock, "--numbers", "99"]).err.contains("refused 13"));
}

#[test]
fn near_in_metres_and_steps() {
    let dock = sample("dock.section");
    let v = run(&["near", &dock, "-3320", "-256", "3", "--json"]).json();
    let places: Vec<u64> =
        v["nodes"].as_array().unwrap().iter().map(|n| n["place"].as_u64().unwrap()).collect();
    assert_eq!(places, [2, 8, 7, 9]);
    assert_eq!(run(&["near", &dock, "--steps", "-13280", "-1024", "12", "--json"]).json(), v);
    let none = run(&["near", &dock, "-3428", "-256", "1"]);
    assert!(
        none.text().starts_with("0 nodes within 1 m of -3428 -256\nthe nearest: 100.00 m place 0"),
        "{}",
        none.text()
    );
    for bad in [["0", "0", "-1"], ["0", "0", "20000"], ["nan", "0", "1"], ["0", "0", "inf"]] {
        assert_eq!(run(&["near", &dock, bad[0], bad[1], bad[2]]).status, 2, "{bad:?}");
    }
    assert_eq!(run(&["near", &dock, "--steps", "0.5", "0", "1"]).status, 2);
    // a coordinate that can't be stored is limited, and that is said
    assert_eq!(none.err, "");
    let far = run(&["near", &dock, "1e9", "0", "5"]);
    assert_eq!(far.err, "bofrashem: X is limited to what is stored, -8192 to 8191.75 m\n");
    let v = run(&["near", &dock, "8191.75", "-8192.25", "5", "--json"]).json();
    assert_eq!(v["limited"].to_string(), "[false,true]");
    let drawn = run(&["draw", &dock, "--near", "0", "9000", "5", "-o", &Folder::new().path("a.svg")]);
    assert!(drawn.err.contains("Y is limited"), "{}", drawn.err);
}

#[test]
fn the_short_way_is_a_round() {
    let (folder, hall) = (Folder::new(), sample("hall.section"));
    let round = folder.path("way.round");
    let way = run(&["way", &hall, "0", "9", "--round", &round, "--json"]).json();
    assert_eq!((way["metres"].as_u64(), way["choices"].as_array().map(Vec::len)), (Some(90), Some(7)));
    let followed = run(&["round", "follow", &hall, &round, "--json"]).json();
    assert_eq!((followed["end"]["how"].as_str(), followed["metres"].as_u64()), (Some("done"), Some(90)));
    assert_eq!(followed["visited"][7]["place"].as_u64(), Some(9));
    let none = run(&["way", &sample("dock.section"), "0", "6"]);
    assert_eq!(
        (none.status, none.err.contains("refused 17 0: no walk leads from place 0 to place 6")),
        (1, true)
    );
    let other = run(&["round", "make", "0", "1", "--area", "7", "-o", &round]);
    assert_eq!(other.status, 0);
    assert!(run(&["round", "follow", &hall, &round]).err.contains("refused 19"));
}

#[test]
fn rounds_made_and_shown() {
    let folder = Folder::new();
    let file = folder.path("r");
    let made = run(&["round", "make", "6", "0", "1", "1", "1", "-o", "-"]);
    assert_eq!(made.out, std::fs::read(sample("dock.round")).unwrap());
    run(&["round", "make", "0", "--area", "489", "-o", &file]);
    let v = run(&["round", "show", &file, "--json"]).json();
    assert_eq!(
        (v["version"].as_u64(), v["area"].as_u64(), v["count"].as_u64()),
        (Some(2), Some(489), Some(0))
    );
    let bad = run_with(b"RNE", &["round", "show", "-"]);
    assert_eq!((bad.status, bad.err.contains("refused 15 0")), (1, true));
    let short = run_with(b"RND\x01\0", &["round", "show", "-"]);
    assert!(short.err.contains("refused 16 0"), "{}", short.err);
}

#[test]
fn renumbering_is_nothing_to_a_walker() {
    let (folder, hall) = (Folder::new(), sample("hall.section"));
    let out = folder.path("hall.section");
    let said = run(&["renumber", &hall, &out, "--json"]);
    assert_eq!(said.json()["new_places"].as_array().map(Vec::len), Some(18));
    assert_eq!(said.err, "");
    assert!(run(&["renumber", &hall, &out]).err.contains("write such rounds again"));
    let diff = run(&["diff", &hall, &out]);
    assert_eq!(
        (diff.status, diff.text().starts_with("no walker can tell them apart\n")),
        (0, true),
        "{}",
        diff.text()
    );
    let v = run(&["diff", &hall, &out, "--json"]).json();
    assert_eq!((v["same"].as_bool(), v["unseen"]["numbers"].as_bool()), (Some(true), Some(true)));
}

#[test]
fn diff_sees_what_a_walker_sees() {
    let folder = Folder::new();
    let cell = mixed();
    let a = folder.file("a", &cell.write().unwrap());
    let differences = |change: &dyn Fn(&mut bofrashem::Cell)| {
        let mut other = cell.clone();
        change(&mut other);
        let v = run(&["diff", &a, &folder.file("b", &other.write().unwrap()), "--json"]).json();
        v["differences"]
            .as_array()
            .unwrap()
            .iter()
            .map(|d| d["what"].as_str().unwrap().to_string())
            .collect::<Vec<_>>()
    };
    assert!(differences(&|_| {}).is_empty());
    assert!(differences(&|c| c.set_vft(1)).is_empty());
    assert_eq!(differences(&|c| c.set_position(2, [-3280.0, -240.0, 0.5]).unwrap())[0], "position");
    let street = |c: &mut bofrashem::Cell| {
        let mut n = c.nodes()[1];
        (n.street_name, n.flags[2], n.unused0) = (7, 1, 9);
        c.put_node(1, n).unwrap();
    };
    assert_eq!(differences(&street), ["street", "flags2", "unused fields"]);
    let length = |c: &mut bofrashem::Cell| {
        let l = c.links_of(0).unwrap()[0];
        c.put_link(0, 0, bofrashem::Link { length: 9, node_id: 2, ..l }).unwrap();
    };
    assert_eq!(differences(&length), ["link 0's length", "link 0 leads to"]);
    assert_eq!(differences(&|c| c.put_height(0, 3, 7).unwrap()), ["junction's values"]);
    let added = differences(&|c| assert_eq!(c.add_node(489, [-3200.0, -200.0, 0.0]), Ok(6)));
    assert_eq!(added, ["only in B"]);
}

#[test]
fn check_says_a_line_for_each_bad_file() {
    let folder = Folder::new();
    let unsound = folder.file("mixed", &mixed().write().unwrap());
    let short = folder.file("short", &[0; 111]);
    let said = run(&["check", &sample("dock.section"), &unsound, &short, &folder.path("none")]);
    let lines: Vec<&str> = said.text().lines().collect();
    assert_eq!((said.status, lines.len()), (3, 3));
    assert!(lines[0].contains("mixed: unsound: link 0 of node 4"), "{}", lines[0]);
    assert!(lines[1].contains("short: refused 1 0: 1 to 111 system bytes"), "{}", lines[1]);
    assert!(lines[2].contains("none: can't be read"), "{}", lines[2]);
    // what can't be read is not what is wrong with a yard
    assert_eq!(run(&["check", &sample("dock.section"), &unsound, &short]).status, 1);
    let good = run(&["check", &sample("dock.section"), &sample("hall.section")]);
    assert_eq!((good.status, good.out.len(), good.err.len()), (0, 0, 0));
    let v = run(&["check", "--json", &short, &folder.path("none")]).json();
    let counts = ["checked", "bad", "unread"].map(|name| v[name].as_u64().unwrap());
    assert_eq!(counts, [2, 2, 1]);
    assert_eq!(v["files"][0]["number"].as_u64(), Some(1));
}

#[test]
fn help_for_each_command_and_the_man_page() {
    let help = run(&["--help"]);
    assert_eq!(help.status, 0);
    let man = run(&["man"]);
    for command in
        ["info", "check", "walk", "near", "way", "round", "print", "renumber", "convert", "diff", "draw"]
    {
        assert!(help.text().contains(command) && man.text().contains(command), "{command}");
        let of_one = run(&[command, "--help"]);
        assert_eq!((of_one.status, of_one.out), (0, run(&["help", command]).out));
    }
    assert_eq!(help.out, run(&["help"]).out);
    assert_eq!(run(&["help", "round", "make"]).out, run(&["round", "make", "--help"]).out);
    assert!(!man.text().contains("bofrashem help"));
    for shell in ["bash", "zsh", "fish"] {
        assert!(run(&["completions", shell]).out.len() > 1000);
    }
    assert_eq!(run(&[]).status, 2);
    assert_eq!(run(&["walk"]).status, 2);
    assert_eq!(run(&["nothing"]).status, 2);
}

/// Errors of the command line too are JSON where that is asked for.
#[test]
fn slips_in_json() {
    let slips: [(&[&str], &str); 5] = [
        (&["round", "--json"], "requires a subcommand"),
        (&["--json", "fly"], "fly"),
        (&["walk", "--json"], "<FILE> <START>"),
        (&["walk", "x", "y", "--json"], "'y'"),
        (&["check", "--graphics", "x", "y", "--json"], "--graphics stands behind the file"),
    ];
    for (words, part) in slips {
        let said = run(words);
        let v: Value = serde_json::from_str(&said.err).unwrap();
        let text = v["error"]["text"].as_str().unwrap();
        assert_eq!((said.status, said.out.len(), v["error"]["kind"].as_str()), (2, 0, Some("usage")));
        assert!(text.contains(part) && !text.contains('\n'), "{text}");
    }
    // behind -- it is a file's name
    assert!(run(&["walk", "--", "--json", "x"]).err.starts_with("error: "));
}

/// Every name in an answer, whatever it is in.
fn names(v: &Value, all: &mut Vec<String>) {
    match v {
        Value::Object(fields) => {
            for (name, v) in fields {
                all.push(name.clone());
                names(v, all);
            }
        }
        Value::Array(values) => values.iter().for_each(|v| names(v, all)),
        _ => {}
    }
}

#[test]
fn the_page_has_every_name_in_json() {
    let (folder, hall, round) = (Folder::new(), sample("hall.section"), sample("hall.round"));
    let bad = folder.file("mixed", &mixed().write().unwrap());
    let (out, svg, made) = (folder.path("o.ynd"), folder.path("o.svg"), folder.path("o.round"));
    let other = folder.file("other", &common::rows(3).write().unwrap());
    let pictures = folder.path("both.svg");
    let answers: [&[&str]; 17] = [
        &["info", &hall],
        &["info", &bad],
        &["check", &hall, &bad],
        &["walk", &bad, "0", "1"],
        &["near", &hall, "-3328", "-256", "20"],
        &["way", &hall, "0", "5"],
        &["round", "show", &round],
        &["round", "follow", &hall, &round],
        &["print", &hall, &round],
        &["renumber", &hall, &out],
        &["diff", &hall, &bad],
        &["draw", &hall, "-o", &svg],
        &["draw", &hall, &other, "-o", &pictures],
        &["set", &hall, &other],
        &["set", &hall, &other, "--round", &round],
        &["round", "make", "0", "-o", &made],
        &["info", &out],
    ];
    let mut all = Vec::new();
    for words in answers {
        names(&run(&[&["--json"], words].concat()).json(), &mut all);
    }
    names(&serde_json::from_str(&run(&["--json", "walk", &hall, "99"]).err).unwrap(), &mut all);
    all.sort();
    all.dedup();
    let page = std::fs::read_to_string(root().join("docs/TOOL.md")).unwrap();
    let words: Vec<&str> = page.split(|c: char| !(c.is_alphanumeric() || c == '_')).collect();
    let missing: Vec<&String> = all.iter().filter(|name| !words.contains(&name.as_str())).collect();
    assert!(missing.is_empty() && all.len() > 60, "{missing:?} of {}", all.len());
}
