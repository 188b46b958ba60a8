//! Pictures: their structure, not their pixels.
mod common;
use bofrashem::{Cell, Link};
use common::{mixed, root, rows, run, sample, Folder};

/// The value of an attribute of the group with this id.
fn counted(svg: &str, id: &str, name: &str) -> usize {
    let group = svg.split(&format!("id=\"{id}\"")).nth(1).unwrap_or_else(|| panic!("no {id}"));
    let head = group.split('>').next().unwrap();
    let value = head.split(&format!("{name}=\"")).nth(1).unwrap_or_else(|| panic!("no {name} of {id}"));
    value.split('"').next().unwrap().parse().unwrap()
}

/// How many strokes begin in the paths whose class begins so.
fn strokes(svg: &str, class: &str) -> usize {
    svg.split("<path ")
        .filter(|p| p.starts_with(&format!("class=\"{class}")) && p.contains("data-w"))
        .map(|p| p.split(" d=\"").nth(1).unwrap().split('"').next().unwrap().matches('M').count())
        .sum()
}

/// Every tag that opens closes, in order; attributes are quoted; only XML's own entities.
fn well_formed(svg: &str) {
    let mut open: Vec<&str> = Vec::new();
    for part in svg.split('<').skip(1) {
        let (tag, _) = part.split_once('>').expect("a tag ends");
        let name = tag.trim_start_matches('/').split([' ', '/', '\n']).next().unwrap();
        if tag.starts_with('/') {
            assert_eq!(open.pop(), Some(name), "<{tag}>");
        } else {
            assert_eq!(tag.matches('"').count() % 2, 0, "<{tag}>");
            if !tag.ends_with('/') {
                open.push(name);
            }
        }
    }
    assert!(open.is_empty(), "{open:?}");
    for entity in svg.split('&').skip(1) {
        assert!(["amp;", "lt;", "gt;", "quot;"].iter().any(|e| entity.starts_with(e)), "&{:.10}", entity);
    }
}

/// The kept pictures as pictures.txt says them: the sample's name and the words of draw.
fn kept(folder: &Folder) -> Vec<(String, Vec<String>)> {
    let short = folder.path("yard.round");
    run(&["way", &sample("yard.section"), "120", "2877", "--round", &short]);
    let list = std::fs::read_to_string(root().join("tools/bofrashem/pictures.txt")).unwrap();
    let word = |w: &str| match w {
        "yard.round" => short.clone(),
        w if w.ends_with(".round") => sample(w),
        w => w.to_string(),
    };
    let lines = list.lines().filter(|line| !line.starts_with('#')).map(|line| {
        let words: Vec<&str> = line.split(' ').collect();
        (words[0].to_string(), words[3..].iter().map(|w| word(w)).collect())
    });
    lines.collect()
}

#[test]
fn the_kept_pictures_have_all_that_the_samples_hold() {
    let folder = Folder::new();
    let pictures = kept(&folder);
    assert_eq!(pictures.len(), 3);
    for (name, words) in pictures {
        let (nodes, lines, links, steps, way) = match name.as_str() {
            "dock" => (13, 11, 22, 5, 8),
            "hall" => (18, 21, 42, 8, 8),
            _ => (5000, 9850, 19700, 85, 149),
        };
        let (yard, out) = (sample(&format!("{name}.section")), folder.path(&format!("{name}.svg")));
        let mut all = vec!["draw", &yard, "-o", &out, "--json"];
        all.extend(words.iter().map(String::as_str));
        let v = run(&all).json();
        let said = ["nodes", "links", "steps", "way"].map(|k| v[k].as_u64().unwrap() as usize);
        assert_eq!(said, [nodes, links, steps, way]);
        let svg = std::fs::read_to_string(&out).unwrap();
        well_formed(&svg);
        assert_eq!((counted(&svg, "nodes", "data-count"), strokes(&svg, "node ")), (nodes, nodes));
        assert_eq!(
            (counted(&svg, "links", "data-count"), counted(&svg, "links", "data-lines")),
            (links, lines)
        );
        assert_eq!(strokes(&svg, "link"), lines);
        assert_eq!((counted(&svg, "round", "data-steps"), strokes(&svg, "track round")), (steps, steps - 1));
        assert_eq!((counted(&svg, "way", "data-steps"), strokes(&svg, "track way")), (way, way - 1));
    }
}

/// What a round walks again is drawn once, so that a long one over a small yard is no large picture.
#[test]
fn a_long_round_is_a_small_picture() {
    let folder = Folder::new();
    let (round, out) = (folder.path("r"), folder.path("a.svg"));
    let choices = vec!["0"; 65_535];
    let words = [&["round", "make", "0", "-o", &round], &choices[..]].concat();
    assert_eq!(run(&words).status, 0);
    let said = run(&["draw", &sample("hall.section"), "--round", &round, "-o", &out, "--json"]);
    assert_eq!(said.json()["steps"].as_u64(), Some(65_536));
    let svg = std::fs::read_to_string(&out).unwrap();
    assert!(svg.len() < 40_000 && strokes(&svg, "track round") < 43, "{}", svg.len());
}

#[test]
fn another_ending_is_a_slip() {
    let folder = Folder::new();
    let yard = folder.file("yard.section", &std::fs::read(sample("dock.section")).unwrap());
    let said = run(&["draw", &yard, "-o", &yard]);
    assert_eq!((said.status, said.err.contains("ends in .svg, .html, .png or .pdf")), (2, true));
    assert!(std::fs::read(&yard).unwrap() == std::fs::read(sample("dock.section")).unwrap());
    assert_eq!(run(&["draw", &yard, "-o", &folder.path("picture")]).status, 0);
}

#[test]
fn labels_thin_out() {
    let folder = Folder::new();
    let labels = |name: &str| {
        let out = folder.path("a.svg");
        run(&["draw", &sample(name), "-o", &out]);
        counted(&std::fs::read_to_string(out).unwrap(), "labels", "data-count")
    };
    assert_eq!((labels("dock.section"), labels("hall.section")), (13, 18));
    assert!((50..500).contains(&labels("yard.section")));
}

#[test]
fn every_kind_of_node_and_link_is_told_apart() {
    let folder = Folder::new();
    let file = folder.file("a&b<c>\"d\".section", &mixed().write().unwrap());
    let out = folder.path("mixed.svg");
    run(&["draw", &file, "-o", &out, "--near", "-3300", "-250", "12"]);
    let svg = std::fs::read_to_string(&out).unwrap();
    well_formed(&svg);
    assert!(svg.contains("a&amp;b&lt;c&gt;&quot;d&quot;.section"));
    let of = |class: &str| strokes(&svg, class);
    // five road nodes, one of them a post; a ped node, which is a post
    assert_eq!(
        [of("node road\""), of("node road post"), of("node ped\""), of("node ped post")],
        [4, 1, 0, 1]
    );
    assert_eq!([of("link\""), of("link one")], [2, 1]);
    assert_eq!([of("left"), of("lost")], [2, 2]);
    assert_eq!((counted(&svg, "near", "data-count"), counted(&svg, "junctions", "data-count")), (1, 1));
}

/// The page of page/, with the yard's files in it as they came; where it isn't built, words that say so.
#[test]
fn a_page_stands_alone() {
    let folder = Folder::new();
    let (hall, round, out) = (sample("hall.section"), sample("hall.round"), folder.path("hall.html"));
    let said = run(&["draw", &hall, "--round", &round, "--way", "0", "9", "-o", &out]);
    if said.status == 1 && said.err.contains("the page is not in this program") {
        return;
    }
    assert_eq!(said.status, 0, "{}", said.err);
    let page = std::fs::read_to_string(&out).unwrap();
    assert!(page.starts_with("<!DOCTYPE html>"));
    for outside in [" src=", " href=", "@import", "url(", "https://", "http://", "<!-- embedded -->"] {
        assert!(!page.contains(outside), "{outside}");
    }
    assert!(page.contains("default-src 'none'"));
    let embedded: Vec<&str> = page.split("<script class=\"embedded\"").skip(1).collect();
    assert_eq!(embedded.len(), 2);
    for (part, name, kind) in [(embedded[0], "hall.section", "system"), (embedded[1], "hall.round", "round")]
    {
        let named = format!("data-name=\"{name}\" data-kind=\"{kind}\"");
        assert!(part.contains(&named) && part.contains("H4sI"), "{}", &part[..200]);
    }
    assert!(page.contains("{\"near\":null,\"way\":[0,9]}"));
}

#[test]
fn an_empty_yard_and_a_large_one_are_drawn() {
    let folder = Folder::new();
    for (name, bytes) in
        [("empty", Vec::new()), ("one", rows(1).write().unwrap()), ("large", rows(60_000).write().unwrap())]
    {
        let (file, svg, html) = (folder.file(name, &bytes), folder.path("a.svg"), folder.path("a.html"));
        assert_eq!(run(&["draw", &file, "-o", &svg]).status, 0, "{name}");
        let said = run(&["draw", &file, "-o", &html]);
        let unbuilt = said.status == 1 && said.err.contains("the page is not in this program");
        assert!(said.status == 0 || unbuilt, "{name}: {}", said.err);
        well_formed(&std::fs::read_to_string(&svg).unwrap());
    }
}

/// docs/pictures are of the samples as they are: their page says how each was made.
#[test]
fn the_kept_pictures_are_there() {
    for name in ["dock", "hall", "yard"] {
        let png = std::fs::read(root().join(format!("docs/pictures/{name}.png"))).unwrap();
        assert!(png.starts_with(b"\x89PNG") && png.len() < 300_000, "{name}: {}", png.len());
    }
}

/// Writes the picture of every kind of mark, to be looked at: BOFRASHEM_LOOK names the file.
#[test]
fn to_be_looked_at() {
    let Ok(out) = std::env::var("BOFRASHEM_LOOK") else { return };
    let folder = Folder::new();
    let file = folder.file("mixed.section", &mixed().write().unwrap());
    assert_eq!(run(&["draw", &file, "-o", &out, "--near", "-3280", "-250", "14"]).status, 0);
}

/// A set is one picture: all its nodes and links, those that cross as lines, and a round that crosses.
#[test]
fn a_set_is_drawn() {
    let folder = Folder::new();
    // two cells side by side, linked both ways over the edge between them; one link leaves the set
    let cell = |area: u16, x: f32, links: &[(usize, u16, u16)]| {
        let mut c = Cell::new();
        for k in 0..3 {
            c.add_node(area, [x + 10.0 * k as f32, -200.0, 0.0]).unwrap();
        }
        for &(from, area, to) in links {
            c.add_link(from, Link { length: 10, ..Link::to(area, to) }).unwrap();
        }
        c.write().unwrap()
    };
    let west = cell(489, -3102.0, &[(0, 489, 1), (1, 489, 0), (1, 489, 2), (2, 489, 1), (2, 490, 0)]);
    let east = cell(490, -3070.0, &[(0, 490, 1), (1, 490, 0), (1, 490, 2), (0, 489, 2), (2, 491, 5)]);
    let (a, b, round) = (folder.file("w", &west), folder.file("e", &east), folder.path("r"));
    run(&["round", "make", "0", "0", "1", "1", "0", "1", "--area", "489", "-o", &round]);
    let out = folder.path("set.svg");
    let v = run(&["draw", &a, &b, "--round", &round, "--near", "-3086", "-200", "10", "-o", &out, "--json"])
        .json();
    let counts = ["nodes", "links", "steps", "near", "members"].map(|name| v[name].as_u64().unwrap());
    assert_eq!(counts, [6, 10, 6, 2, 2], "{v}");
    let svg = std::fs::read_to_string(&out).unwrap();
    well_formed(&svg);
    assert_eq!((counted(&svg, "links", "data-count"), counted(&svg, "links", "data-lines")), (10, 5));
    // of the links over the edge a pair, and one stub that leaves the set: a line and its head
    assert_eq!([strokes(&svg, "link\""), strokes(&svg, "link one"), strokes(&svg, "left")], [4, 1, 2]);
    assert_eq!((counted(&svg, "round", "data-steps"), strokes(&svg, "track round")), (6, 5));
    assert!(svg.contains("2 cells · areas 489, 490 · 6 nodes · 10 links"));
    let edges = svg.split("id=\"edge\"").nth(1).unwrap().split("/>").next().unwrap();
    assert_eq!(edges.matches('M').count(), 2);
    // alone, the round leaves, and the link over the edge is a stub
    let alone = run(&["draw", &a, "--round", &round, "-o", &out, "--json"]).json();
    assert_eq!((alone["steps"].as_u64(), alone["members"].as_u64()), (Some(3), Some(1)));
    let way = run(&["draw", &a, &b, "--way", "0", "1", "-o", &out]);
    assert_eq!((way.status, way.err.contains("--way is of one yard")), (2, true), "{}", way.err);
    assert!(run(&["draw", &a, &a, "-o", &out]).err.contains("refused 18 0"));
}
