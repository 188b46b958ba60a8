//! The container RSC7: read as the Rust reads it, written with one page.
mod common;
use bofrashem_tool::container::{close, open, section_size, Bad};
use common::{run, run_with, sample, split, with_graphics, Folder};
use flate2::write::DeflateEncoder;
use flate2::Compression;
use std::io::Write;

fn header(version: u32, system: u32, graphics: u32) -> Vec<u8> {
    [u32::from_le_bytes(*b"RSC7"), version, system, graphics].iter().flat_map(|w| w.to_le_bytes()).collect()
}

fn deflated(bytes: &[u8]) -> Vec<u8> {
    let mut e = DeflateEncoder::new(Vec::new(), Compression::default());
    e.write_all(bytes).unwrap();
    e.finish().unwrap()
}

/// Page flags of n pages of 512 bytes, n up to 15.
fn pages(n: u32) -> u32 {
    (n & 1) << 27 | (n >> 1 & 1) << 26 | (n >> 2 & 1) << 25 | (n >> 3 & 1) << 24
}

#[test]
fn a_section_comes_back_from_its_container() {
    for name in ["dock.section", "hall.section", "yard.section"] {
        let section = std::fs::read(sample(name)).unwrap();
        let c = open(&close(&section)).unwrap();
        assert_eq!((c.version, c.stored, c.graphics.len()), (1, false, 0));
        // but for the page block's count of pages
        let mut expected = section.clone();
        assert_eq!(std::mem::replace(&mut expected[120], 1), 128);
        assert!(
            c.system[..section.len()] == expected[..] && c.system[section.len()..].iter().all(|&b| b == 0)
        );
        assert_eq!((c.system.len().count_ones(), c.system.len() >= 0x2000), (1, true));
    }
}

#[test]
fn the_tool_reads_and_writes_containers() {
    let folder = Folder::new();
    let (ynd, back) = (folder.path("nodes489.ynd"), folder.path("back.section"));
    for name in ["dock.section", "hall.section", "yard.section"] {
        assert_eq!(run(&["convert", &sample(name), &ynd]).status, 0);
        assert!(std::fs::read(&ynd).unwrap().starts_with(b"RSC7"));
        let v = run(&["info", &ynd, "--json"]).json();
        assert_eq!((v["form"].as_str(), v["sound"].as_bool()), (Some("container"), Some(true)));
        assert_eq!(v["area_of_file_name"].as_u64(), Some(489));
        assert_eq!(run(&["diff", &ynd, &sample(name)]).status, 0);
        run(&["convert", &ynd, &back]);
        assert!(std::fs::read(&back).unwrap() == std::fs::read(sample(name)).unwrap());
        let piped = run_with(&std::fs::read(&ynd).unwrap(), &["convert", "-", "-", "--form", "section"]);
        assert!(piped.out == std::fs::read(sample(name)).unwrap());
    }
    assert_eq!(run(&["info", &ynd, "--graphics", &back]).status, 2);
}

#[test]
fn stored_bodies_and_graphics_pages() {
    let system: Vec<u8> = (0..1024u32).map(|k| (k * 7 + 0xB0) as u8).collect();
    let graphics = vec![5; 512];
    let body = [system.clone(), graphics.clone()].concat();
    for (stored, bytes) in [(true, body.clone()), (false, deflated(&body))] {
        let mut file = header(1, pages(2), pages(1) | 1 << 28);
        file.extend(bytes);
        let c = open(&file).unwrap();
        assert_eq!((c.stored, c.system == system, c.graphics == graphics), (stored, true, true));
        // graphics may come short, as in the Rust; system may not
        let c = open(&file[..file.len() - if stored { 512 } else { 0 }]).unwrap();
        assert_eq!(c.system, system);
    }
    let mut file = header(1, pages(2), 0);
    file.extend(&system[..1023]);
    assert_eq!(open(&file).err(), Some(Bad::Truncated { got: 1023, want: 1024 }));
}

/// A yard whose nodes lie in graphics pages.
#[test]
fn a_yard_over_both_sections() {
    let dock = std::fs::read(sample("dock.section")).unwrap();
    let (system, graphics) = split(&dock);
    let folder = Folder::new();
    let file = folder.file("dock.ynd", &with_graphics(&system, &graphics));
    let v = run(&["info", &file, "--json"]).json();
    assert_eq!((v["system_bytes"].as_u64(), v["graphics_bytes"].as_u64()), (Some(8192), Some(8192)));
    assert_eq!(run(&["diff", &file, &sample("dock.section")]).status, 0);
    assert_eq!(run(&["check", &file, "--graphics", &file]).status, 2);
}

#[test]
fn every_truncation_is_refused_or_read_whole() {
    let file = close(&std::fs::read(sample("hall.section")).unwrap());
    let whole = open(&file).unwrap().system;
    let mut refused = 0;
    for n in 0..file.len() {
        match open(&file[..n]) {
            // the last bytes of a stream may be no more than its end
            Ok(c) => assert!(c.system == whole && n + 8 > file.len(), "{n}"),
            Err(_) => refused += 1,
        }
        let said = run_with(&file[..n], &["info", "-"]);
        assert!(said.status == 1 || n == 0 || n + 8 > file.len(), "{n}: {}", said.text());
    }
    assert!(refused + 8 > file.len());
    let said = run_with(&file[..file.len() / 2], &["info", "-"]);
    assert!(
        said.err.contains("container: truncated: ") && said.err.contains("of 8192 bytes"),
        "{}",
        said.err
    );
}

#[test]
fn a_broken_stream_is_named_with_its_place() {
    let bytes: Vec<u8> = (0..65_536u32).map(|k| (k.wrapping_mul(2_654_435_761) >> 13) as u8).collect();
    let mut file = close(&bytes);
    let middle = file.len() / 2;
    // stored blocks: a length that does not match its complement
    let mut raw = header(1, pages(8), 0);
    raw.extend([0, 4, 0, 0xFB, 0xFF, 1, 2, 3, 4, 0, 4, 0, 0, 0]);
    assert!(matches!(open(&raw).err(), Some(Bad::Corrupt { got: 4, .. })), "{:?}", open(&raw).err());
    for k in 0..64 {
        file[middle + k] ^= 0xA5;
    }
    let _ = open(&file);
}

#[test]
fn other_marks_are_refused_in_words() {
    for (mark, words) in
        [(b"RSC8", "newer generation"), (b"FXAP", "encrypted"), (b"RSC7", "the header alone has 16")]
    {
        let said = run_with(mark, &["info", "-"]);
        assert_eq!(said.status, 1);
        assert!(said.err.contains(words), "{}", said.err);
        let v: serde_json::Value =
            serde_json::from_str(&run_with(mark, &["info", "-", "--json"]).err).unwrap();
        assert_eq!(v["error"]["kind"], "container");
    }
}

#[test]
fn sections_over_the_limit_are_refusal_2() {
    // 32 MB of zeros in some KB; flags of 2 pages of 16 MB
    let zeros = deflated(&vec![0; 33 << 20]);
    let mut file = header(1, 1 << 26 | 15, 0);
    assert_eq!(section_size(1 << 26 | 15), 32 << 20);
    file.extend(&zeros);
    let said = run_with(&file, &["info", "-"]);
    assert!(said.err.contains("refused 2 0") && said.err.contains("the system section"), "{}", said.err);
    // a header that promises 90 GB, of which nothing is there
    let mut file = header(1, 0x0fff_ffff, 0x0fff_ffff);
    file.extend(deflated(&[1; 100]));
    assert!(run_with(&file, &["info", "-"]).err.contains("truncated: 100 of"));
    let mut graphics = header(1, pages(1), 1 << 26 | 15);
    graphics.extend(&zeros);
    assert!(run_with(&graphics, &["info", "-"]).err.contains("refused 2 1"));
}

#[test]
fn no_pages_are_a_yard_not_drawn_yet_and_other_versions_are_said() {
    let empty = header(1, 0, 1 << 28);
    assert!(run_with(&empty, &["info", "-"]).text().contains("a yard not drawn yet"));
    let mut file = close(&std::fs::read(sample("dock.section")).unwrap());
    file[4] = 165;
    let said = run_with(&file, &["info", "-"]);
    assert!(said.text().contains("version 165 (path node files have 1)"), "{}", said.text());
}
