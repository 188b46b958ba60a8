//! Yards for the tests, and the program run in this process.
#![allow(dead_code)]
use bofrashem::{Cell, Junction, Link, Ref};
use serde_json::Value;
use std::io::Write;
use std::path::{Path, PathBuf};
use std::sync::atomic::{AtomicUsize, Ordering};

/// What a run said.
pub struct Said {
    pub status: i32,
    pub out: Vec<u8>,
    pub err: String,
}

impl Said {
    pub fn text(&self) -> &str {
        std::str::from_utf8(&self.out).expect("text")
    }

    pub fn json(&self) -> Value {
        serde_json::from_slice(&self.out).expect("JSON")
    }
}

/// Runs the program on these words, with these bytes on standard input.
pub fn run_with(input: &[u8], words: &[&str]) -> Said {
    let (mut out, mut err) = (Vec::new(), Vec::new());
    let args: Vec<&str> = std::iter::once("bofrashem").chain(words.iter().copied()).collect();
    let status = bofrashem_tool::run(args, &mut &input[..], &mut out, &mut err);
    Said { status, out, err: String::from_utf8(err).expect("text") }
}

pub fn run(words: &[&str]) -> Said {
    run_with(&[], words)
}

pub fn root() -> PathBuf {
    Path::new(env!("CARGO_MANIFEST_DIR")).join("../..")
}

pub fn sample(name: &str) -> String {
    root().join("samples").join(name).display().to_string()
}

/// A folder of its own, which goes when it is dropped, unless a test failed.
pub struct Folder(PathBuf);

static FOLDERS: AtomicUsize = AtomicUsize::new(0);

impl Folder {
    pub fn new() -> Folder {
        let n = FOLDERS.fetch_add(1, Ordering::Relaxed);
        let path = std::env::temp_dir().join(format!("bofrashem-{}-{n}", std::process::id()));
        std::fs::create_dir_all(&path).expect("a folder");
        Folder(path)
    }

    pub fn path(&self, name: &str) -> String {
        self.0.join(name).display().to_string()
    }

    /// Writes a file and names it.
    pub fn file(&self, name: &str, bytes: &[u8]) -> String {
        std::fs::write(self.0.join(name), bytes).expect("a file");
        self.path(name)
    }
}

impl Drop for Folder {
    fn drop(&mut self) {
        if std::thread::panicking() {
            eprintln!("kept: {}", self.0.display());
        } else {
            let _ = std::fs::remove_dir_all(&self.0);
        }
    }
}

/// A yard of one of everything: two ways, one way, a post, ped nodes, a link out, a link to no node, a junction.
pub fn mixed() -> Cell {
    let mut c = Cell::new();
    for k in 0..6 {
        c.add_node(489, [-3300.0 + 10.0 * k as f32, -250.0 + (k % 2) as f32 * 8.0, 0.5]).unwrap();
    }
    let mut ped = c.nodes()[3];
    ped.set_special(10);
    c.put_node(3, ped).unwrap();
    let link = |node, area, length| Link { length, ..Link::to(area, node) };
    for (from, to) in [(0, 1), (1, 0), (1, 2), (2, 1), (2, 3)] {
        c.add_link(from, link(to, 489, 12)).unwrap();
    }
    c.add_link(0, link(7, 490, 40)).unwrap();
    c.add_link(4, link(999, 489, 5)).unwrap();
    c.add_junction(Junction::new([-3304.0, -254.0], [0.0, 4.0], 3, 2), &[0, 50, 100, 150, 200, 255]).unwrap();
    c.add_ref(Ref { area_id: 489, node_id: 1, junction_id: 0, unk0: 0 }).unwrap();
    c
}

/// A sound yard of n nodes in rows, with one link each to the next node, and some back.
pub fn rows(n: usize) -> Cell {
    numbered(n, |p| p as u16)
}

/// The same, whose nodes have these numbers.
pub fn numbered(n: usize, number: impl Fn(usize) -> u16) -> Cell {
    let wide = ((n as f64).sqrt() as usize).max(1);
    let mut c = Cell::new();
    for p in 0..n {
        let at = [(p % wide) as f32 * 2.0 - 250.0, (p / wide) as f32 * 2.0 - 250.0, 0.25];
        c.add_node(528, at).unwrap();
        let mut node = c.nodes()[p];
        node.node_id = number(p);
        c.put_node(p, node).unwrap();
    }
    // as many links as can be written
    let spare = 65_535usize.saturating_sub(n);
    for p in 0..n {
        let mut links = vec![Link { length: 2, ..Link::to(528, number((p + 1) % n)) }];
        if p >= wide && p % 10 == 0 && p / 10 < spare {
            links.push(Link { length: 2, ..Link::to(528, number(p - wide)) });
        }
        c.set_links(p, &links).unwrap();
    }
    c
}

/// A section as two: its nodes, which begin at the root's address, and all behind them in a graphics section.
pub fn split(section: &[u8]) -> (Vec<u8>, Vec<u8>) {
    let at = u64::from_le_bytes(section[16..24].try_into().unwrap());
    let nodes = (at - 0x5000_0000) as usize;
    let count = u32::from_le_bytes(section[24..28].try_into().unwrap()) as usize;
    let mut system = section.to_vec();
    system[16..24].copy_from_slice(&0x6000_0000u64.to_le_bytes());
    // nothing is left of them where they stood
    system[nodes..nodes + count * 40].fill(0);
    (system, section[nodes..nodes + count * 40].to_vec())
}

/// A container, deflated, whose two sections have as many pages of 8 KB as they need (15 at most).
pub fn with_graphics(system: &[u8], graphics: &[u8]) -> Vec<u8> {
    let pages = |bytes: &[u8]| bytes.len().div_ceil(0x2000) as u32;
    let flags = |n: u32| (n & 1) << 27 | (n >> 1 & 1) << 26 | (n >> 2 & 1) << 25 | (n >> 3 & 1) << 24 | 4;
    let padded =
        |bytes: &[u8]| [bytes, &vec![0; bytes.len().next_multiple_of(0x2000) - bytes.len()]].concat();
    let words = [u32::from_le_bytes(*b"RSC7"), 1, flags(pages(system)), flags(pages(graphics)) | 1 << 28];
    let file = words.iter().flat_map(|w| w.to_le_bytes()).collect();
    let mut deflate = flate2::write::DeflateEncoder::new(file, flate2::Compression::fast());
    deflate.write_all(&padded(system)).unwrap();
    deflate.write_all(&padded(graphics)).unwrap();
    deflate.finish().unwrap()
}

/// Numbers that look random, from a seed (splitmix64).
pub struct Random(pub u64);

impl Random {
    pub fn next(&mut self) -> u64 {
        self.0 = self.0.wrapping_add(0x9E37_79B9_7F4A_7C15);
        let mut z = self.0;
        z = (z ^ (z >> 30)).wrapping_mul(0xBF58_476D_1CE4_E5B9);
        z = (z ^ (z >> 27)).wrapping_mul(0x94D0_49BB_1331_11EB);
        z ^ (z >> 31)
    }

    pub fn below(&mut self, n: usize) -> usize {
        (self.next() % n.max(1) as u64) as usize
    }
}
