//! Containers opened by the tool and by the Rust's own `prepare_rsc7`, unmodified, where its text is at hand.
#![cfg(rust_text)]
mod common;
use bofrashem_tool::container::{close, open, section_size};
use common::{mixed, rows, sample, Random};
use std::io::Write;

/// What the text leans on.
mod math {
    pub struct Vec3;
    pub struct Vec4;
    impl Vec3 {
        pub fn new(_: f32, _: f32, _: f32) -> Vec3 {
            Vec3
        }
    }
    impl Vec4 {
        pub fn new(_: f32, _: f32, _: f32, _: f32) -> Vec4 {
            Vec4
        }
    }
}
mod anyhow {
    pub type Result<T> = std::result::Result<T, String>;
    macro_rules! bail {
        ($($arg:tt)*) => { return Err(format!($($arg)*)) };
    }
    pub(crate) use bail;
}
#[allow(dead_code, unused_imports, clippy::all)]
mod resource {
    use super::anyhow;
    include!(env!("RUST_RESOURCE"));
}
use resource::{prepare_rsc7, resource_size_from_flags, resource_version_from_flags};

fn header(system: u32, graphics: u32) -> Vec<u8> {
    [u32::from_le_bytes(*b"RSC7"), 1, system, graphics].iter().flat_map(|w| w.to_le_bytes()).collect()
}

/// Page flags of n pages of 512 bytes, n up to 15.
fn pages(n: u32) -> u32 {
    (n & 1) << 27 | (n >> 1 & 1) << 26 | (n >> 2 & 1) << 25 | (n >> 3 & 1) << 24
}

/// How the two agree on a file.
#[derive(Default, Debug)]
struct Alike {
    both: usize,
    neither: usize,
    behind: usize,
}

impl Alike {
    /// Both open it and find the same sections, or neither does. The Rust inflates all of a stream, the tool as far as
    /// the sections reach: where they are whole and the stream breaks behind them, the tool alone opens the file.
    fn asked(&mut self, file: &[u8]) {
        match (open(file), prepare_rsc7(file)) {
            (Ok(ours), Ok((system, graphics))) => {
                assert!(ours.system == system && ours.graphics == graphics);
                self.both += 1;
            }
            (Err(_), Err(_)) => self.neither += 1,
            (Ok(ours), Err(said)) => {
                let inflated = said
                    .strip_prefix("corrupt deflate stream: inflated ")
                    .unwrap_or_else(|| panic!("{said}"));
                let inflated: usize = inflated.split(' ').next().unwrap().parse().unwrap();
                assert!(inflated >= ours.system.len() + ours.graphics.len(), "{said}");
                self.behind += 1;
            }
            (Err(bad), Ok(_)) => panic!("{bad:?} of {} bytes", file.len()),
        }
    }
}

#[test]
fn sizes_and_versions_of_all_flags() {
    let mut random = Random(7);
    for k in 0..200_000u32 {
        let flags = if k < 32 { 1 << k } else { random.next() as u32 };
        assert_eq!(section_size(flags), resource_size_from_flags(flags) as u64, "{flags:#x}");
    }
    let file = close(&std::fs::read(sample("dock.section")).unwrap());
    let word = |at: usize| u32::from_le_bytes(file[at..at + 4].try_into().unwrap());
    assert_eq!(resource_version_from_flags(word(8), word(12)), 1);
}

#[test]
fn what_is_written_is_read_by_the_rust() {
    let yards =
        ["dock.section", "hall.section", "yard.section"].map(|name| std::fs::read(sample(name)).unwrap());
    let mut alike = Alike::default();
    for section in yards.into_iter().chain([mixed().write().unwrap(), rows(20_000).write().unwrap()]) {
        alike.asked(&close(&section));
    }
    assert_eq!(alike.both, 5);
}

/// Bodies deflated and stored, cut and lengthened, with graphics and without.
#[test]
fn made_by_hand() {
    let (mut random, mut alike) = (Random(11), Alike::default());
    for _ in 0..4000 {
        let (system, graphics) = (random.below(5) as u32, random.below(3) as u32);
        // bytes like a section's, or any
        let mask = [0x38, 0xff][random.below(2)];
        let mut body: Vec<u8> = (0..512 * (system + graphics) as usize + random.below(3) * 100)
            .map(|_| random.next() as u8 & mask)
            .collect();
        body.truncate(body.len() - random.below(2) * random.below(700).min(body.len()));
        let mut file = header(pages(system), pages(graphics) | 1 << 28);
        if random.below(2) == 0 {
            let mut e = flate2::write::DeflateEncoder::new(Vec::new(), flate2::Compression::default());
            e.write_all(&body).unwrap();
            body = e.finish().unwrap();
            // a cut stream, but not one that is cut behind the sections
            if random.below(3) == 0 {
                body.truncate(random.below(body.len() + 1));
            }
        }
        file.extend(body);
        alike.asked(&file);
    }
    assert!(alike.both > 500 && alike.neither > 500, "{alike:?}");
    println!("made by hand: {alike:?}");
}

/// Bytes changed in deflated bodies, of small yards and of one that is longer than deflate's window.
#[test]
fn damaged() {
    let read = |name: &str| std::fs::read(sample(name)).unwrap();
    let sections = [read("hall.section"), mixed().write().unwrap(), read("yard.section")];
    let files = sections.map(|section| close(&section));
    let (mut random, mut alike) = (Random(5), Alike::default());
    for k in 0..20_000 {
        let mut file = files[if k % 20 == 0 { 2 } else { k % 2 }].clone();
        for _ in 0..1 + random.below(3) {
            let at = 16 + random.below(file.len() - 16);
            file[at] ^= 1 << random.below(8);
        }
        alike.asked(&file);
    }
    assert!(alike.both > 500 && alike.neither > 500, "{alike:?}");
    println!("bytes changed: {alike:?}");
}
