//! File names over small alphabets, each once: `nodes`, a middle, `.ynd`; every row of a few parts; every name of up
//! to twelve of four letters.
use super::rng::Rng;

const MIDDLE: &[u8] = b"0149+-/\\.n";
const PARTS: [&str; 15] = ["nodes", "NODES", "node", ".ynd", ".Ynd", "ynd", "/", "\\", "0", "1", "4294967295",
    "4294967296", "+", "-", "é"];

/// How many names there are with a middle of at most `most` letters.
pub fn middles(most: u32) -> u64 { (0..=most).map(|n| (MIDDLE.len() as u64).pow(n)).sum() }

/// The `i`-th such name.
pub fn with_middle(mut i: u64) -> String {
    let letters = MIDDLE.len() as u64;
    let mut length = 0;
    while i >= letters.pow(length) { i -= letters.pow(length); length += 1; }
    let mut middle = String::new();
    for _ in 0..length { middle.push(MIDDLE[(i % letters) as usize] as char); i /= letters; }
    format!("nodes{middle}.ynd")
}

/// The letters of the short alphabet; of these every name of up to twelve letters is made.
const LETTERS: [&str; 4] = ["nodes", ".ynd", "1", "/"];

fn rows_of(parts: &[&str], most: u32) -> u64 { (0..=most).map(|n| (parts.len() as u64).pow(n)).sum() }

fn row_of(parts: &[&str], mut i: u64) -> String {
    let many = parts.len() as u64;
    let mut length = 0;
    while i >= many.pow(length) { i -= many.pow(length); length += 1; }
    let mut out = String::new();
    for _ in 0..length { out += parts[(i % many) as usize]; i /= many; }
    out
}

pub fn rows(most: u32) -> u64 { rows_of(&PARTS, most) }

/// The `i`-th row of parts.
pub fn row(i: u64) -> String { row_of(&PARTS, i) }

pub fn spelled(most: u32) -> u64 { rows_of(&LETTERS, most) }

/// The `i`-th name over the short alphabet.
pub fn spelling(i: u64) -> String { row_of(&LETTERS, i) }

/// Any bytes, text or not: most are a name with a letter changed.
pub fn bytes(r: &mut Rng) -> Vec<u8> {
    let number = r.pick(&["0", "489", "1177", "65535", "65536", "4294967295", "4294967296", "00000000000000000001",
        "+7", "99999999999999999999"]);
    let front = r.pick(&["", "", "a/b\\", "/", "x:\\nodes1.ynd/", "ä/"]);
    let mut name = format!("{front}nodes{number}.ynd").into_bytes();
    for _ in 0..r.below(3) {
        let at = r.below(name.len() + 1);
        match r.below(4) {
            0 => name.insert(at, r.u8()),
            1 if at < name.len() => { name.remove(at); }
            2 if at < name.len() => name[at] = name[at].to_ascii_uppercase(),
            3 if at < name.len() => name[at] = r.pick(&[b'0', b'9', b'+', b'-', b' ', b'/', b'\\', 0, 0x80, 0xFF]),
            _ => {}
        }
    }
    name
}
