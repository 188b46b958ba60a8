//! Section 6: file names, as bytes.
use super::grid;
use super::Answer;

pub fn cell_file_name(cx: u32, cy: u32) -> Answer<Vec<u8>> {
    Ok(format!("nodes{}.ynd", grid::area_id(cx, cy)?).into_bytes())
}

/// What follows the last slash, in any case, is "nodes", a number, ".ynd".
pub fn area_id_from_file_name(name: &[u8]) -> Option<u32> {
    let base: Vec<u8> = name.rsplit(|&c| c == b'/' || c == b'\\').next()?.iter().map(u8::to_ascii_lowercase).collect();
    number(base.strip_prefix(b"nodes")?.strip_suffix(b".ynd")?)
}

/// Rust's u32 parse: leading zeros and one + are accepted, no digits or overflow give none.
fn number(text: &[u8]) -> Option<u32> {
    let digits = text.strip_prefix(b"+").unwrap_or(text);
    if digits.is_empty() { return None; }
    let mut n: u64 = 0;
    for &c in digits {
        if !c.is_ascii_digit() { return None; }
        n = n * 10 + (c - b'0') as u64;
        if n > u32::MAX as u64 { return None; }
    }
    Some(n as u32)
}
