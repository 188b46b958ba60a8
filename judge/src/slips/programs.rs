//! Wrong programs: what they would have said.
use super::{any, on, Slip};
use crate::model::records::COUNT_AT;
use crate::model::sections::le;

pub fn said(program: &str, input: &[u8], right: String) -> String {
    if !any() { return right; }
    let words: Vec<&str> = right.split(' ').collect();
    match program {
        "cellsum" if on(Slip::FileLinks) && words[0] == "nodes" && !input.is_empty() => {
            let links = le(input, COUNT_AT[1], 4).to_string();
            format!("{} {} {} {links} {}", words[0], words[1], words[2], words[4..].join(" "))
        }
        "cellsum" if on(Slip::TooLong) && input.len() == 65_536 => "too long\n".into(),
        "pairs" if on(Slip::PairsGrid) => right.replace("grid of x -1/8192: 16", "grid of x -1/8192: 15"),
        _ => right,
    }
}
