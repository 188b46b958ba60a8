//! The table of families as judge/README.md has it, and that it does.
use super::families::FAMILIES;

const PAGE: &str = "judge/README.md";
const HEAD: &str = "| Family | Inputs of a default run; what it must meet, and how often at least |\n|---|---|\n";
/// Kinds in a line, so that lines stay short.
const IN_A_LINE: usize = 3;

/// A line a family with its inputs, and a line for each few kinds.
pub fn page() -> String {
    let mut out = HEAD.to_string();
    for f in FAMILIES {
        out += &format!("| {} | {} |\n", f.name, f.inputs);
        let kinds: Vec<String> = f.must.iter().map(|(kind, least)| format!("{kind}: {}", grouped(*least))).collect();
        for part in kinds.chunks(IN_A_LINE) { out += &format!("| | {} |\n", part.join("; ")); }
    }
    out
}

/// A number with its thousands set apart.
pub fn grouped(n: u64) -> String {
    let digits = n.to_string();
    let parts = digits.as_bytes().rchunks(3).rev().map(|c| std::str::from_utf8(c).expect("digits"));
    parts.collect::<Vec<_>>().join(",")
}

/// Ends where the page has another table.
pub fn held_to_page() {
    let Ok(text) = std::fs::read_to_string(PAGE) else { return };
    if text.contains(&page()) { return; }
    println!("{PAGE} has another table of families than `judge families` prints");
    std::process::exit(1);
}
