//! Text for pictures.
pub use std::fmt::Write;

/// `write!` to a String, which takes every byte.
macro_rules! put {
    ($out:expr, $($arg:tt)*) => { let _ = write!($out, $($arg)*); };
}
pub(super) use put;

/// What is in every picture's head; a page of HTML has the same rules.
pub const STYLE: &str = include_str!("picture.css");

/// Text between tags or in quotes. What XML can't hold becomes a mark.
pub fn escaped(text: &str) -> String {
    let mut out = String::new();
    for c in text.chars() {
        match c {
            '&' => out += "&amp;",
            '<' => out += "&lt;",
            '>' => out += "&gt;",
            '"' => out += "&quot;",
            '\0'..='\x1f' | '\x7f'..='\u{9f}' | '\u{fffe}' | '\u{ffff}' => out.push('\u{fffd}'),
            c => out.push(c),
        }
    }
    out
}

/// A title that fits over a picture: of a long one the end.
pub fn shortened(title: &str) -> String {
    let n = title.chars().count();
    if n <= 90 {
        title.into()
    } else {
        format!("…{}", title.chars().skip(n - 89).collect::<String>())
    }
}
