//! What kind of file some bytes are, told by how they begin: a yard is not overwritten by its picture, and what is no
//! yard is called that.
use crate::container;
use std::fmt;

#[derive(Clone, Copy, PartialEq, Eq, Debug)]
pub enum Kind {
    /// A system section, or a container.
    Yard,
    Round,
    Svg,
    Html,
    Png,
    Pdf,
    Text,
    Other,
}

/// Kinds told by their first bytes; of text kinds, what stands in their beginning is looked at.
const MARKS: [(&[u8], Kind); 3] = [(b"RND", Kind::Round), (b"\x89PNG", Kind::Png), (b"%PDF-", Kind::Pdf)];
/// How many bytes are looked at.
pub const LOOKED_AT: usize = 4096;
/// Where the addresses of a section's arrays stand in its root, of 112 bytes.
const ADDRESSES: [usize; 5] = [16, 40, 56, 64, 80];
const ROOT: usize = 112;

impl Kind {
    /// The kind of a file that begins with these bytes.
    pub fn of(bytes: &[u8]) -> Kind {
        let head = &bytes[..bytes.len().min(LOOKED_AT)];
        let marked = MARKS.iter().find(|(mark, _)| head.starts_with(mark));
        match marked {
            Some((_, kind)) => *kind,
            None if container::is_container(head) || is_root(head) => Kind::Yard,
            None => text_kind(head),
        }
    }
}

impl fmt::Display for Kind {
    fn fmt(&self, f: &mut fmt::Formatter<'_>) -> fmt::Result {
        f.write_str(match self {
            Kind::Yard => "a yard",
            Kind::Round => "a round file",
            Kind::Svg => "a picture (SVG)",
            Kind::Html => "a page (HTML)",
            Kind::Png => "a picture (PNG)",
            Kind::Pdf => "a PDF",
            Kind::Text => "text",
            Kind::Other => "a file of another kind",
        })
    }
}

/// Whether bytes begin like a system section: each array's address, but for one at most that may be damaged, is 0 or
/// lies in the system or graphics section. Of a section that is cut in its root, the addresses that are there are asked.
fn is_root(head: &[u8]) -> bool {
    let root = &head[..head.len().min(ROOT)];
    let like = |at: usize| match root.get(at..at + 8) {
        Some(word) => {
            let address = u64::from_le_bytes(word.try_into().unwrap_or_default());
            address == 0 || matches!(address >> 28, 5 | 6)
        }
        None => true,
    };
    // the first address alone is not enough to go by
    root.len() >= ADDRESSES[1] + 8 && ADDRESSES.iter().filter(|&&at| !like(at)).count() <= 1
}

fn text_kind(head: &[u8]) -> Kind {
    let end = match std::str::from_utf8(head) {
        Ok(_) => head.len(),
        // a character that the look ends within
        Err(e) if e.error_len().is_none() => e.valid_up_to(),
        Err(_) => return Kind::Other,
    };
    let text =
        String::from_utf8_lossy(&head[..end]).trim_start_matches('\u{feff}').trim_start().to_lowercase();
    let control = |c: char| c.is_control() && !c.is_whitespace();
    if text.is_empty() || text.contains(control) {
        Kind::Other
    } else if text.starts_with("<!doctype html") || text.starts_with("<html") {
        Kind::Html
    } else if text.starts_with("<svg") || (text.starts_with("<?xml") && text.contains("<svg")) {
        Kind::Svg
    } else {
        Kind::Text
    }
}

#[cfg(test)]
mod tests {
    use super::*;

    #[test]
    fn kinds_by_their_beginning() {
        let root = bofrashem::Cell::new().write().unwrap();
        let cases: [(&[u8], Kind); 13] = [
            (b"RSC7\x01", Kind::Yard),
            (&root, Kind::Yard),
            (&root[..60], Kind::Yard),
            (b"RND\x01\0", Kind::Round),
            (b"<svg xmlns=", Kind::Svg),
            (b"<?xml version=\"1.0\"?>\n<svg", Kind::Svg),
            (b"\xef\xbb\xbf <!DOCTYPE html>", Kind::Html),
            (b"\x89PNG\r\n", Kind::Png),
            (b"%PDF-1.5", Kind::Pdf),
            (b"#!/bin/sh\necho \xc3\xa4\n", Kind::Text),
            (b"<?xml version=\"1.0\"?><a/>", Kind::Text),
            (b"\x7fELF\x02\x01\x01\0", Kind::Other),
            (&[0xff; 200], Kind::Other),
        ];
        for (bytes, kind) in cases {
            assert_eq!(Kind::of(bytes), kind, "{:?}", &bytes[..bytes.len().min(20)]);
        }
        // a character of two bytes, of which the look sees one
        let mut long = vec![b'a'; LOOKED_AT - 1];
        long.extend("ä".as_bytes());
        assert_eq!(Kind::of(&long), Kind::Text);
    }
}
