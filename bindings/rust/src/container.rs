//! The engine's own container, RSC7: a header of 16 bytes (mark, version, and the page flags of both sections), then
//! the pages of the system section and of the graphics section, deflated or stored. Read as `src/resource.rs` of the
//! Rust reads it (`prepare_rsc7`); written with one page that holds the whole section. docs/DIFFERENCES.md says what
//! is known of it and what isn't. Nothing here is proved.
//!
//! ```
//! use bofrashem::{container, Cell};
//! let cell = Cell::read(&std::fs::read("../../samples/hall.section")?, &[])?;
//! let file = container::close(&cell.write()?);
//! assert!(container::is_container(&file));
//! let opened = container::open(&file)?;
//! assert_eq!(Cell::read(&opened.system, &opened.graphics)?, cell);
//! # Ok::<(), Box<dyn std::error::Error>>(())
//! ```
use flate2::write::DeflateEncoder;
use flate2::{Compression, Decompress, FlushDecompress, Status};
use std::fmt;
use std::io::Write;

/// The mark that a container begins with.
pub const MARK: [u8; 4] = *b"RSC7";
const GEN9: [u8; 4] = *b"RSC8";
const ESCROWED: [u8; 4] = *b"FXAP";
const HEADER: usize = 16;
/// The longest section that reading accepts; one byte more is enough for it to refuse.
pub const SECTION_MOST: usize = 16_777_216;
/// The resource version of path node files.
pub const VERSION: u32 = 1;
/// The least page that is written, 8 KB.
const LEAST_SHIFT: u32 = 4;
/// A body that breaks before so many bytes are inflated is taken as stored, if it is long enough: the Rust does so
/// where its first read fails, which looks as far ahead as deflate's window.
const WINDOW: usize = 32_768;
/// Where the count of system pages stands in a written section: byte 8 of the page block.
const PAGE_COUNT_AT: usize = 112 + 8;

/// Why a container was not opened.
#[derive(Debug, Clone, Copy, PartialEq, Eq)]
pub enum Bad {
    /// Fewer bytes than the header has.
    NoHeader(usize),
    /// Another mark: no container.
    NoMark([u8; 4]),
    /// The mark of the newer generation's container.
    Gen9,
    /// The mark of an encrypted file.
    Escrowed,
    /// The deflate stream breaks: at this byte of the file, after so many bytes of so many.
    #[allow(missing_docs)]
    Corrupt { at: usize, got: usize, want: u64 },
    /// The file ends before the stream does, or the stream before the system section.
    #[allow(missing_docs)]
    Truncated { got: usize, want: u64 },
    /// More bytes than any accepted yard can need.
    TooLong(usize),
}

impl fmt::Display for Bad {
    fn fmt(&self, f: &mut fmt::Formatter<'_>) -> fmt::Result {
        match self {
            Bad::NoHeader(n) => write!(f, "{n} bytes, and the header alone has {HEADER}"),
            Bad::NoMark(mark) => {
                write!(
                    f,
                    "the first four bytes are {}, and RSC7 marks a container",
                    mark.escape_ascii()
                )
            }
            Bad::Gen9 => write!(
                f,
                "the mark is RSC8, the newer generation's container, which is not read"
            ),
            Bad::Escrowed => {
                write!(
                    f,
                    "the mark is FXAP, an encrypted file: it holds no yard that can be read"
                )
            }
            Bad::Corrupt { at, got, want } => {
                write!(f, "the deflate stream breaks at byte {at} of the file, after {got} of {want} bytes")
            }
            Bad::Truncated { got, want } => write!(f, "truncated: {got} of {want} bytes"),
            Bad::TooLong(n) => write!(f, "over {n} bytes"),
        }
    }
}

impl std::error::Error for Bad {}

/// An opened container.
#[derive(Debug, Clone, PartialEq, Eq)]
pub struct Container {
    /// The resource version that its header says.
    pub version: u32,
    /// Whether its pages are stored as they are, not deflated.
    pub stored: bool,
    /// The system section.
    pub system: Vec<u8>,
    /// The graphics section.
    pub graphics: Vec<u8>,
}

/// Whether a file says that it is a container of whatever kind.
pub fn is_container(file: &[u8]) -> bool {
    [MARK, GEN9, ESCROWED]
        .iter()
        .any(|mark| file.starts_with(mark))
}

/// The bytes that a section's page flags stand for: pages of nine sizes, each counted in a field of its own.
pub fn section_size(flags: u32) -> u64 {
    // (lowest bit, width, pages of the base size) of each count
    const COUNTS: [(u32, u32, u64); 9] = [
        (27, 1, 1),
        (26, 1, 2),
        (25, 1, 4),
        (24, 1, 8),
        (17, 7, 16),
        (11, 6, 32),
        (7, 4, 64),
        (5, 2, 128),
        (4, 1, 256),
    ];
    let pages: u64 = COUNTS
        .iter()
        .map(|&(at, width, size)| ((flags >> at) & ((1 << width) - 1)) as u64 * size)
        .sum();
    (0x200 << (flags & 15)) * pages
}

fn word(bytes: &[u8], at: usize) -> u32 {
    u32::from_le_bytes([bytes[at], bytes[at + 1], bytes[at + 2], bytes[at + 3]])
}

/// Opens a container. Of a section over the limit it hands out one byte more than the limit, which reading refuses.
pub fn open(file: &[u8]) -> Result<Container, Bad> {
    if file.starts_with(&GEN9) {
        return Err(Bad::Gen9);
    }
    if file.starts_with(&ESCROWED) {
        return Err(Bad::Escrowed);
    }
    if file.len() < HEADER {
        return Err(Bad::NoHeader(file.len()));
    }
    if !file.starts_with(&MARK) {
        return Err(Bad::NoMark([file[0], file[1], file[2], file[3]]));
    }
    let (system, graphics) = (section_size(word(file, 8)), section_size(word(file, 12)));
    let (stored, mut bytes) = inflated(&file[HEADER..], system, graphics)?;
    let most = SECTION_MOST as u64 + 1;
    let cut = system.min(most) as usize;
    if bytes.len() < cut {
        return Err(Bad::Truncated {
            got: bytes.len(),
            want: system,
        });
    }
    let mut rest = bytes.split_off(cut);
    // of a system section over the limit nothing more is asked
    rest.truncate(if system > SECTION_MOST as u64 {
        0
    } else {
        graphics.min(most) as usize
    });
    Ok(Container {
        version: word(file, 4),
        stored,
        system: bytes,
        graphics: rest,
    })
}

/// The body's bytes, as far as the sections reach; a body that never looks like deflate is taken as stored.
fn inflated(body: &[u8], system: u64, graphics: u64) -> Result<(bool, Vec<u8>), Bad> {
    let most = SECTION_MOST as u64 + 1;
    let wanted = (system.min(most) + graphics.min(most)) as usize;
    let mut inflate = Decompress::new(false);
    let mut out: Vec<u8> = Vec::new();
    loop {
        let (read, got) = (inflate.total_in() as usize, out.len());
        if got >= wanted {
            return Ok((false, out));
        }
        out.reserve((wanted - got).min(1 << 20));
        let status = inflate.decompress_vec(&body[read..], &mut out, FlushDecompress::None);
        let stuck = inflate.total_in() as usize == read && out.len() == got;
        match status {
            Err(_) => {
                let (at, early) = (
                    inflate.total_in() as usize,
                    out.len() < WINDOW && read < WINDOW,
                );
                if out.is_empty() || (early && body.len() as u64 >= system) {
                    break;
                }
                let at = HEADER + at;
                return Err(Bad::Corrupt {
                    at,
                    got: out.len(),
                    want: system + graphics,
                });
            }
            Ok(Status::StreamEnd) if out.is_empty() => break,
            Ok(Status::StreamEnd) => return Ok((false, out)),
            // no more of the stream is there
            Ok(_) if stuck && out.is_empty() => break,
            Ok(_) if stuck => {
                return Err(Bad::Truncated {
                    got: out.len(),
                    want: system + graphics,
                })
            }
            Ok(_) => {}
        }
    }
    Ok((true, body[..wanted.min(body.len())].to_vec()))
}

/// The page flags of one page of at least so many bytes, and how many it has.
fn one_page(length: usize) -> (u32, usize) {
    // the bit of one page of 1, 2, 4 .. 256 times the base size
    const BIT: [u32; 9] = [27, 26, 25, 24, 17, 11, 7, 5, 4];
    let page = length.next_power_of_two().max(0x200 << LEAST_SHIFT);
    let doublings = page.trailing_zeros() - (0x200_u32 << LEAST_SHIFT).trailing_zeros();
    let k = doublings.min(8);
    (1 << BIT[k as usize] | (LEAST_SHIFT + doublings - k), page)
}

/// The container of a written section: one system page, no graphics page, version 1, deflated. The page block's count
/// of system pages is set to that one page.
pub fn close(section: &[u8]) -> Vec<u8> {
    let (flags, page) = one_page(section.len());
    let mut pages = section.to_vec();
    pages.resize(page, 0);
    pages[PAGE_COUNT_AT] = 1;
    // the version's upper half stands over the system flags, its lower half over the graphics flags
    let words = [
        u32::from_le_bytes(MARK),
        VERSION,
        flags | (VERSION >> 4) << 28,
        (VERSION & 15) << 28,
    ];
    let mut file: Vec<u8> = words.iter().flat_map(|w| w.to_le_bytes()).collect();
    let mut deflate = DeflateEncoder::new(&mut file, Compression::best());
    // a Vec takes every byte
    let _ = deflate.write_all(&pages);
    let _ = deflate.finish();
    file
}

#[cfg(test)]
mod tests {
    use super::*;

    #[test]
    fn one_page_holds_a_section_of_any_length() {
        for length in (0..=SECTION_MOST)
            .step_by(4093)
            .chain((0..=24).flat_map(|k| [(1 << k) - 1, 1 << k, (1 << k) + 1]))
        {
            if length > SECTION_MOST {
                continue;
            }
            let (flags, page) = one_page(length);
            assert_eq!(section_size(flags), page as u64, "{length}");
            assert!(page >= length && flags >> 28 == 0);
            assert_eq!((flags & 0x0fff_fff0).count_ones(), 1);
        }
    }

    #[test]
    fn flags_as_the_rust_counts_them() {
        assert_eq!(section_size(0), 0);
        assert_eq!(section_size(1 << 28), 0);
        assert_eq!(section_size(1 << 27), 0x200);
        assert_eq!(section_size(0x7f << 17 | 4), 0x2000 * 16 * 127);
        assert_eq!(
            section_size(0x0fff_ffff),
            (0x200 << 15) * (1 + 2 + 4 + 8 + 127 * 16 + 63 * 32 + 15 * 64 + 3 * 128 + 256)
        );
    }
}
