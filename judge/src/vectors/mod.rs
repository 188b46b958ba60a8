//! Writes the vectors file: a sample of the Rust's answers, replayed by the program `vectors` where no Rust is at
//! hand. A record is a kind (one byte), the length of what follows (two bytes), then the input and the answer. Numbers
//! are little-endian. The file is the same each time it is made.
mod cells;
mod edits;
mod junctions;
mod large;
mod numbers;
mod paths;
mod reach;
mod rounds;
mod sets;
mod walks;

use std::fs;

/// What the file may have at most: the program reads any length, and a checkout should stay small.
const MOST: usize = 81_920;

#[derive(Default)]
pub struct Records {
    bytes: Vec<u8>,
    count: usize,
}

/// Records of an earlier file that today's seeds no longer give: what was held once stays held.
const KEPT: &[u8] = include_bytes!("kept.bin");

impl Records {
    fn keep(&mut self, file: &[u8]) {
        let mut at = 0;
        while at < file.len() {
            at += 3 + usize::from(u16::from_le_bytes([file[at + 1], file[at + 2]]));
            self.count += 1;
        }
        self.bytes.extend(file);
    }

    pub fn add(&mut self, kind: u8, fields: &[Field]) {
        let mut body = Vec::new();
        for f in fields { f.put(&mut body); }
        self.bytes.push(kind);
        self.bytes.extend((body.len() as u16).to_le_bytes());
        self.bytes.extend(body);
        self.count += 1;
    }
}

pub enum Field<'a> { U8(u8), U16(u16), I16(i16), U32(u32), Bytes(&'a [u8]) }

impl Field<'_> {
    fn put(&self, to: &mut Vec<u8>) {
        match self {
            Field::U8(n) => to.push(*n),
            Field::U16(n) => to.extend(n.to_le_bytes()),
            Field::I16(n) => to.extend(n.to_le_bytes()),
            Field::U32(n) => to.extend(n.to_le_bytes()),
            Field::Bytes(b) => to.extend(*b),
        }
    }
}

/// Writes the file, and beside it, in `stdout`, what the program is to print.
pub fn write(path: &str) {
    let mut records = Records::default();
    numbers::add(&mut records);
    large::add(&mut records);
    walks::add(&mut records);
    junctions::add(&mut records);
    edits::add(&mut records);
    reach::add(&mut records);
    rounds::add(&mut records);
    paths::add(&mut records);
    cells::add(&mut records);
    // behind the random files of kind 9, so that it takes no room from them
    sets::add(&mut records);
    records.keep(KEPT);
    rounds::versions(&mut records);
    cells::tags(&mut records);
    assert!(records.bytes.len() <= MOST, "{} bytes of vectors", records.bytes.len());
    fs::write(path, &records.bytes).expect("the vectors file");
    let said = format!("{} of {} vectors agree\n", records.count, records.count);
    fs::write(std::path::Path::new(path).with_file_name("stdout"), &said).expect("what the program prints");
    println!("{} vectors in {} bytes", records.count, records.bytes.len());
}
