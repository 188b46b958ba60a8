//! Files in: yards in either form, rounds, standard input.
use crate::cli;
use crate::container::{self, Bad, SECTION_MOST};
use crate::fault::{shown, Fault, Here, Trouble};
use crate::why;
use bofrashem::{Cell, Refusal, VersionedRound, Walk};
use std::fs::File;
use std::io::Read;
use std::path::{Path, PathBuf};
use std::sync::Mutex;

/// No yard that is accepted needs a longer file: two sections, and what deflate may add to them.
const FILE_MOST: usize = 2 * SECTION_MOST + (1 << 20);
/// A longer round file is refused whatever it holds.
const ROUND_MOST: usize = 1 << 17;

/// Standard input, which a command reads once, whichever thread asks for it.
pub struct Input<'a> {
    from: Mutex<Option<&'a mut (dyn Read + Send)>>,
}

/// A yard's bytes, as they came.
pub struct Sections {
    pub file: PathBuf,
    pub system: Vec<u8>,
    pub graphics: Vec<u8>,
    /// The container's version, and whether its body is stored.
    pub container: Option<(u32, bool)>,
}

/// A yard that was read.
pub struct Opened {
    pub sections: Sections,
    pub cell: Cell,
}

impl<'a> Input<'a> {
    pub fn new(from: &'a mut (dyn Read + Send)) -> Input<'a> {
        Input { from: Mutex::new(Some(from)) }
    }

    /// A file's bytes, at most so many and one more.
    fn bytes(&self, file: &Path, most: usize) -> Result<Vec<u8>, Trouble> {
        let mut bytes = Vec::new();
        let read = if file == Path::new("-") {
            let from = self.from.lock().map_or(None, |mut from| from.take());
            let once = || Fault::Usage("standard input (-) can be read once".into()).plain();
            from.ok_or_else(once)?.take(most as u64 + 1).read_to_end(&mut bytes)
        } else {
            File::open(file).and_then(|f| f.take(most as u64 + 1).read_to_end(&mut bytes))
        };
        match read {
            Ok(_) => Ok(bytes),
            Err(e) => Err(Fault::Unread(e).of(file)),
        }
    }

    /// The sections of a yard, from a container or from a file or two.
    pub fn sections(&self, file: &Path, graphics: Option<&Path>) -> Result<Sections, Trouble> {
        let bytes = self.bytes(file, FILE_MOST)?;
        if !container::is_container(&bytes) {
            let graphics = graphics.map_or(Ok(Vec::new()), |g| self.bytes(g, SECTION_MOST))?;
            return Ok(Sections { file: file.into(), system: bytes, graphics, container: None });
        }
        if graphics.is_some() {
            return Err(Fault::Usage(
                "a container has its own graphics section: --graphics is for two files".into(),
            )
            .of(file));
        }
        let long = bytes.len() > FILE_MOST;
        let opened = if long { Err(Bad::TooLong(FILE_MOST)) } else { container::open(&bytes) };
        let c = opened.map_err(|bad| Fault::Container(bad).of(file))?;
        Ok(Sections {
            file: file.into(),
            system: c.system,
            graphics: c.graphics,
            container: Some((c.version, c.stored)),
        })
    }

    pub fn open(&self, yard: &cli::Yard) -> Result<Opened, Trouble> {
        let sections = self.sections(&yard.file, yard.graphics.as_deref())?;
        sections.read()
    }

    /// A round file of either version, and its bytes.
    pub fn round(&self, file: &Path) -> Result<(VersionedRound, Vec<u8>), Trouble> {
        let bytes = self.bytes(file, ROUND_MOST)?;
        let round = VersionedRound::from_bytes(&bytes).map_err(|r| why::round_file(r, &bytes).of(file))?;
        Ok((round, bytes))
    }

    /// A round file's bytes alone.
    pub fn round_bytes(&self, file: &Path) -> Result<Vec<u8>, Trouble> {
        self.bytes(file, ROUND_MOST)
    }
}

impl Sections {
    pub fn read(self) -> Result<Opened, Trouble> {
        match Cell::read(&self.system, &self.graphics) {
            Ok(cell) => Ok(Opened { sections: self, cell }),
            Err(r) => Err(why::unread(r, &self.system, &self.graphics).of(&self.file)),
        }
    }
}

impl Opened {
    /// The place of a node that the command line names, by place or by number.
    pub fn place(&self, named: usize, by_number: bool) -> Result<usize, Trouble> {
        if !by_number {
            return Ok(named);
        }
        let found = u16::try_from(named).ok().and_then(|n| self.cell.node(n));
        found.ok_or_else(|| why::no_number(named, &self.cell).of(&self.sections.file))
    }

    /// The walk that a round, of this file, is.
    pub fn follow(&self, round: &VersionedRound, file: &Path) -> Result<Walk, Trouble> {
        let refused = |r| why::round(r, round, &self.cell, &shown(&self.sections.file)).of(file);
        self.cell.follow_versioned_indexed(round).map_err(refused)
    }

    pub fn refused(&self, r: Refusal) -> Trouble {
        Fault::Refused(r, Here::AsCause).of(&self.sections.file)
    }

    /// A refused walk or way over places that the command line names.
    pub fn no_walk(&self, r: Refusal, places: &[usize]) -> Trouble {
        why::walk(r, &self.cell, places).of(&self.sections.file)
    }
}
