//! Files out: every file that a command writes goes through here. The bytes go to a temporary file beside it, are
//! synced, and take its name by a rename, so that a full disk, a kill or a loss of power leaves the old file or the new
//! one, whole. A file of another kind is overwritten with --force alone.
use crate::fault::{Fault, Trouble};
use crate::kinds::{Kind, LOOKED_AT};
use std::fs::{self, File, Metadata, OpenOptions};
use std::io::{self, Read, Write};
use std::os::unix::fs::{fchown, MetadataExt};
use std::path::{Path, PathBuf};

/// Where a command writes, and what.
#[derive(Clone, Copy)]
pub struct Out<'a> {
    pub file: &'a Path,
    pub kind: Kind,
    /// Whether a file of another kind may be overwritten.
    pub force: bool,
}

impl Out<'_> {
    pub fn is_standard_output(&self) -> bool {
        self.file == Path::new("-")
    }

    /// Whether the file may be written, asked before the work: a file of another kind may not, without --force.
    pub fn allowed(&self) -> Result<(), Trouble> {
        if !self.is_standard_output() {
            let file = self.target()?;
            self.kept(&file)?;
        }
        Ok(())
    }

    pub fn write(&self, bytes: &[u8]) -> Result<(), Trouble> {
        let file = self.target()?;
        let old = self.kept(&file)?;
        let written = match old {
            Some(old) if !old.is_file() => {
                // a device, a pipe or a folder: nothing of it is lost, or nothing can be written
                OpenOptions::new().write(true).open(&file).and_then(|mut f| f.write_all(bytes))
            }
            old => replace(&file, bytes, old.as_ref()),
        };
        written.map_err(|e| self.unwritten(e))
    }

    fn unwritten(&self, e: io::Error) -> Trouble {
        Fault::Unwritten(e).of(self.file)
    }

    /// The file itself: a link's file is written, not the link.
    fn target(&self) -> Result<PathBuf, Trouble> {
        let is_link = fs::symlink_metadata(self.file).is_ok_and(|m| m.is_symlink());
        let file = if is_link { fs::canonicalize(self.file) } else { Ok(self.file.into()) };
        file.map_err(|e| self.unwritten(e))
    }

    /// What is there, if anything is, and may be overwritten.
    fn kept(&self, file: &Path) -> Result<Option<Metadata>, Trouble> {
        let Ok(old) = fs::metadata(file) else { return Ok(None) };
        if old.is_file() {
            let held = begins(file, &old).map_err(|e| self.unwritten(e))?;
            let other = held.map(|head| Kind::of(&head)).filter(|kind| *kind != self.kind && !self.force);
            if let Some(is) = other {
                return Err(Fault::Kept { is, by: self.kind }.of(self.file));
            }
        }
        Ok(Some(old))
    }
}

/// How a file begins that could be overwritten; nothing of an empty one, which holds nothing to lose. A file that may
/// not be written is an error, though its folder would let it be replaced.
fn begins(file: &Path, old: &Metadata) -> io::Result<Option<Vec<u8>>> {
    OpenOptions::new().write(true).open(file)?;
    if old.len() == 0 {
        return Ok(None);
    }
    let mut head = Vec::new();
    File::open(file)?.take(LOOKED_AT as u64).read_to_end(&mut head)?;
    Ok(Some(head))
}

/// A temporary file, which goes when it is dropped before it got its name.
struct Temporary {
    file: File,
    path: Option<PathBuf>,
}

impl Temporary {
    /// Beside a file, with the permissions that a new file gets.
    fn beside(file: &Path) -> io::Result<Temporary> {
        let mut n = 0u32;
        loop {
            let path = file.with_file_name(format!(".bofrashem-{}-{n}.part", std::process::id()));
            match OpenOptions::new().write(true).create_new(true).open(&path) {
                Err(e) if e.kind() == io::ErrorKind::AlreadyExists => n += 1,
                Err(e) => return Err(e),
                Ok(file) => return Ok(Temporary { file, path: Some(path) }),
            }
        }
    }

    /// Gives it a file's name.
    fn named(mut self, file: &Path) -> io::Result<()> {
        if let Some(path) = &self.path {
            fs::rename(path, file)?;
        }
        self.path = None;
        Ok(())
    }
}

impl Drop for Temporary {
    fn drop(&mut self) {
        if let Some(path) = &self.path {
            let _ = fs::remove_file(path);
        }
    }
}

fn replace(file: &Path, bytes: &[u8], old: Option<&Metadata>) -> io::Result<()> {
    let mut new = Temporary::beside(file)?;
    new.file.write_all(bytes)?;
    if let Some(old) = old {
        // whose it was it stays, as far as this process may say so
        let _ = fchown(&new.file, Some(old.uid()), Some(old.gid()));
        new.file.set_permissions(old.permissions())?;
    }
    new.file.sync_all()?;
    new.named(file)?;
    // the name too is on the disk then; where a folder can't be synced the file is whole all the same
    let folder = file.parent().filter(|folder| !folder.as_os_str().is_empty()).unwrap_or(Path::new("."));
    let _ = File::open(folder).and_then(|folder| folder.sync_all());
    Ok(())
}
