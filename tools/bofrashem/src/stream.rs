//! Answers that are said bit by bit, as those of many files are.
use crate::fault::{Fault, Trouble};
use std::io::{self, Write};
use std::path::Path;

pub struct Stream<'a> {
    output: &'a mut dyn Write,
    held: String,
    failed: Option<io::Error>,
    pub json: bool,
    /// Whether people watch.
    pub terminal: bool,
}

impl<'a> Stream<'a> {
    pub fn new(output: &'a mut dyn Write, json: bool, terminal: bool) -> Stream<'a> {
        Stream { output, held: String::new(), failed: None, json, terminal }
    }

    pub fn say(&mut self, words: &str) {
        self.held += words;
    }

    /// How much was said and not handed over.
    pub fn holds(&self) -> usize {
        self.held.len()
    }

    /// Hands over what was said. What can't be handed over is remembered, and nothing more is tried.
    pub fn flush(&mut self) {
        let held = std::mem::take(&mut self.held);
        if self.failed.is_none() {
            self.failed = self.output.write_all(held.as_bytes()).and_then(|()| self.output.flush()).err();
        }
    }

    pub fn is_closed(&self) -> bool {
        self.failed.is_some()
    }

    /// Hands over the rest. A reader that closed its pipe is no trouble.
    pub fn end(&mut self) -> Result<(), Trouble> {
        self.flush();
        match self.failed.take() {
            Some(e) if e.kind() != io::ErrorKind::BrokenPipe => {
                Err(Fault::Unwritten(e).of(Path::new("standard output")))
            }
            _ => Ok(()),
        }
    }
}
