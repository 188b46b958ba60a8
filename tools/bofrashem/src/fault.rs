//! What can go wrong, in words and in JSON.
use crate::container::Bad;
use crate::kinds::Kind;
use bofrashem::Refusal;
use serde_json::{json, Value};
use std::io;
use std::path::Path;

/// Exit statuses beside 0; docs/TOOL.md has the table.
pub const REFUSED: i32 = 1;
pub const USAGE: i32 = 2;
pub const UNREAD: i32 = 3;

/// What was wrong here, beside a refusal's number and place.
#[derive(Debug)]
pub enum Here {
    /// The library's words say it.
    AsCause,
    /// They do, and this says of which part, with its numbers.
    At(String),
    /// The library's words list several causes: this is the one.
    Said(String),
}

/// Why a command ended without its answer.
#[derive(Debug)]
pub enum Fault {
    /// A call refused the input.
    Refused(Refusal, Here),
    /// The container could not be opened.
    Container(Bad),
    /// The system did not hand over a file.
    Unread(io::Error),
    /// The system did not take a file.
    Unwritten(io::Error),
    /// A file of another kind stands where one would be written.
    Kept { is: Kind, by: Kind },
    /// Input that a command can't take, for a cause without a number.
    BadInput(String),
    /// A program that the tool leans on is missing, or failed.
    Program(String),
    /// The command line names something that is not there.
    Usage(String),
}

/// A fault, and the file that it is about.
#[derive(Debug)]
pub struct Trouble {
    pub file: Option<String>,
    pub fault: Fault,
}

impl Fault {
    /// A refusal whose cause is said in the tool's words.
    pub fn said(r: Refusal, words: String) -> Fault {
        Fault::Refused(r, Here::Said(words))
    }

    pub fn of(self, file: &Path) -> Trouble {
        Trouble { file: Some(shown(file)), fault: self }
    }

    pub fn plain(self) -> Trouble {
        Trouble { file: None, fault: self }
    }

    fn kind(&self) -> &'static str {
        match self {
            Fault::Refused(..) => "refused",
            Fault::Container(_) => "container",
            Fault::Unread(_) => "unread",
            Fault::Unwritten(_) | Fault::Kept { .. } => "unwritten",
            Fault::BadInput(_) => "bad-input",
            Fault::Program(_) => "program",
            Fault::Usage(_) => "usage",
        }
    }

    /// The words, without number and place.
    fn words(&self) -> String {
        match self {
            Fault::Refused(_, Here::Said(words)) => words.clone(),
            Fault::Refused(r, _) => r.text(),
            Fault::Container(bad) => bad.to_string(),
            Fault::Unread(e) => format!("can't be read: {e}"),
            Fault::Unwritten(e) => format!("can't be written: {e}"),
            Fault::Kept { is, by } => format!("is {is}, and is not overwritten by {by}; --force does"),
            Fault::BadInput(said) | Fault::Program(said) | Fault::Usage(said) => said.clone(),
        }
    }

    /// What the words are about, where they don't say it.
    fn at(&self) -> Option<String> {
        match self {
            Fault::Refused(_, Here::At(at)) => Some(at.clone()),
            Fault::Refused(_, Here::Said(_)) => None,
            Fault::Refused(r, _) => place_words(*r),
            _ => None,
        }
    }

    pub fn text(&self) -> String {
        match self {
            Fault::Refused(r, _) => {
                let at = self.at().map_or(String::new(), |at| format!(" ({at})"));
                format!("refused {} {}: {}{at}", r.number(), r.place(), self.words())
            }
            Fault::Container(bad) => format!("container: {bad}"),
            other => other.words(),
        }
    }

    pub fn value(&self) -> Value {
        let mut v = json!({ "kind": self.kind(), "text": self.words() });
        if let Fault::Refused(r, _) = self {
            (v["number"], v["place"], v["at"]) = (json!(r.number()), json!(r.place()), json!(self.at()));
        }
        v
    }

    /// The exit status of a command that it ends.
    pub fn status(&self) -> i32 {
        match self {
            Fault::Usage(_) => USAGE,
            Fault::Unread(_) | Fault::Unwritten(_) | Fault::Kept { .. } | Fault::Program(_) => UNREAD,
            Fault::Refused(..) | Fault::Container(_) | Fault::BadInput(_) => REFUSED,
        }
    }
}

impl Trouble {
    /// The file and the words.
    pub fn line(&self) -> String {
        self.file.as_ref().map_or(String::new(), |file| format!("{file}: ")) + &self.fault.text()
    }

    /// The same, as standard error has it.
    pub fn text(&self) -> String {
        format!("bofrashem: {}", self.line())
    }

    /// The file that it is about, where that is not the yard's first: its graphics section.
    pub fn other(&self, yard: &Path) -> Option<&str> {
        self.file.as_deref().filter(|file| *file != shown(yard))
    }

    /// The words for a line that begins with a yard's name.
    pub fn beside(&self, yard: &Path) -> String {
        let text = self.fault.text();
        self.other(yard).map_or(text.clone(), |other| format!("{other}: {text}"))
    }

    pub fn value(&self) -> Value {
        let mut error = self.fault.value();
        error["file"] = json!(self.file);
        json!({ "error": error })
    }
}

/// A file's name for people.
pub fn shown(file: &Path) -> String {
    if file == Path::new("-") {
        "standard input".into()
    } else {
        file.display().to_string()
    }
}

pub const LISTS: [&str; 11] = [
    "the nodes",
    "the links",
    "the junctions",
    "the heightmap",
    "the refs",
    "the section",
    "the scratch",
    "the new places",
    "the list or round",
    "the path's scratch",
    "the members",
];

/// What the place of a refusal is, where it names one.
fn place_words(r: Refusal) -> Option<String> {
    let listed = |p: usize| LISTS.get(p).map(|words| words.to_string());
    match r {
        Refusal::SectionTooLong(p) => Some(["the system section", "the graphics section"][p.min(1)].into()),
        Refusal::BadArray(p) | Refusal::LentTooShort(p) => listed(p),
        Refusal::TooMany(p) => Some(["nodes", "junctions"][p.min(1)].into()),
        Refusal::BadLinkRange(p) | Refusal::OverThirtyOneLinks(p) | Refusal::LinksBeforeNode(p) => {
            Some(format!("node {p}"))
        }
        Refusal::BadHeightmapRange(p) | Refusal::HeightsBeforeJunction(p) => Some(format!("junction {p}")),
        _ => None,
    }
}
