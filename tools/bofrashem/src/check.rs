//! `check`: one line for each yard that is refused or unsound.
use crate::cli;
use crate::fault::{shown, Trouble, REFUSED, UNREAD};
use crate::input::Input;
use crate::stream::Stream;
use crate::{many, sound, Told};
use serde_json::{json, Value};
use std::path::Path;

/// One file's verdict.
enum Verdict {
    Good,
    Unsound(Option<sound::Reason>),
    Bad(Trouble),
}

impl Verdict {
    fn line(&self, file: &Path) -> Option<String> {
        let said = match self {
            Verdict::Good => return None,
            Verdict::Unsound(Some(reason)) => format!("unsound: {reason}"),
            Verdict::Unsound(None) => "unsound".into(),
            Verdict::Bad(trouble) => trouble.beside(file),
        };
        Some(format!("{}: {said}\n", shown(file)))
    }

    fn value(&self, file: &Path) -> Value {
        let mut v = match self {
            Verdict::Good => json!({ "ok": true, "kind": "sound" }),
            Verdict::Unsound(reason) => {
                json!({ "ok": false, "kind": "unsound", "unsound_because": reason.map(|r| r.value()) })
            }
            Verdict::Bad(trouble) => {
                let mut v = trouble.fault.value();
                if let Some(other) = trouble.other(file) {
                    v["text"] = json!(format!("{other}: {}", v["text"].as_str().unwrap_or_default()));
                }
                v["ok"] = json!(false);
                v
            }
        };
        v["file"] = json!(shown(file));
        v
    }
}

fn verdict(yard: &cli::Yard, input: &Input) -> Verdict {
    match input.open(yard) {
        Ok(opened) if opened.cell.is_sound() => Verdict::Good,
        Ok(opened) => Verdict::Unsound(sound::reason(&opened.cell)),
        Err(trouble) => Verdict::Bad(trouble),
    }
}

/// How many of what was found.
#[derive(Default)]
struct Found {
    bad: usize,
    /// Of the bad ones, those that the system did not hand over.
    unread: usize,
    status: i32,
}

impl Found {
    fn add(&mut self, v: &Verdict) {
        let status = match v {
            Verdict::Good => return,
            Verdict::Unsound(_) => REFUSED,
            Verdict::Bad(trouble) => trouble.fault.status(),
        };
        self.bad += 1;
        self.unread += (status == UNREAD) as usize;
        self.status = self.status.max(status);
    }
}

pub fn check(args: &cli::Check, input: &Input, stream: &mut Stream) -> Result<Told, Trouble> {
    let yards = &args.yards.0;
    let (mut found, mut first) = (Found::default(), true);
    if stream.json {
        stream.say("{\"files\":[");
    }
    let work = |yard: &cli::Yard| Ok(verdict(yard, input));
    many::each(yards, stream, work, |stream, yard, answer: Result<Verdict, Trouble>| {
        let v = answer.unwrap_or_else(Verdict::Bad);
        found.add(&v);
        if stream.json {
            let comma = if std::mem::take(&mut first) { "" } else { "," };
            stream.say(&format!("{comma}{}", v.value(&yard.file)));
        } else if let Some(line) = v.line(&yard.file) {
            stream.say(&line);
        }
    });
    let Found { bad, unread, status } = found;
    if stream.json {
        let counts = json!({ "checked": yards.len(), "bad": bad, "unread": unread }).to_string();
        stream.say(&format!("],{}\n", &counts[1..]));
    }
    stream.end()?;
    let told = Told::bytes(Vec::new()).status(status);
    let also = if unread > 0 { format!(", {unread} not read") } else { String::new() };
    let total = format!("{} yards, {} refused or unsound{also}", yards.len(), bad - unread);
    Ok(if stream.terminal { told.note(total) } else { told })
}
