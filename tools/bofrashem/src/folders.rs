//! `diff` of two folders: the files that both have, by name, on all cores.
use crate::cli::{self, Yard};
use crate::fault::{shown, Fault, Trouble, REFUSED, UNREAD};
use crate::input::Input;
use crate::stream::Stream;
use crate::{differ, many, Told};
use serde_json::json;
use std::collections::BTreeMap;
use std::ffi::OsString;
use std::path::{Path, PathBuf};

/// A name, and the files that have it.
struct Named {
    name: OsString,
    a: Option<PathBuf>,
    b: Option<PathBuf>,
}

/// How many of what was found.
#[derive(Default)]
struct Found {
    differ: usize,
    alone: usize,
    unread: usize,
}

pub fn diff(args: &cli::Diff, input: &Input, stream: &mut Stream) -> Result<Told, Trouble> {
    let named = named(&args.yards.a.file, &args.yards.b.file)?;
    let (mut found, json) = (Found::default(), stream.json);
    let work = |n: &Named| match (&n.a, &n.b) {
        (Some(a), Some(b)) => differ::of_pair(&yard(a), &yard(b), args.most, input, json),
        _ => Ok((alone(n, json), false)),
    };
    many::each(&named, stream, work, |stream, n, answer| match answer {
        Ok((words, same)) => {
            let both = n.a.is_some() && n.b.is_some();
            found.differ += (both && !same) as usize;
            found.alone += !both as usize;
            lines(stream, n, &words);
        }
        Err(trouble) => {
            found.unread += 1;
            let words = if json { trouble.value().to_string() } else { trouble.line() };
            lines(stream, n, &(words + "\n"));
        }
    });
    stream.end()?;
    let Found { differ, alone, unread } = found;
    let status = if unread > 0 { UNREAD } else { (differ + alone > 0) as i32 * REFUSED };
    let total =
        format!("{} names: {differ} differ, {alone} in one folder alone, {unread} not read", named.len());
    let told = Told::bytes(Vec::new()).status(status);
    Ok(if stream.terminal { told.note(total) } else { told })
}

fn yard(file: &Path) -> Yard {
    Yard { file: file.into(), graphics: None }
}

/// Objects as they are; lines behind the name that they are about.
fn lines(stream: &mut Stream, n: &Named, words: &str) {
    let name = Path::new(&n.name).display();
    for line in words.lines() {
        stream.say(&if stream.json { format!("{line}\n") } else { format!("{name}: {line}\n") });
    }
}

/// A name that one folder alone has.
fn alone(n: &Named, json: bool) -> String {
    let file = |file: &Option<PathBuf>| file.as_deref().map(shown);
    if json {
        return format!("{}\n", json!({ "a": file(&n.a), "b": file(&n.b), "same": false }));
    }
    format!("only in {}\n", if n.a.is_some() { "A" } else { "B" })
}

/// The names of files in either folder, in order.
fn named(a: &Path, b: &Path) -> Result<Vec<Named>, Trouble> {
    let mut all: BTreeMap<OsString, [Option<PathBuf>; 2]> = BTreeMap::new();
    for (k, folder) in [a, b].into_iter().enumerate() {
        let unread = |e| Fault::Unread(e).of(folder);
        for entry in folder.read_dir().map_err(unread)? {
            let entry = entry.map_err(unread)?;
            if !entry.path().is_dir() {
                all.entry(entry.file_name()).or_default()[k] = Some(entry.path());
            }
        }
    }
    Ok(all.into_iter().map(|(name, [a, b])| Named { name, a, b }).collect())
}
