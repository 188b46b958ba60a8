//! Nothing is overwritten by a file of another kind, and a write leaves the old file or the new one, whole.
mod common;
use common::{run, sample, Folder};
use std::fs;
use std::os::unix::fs::{symlink, MetadataExt, PermissionsExt};

/// A folder with one file of each kind.
fn every_kind() -> (Folder, Vec<(&'static str, String)>) {
    let folder = Folder::new();
    let copied = |name: &str, from: &str| folder.file(name, &fs::read(sample(from)).unwrap());
    let (yard, round) = (copied("yard489", "dock.section"), copied("round", "dock.round"));
    let (container, svg, html) = (folder.path("c.ynd"), folder.path("a.svg"), folder.path("a.html"));
    assert_eq!(run(&["convert", &yard, &container]).status, 0);
    assert_eq!(run(&["draw", &yard, "-o", &svg]).status, 0);
    assert_eq!(run(&["draw", &yard, "-o", &html]).status, 0);
    let pdf = folder.file("a.pdf", b"%PDF-1.5 and so on");
    let text = folder.file("notes", b"what is to be kept\n");
    let kinds = ["a yard", "a yard", "a round file", "a picture (SVG)", "a page (HTML)", "a PDF", "text"];
    (folder, kinds.into_iter().zip([yard, container, round, svg, html, pdf, text]).collect())
}

/// Commands that write a file, and the kind that they write.
fn writers(out: &str) -> Vec<(&'static str, Vec<String>)> {
    let (dock, round) = (sample("dock.section"), sample("dock.round"));
    let words = |words: &[&str]| words.iter().map(|w| w.to_string()).collect::<Vec<_>>();
    vec![
        ("a yard", words(&["renumber", &dock, out])),
        ("a yard", words(&["convert", &dock, out])),
        ("a yard", words(&["convert", &dock, out, "--form", "container"])),
        ("a round file", words(&["round", "make", "6", "0", "1", "-o", out])),
        ("a round file", words(&["way", &dock, "0", "3", "--round", out])),
        ("a PDF", words(&["print", &dock, &round, "--pdf", out])),
        ("a picture (SVG)", words(&["draw", &dock, "-o", out])),
    ]
}

fn said(words: &[String], more: &[&str]) -> common::Said {
    let words: Vec<&str> = words.iter().map(String::as_str).chain(more.iter().copied()).collect();
    run(&words)
}

#[test]
fn no_file_is_overwritten_by_one_of_another_kind() {
    let (_folder, files) = every_kind();
    let (mut kept, mut written) = (0, 0);
    let no_pdf = std::process::Command::new("rsvg-convert").arg("--version").output().is_err();
    for (is, file) in &files {
        let before = fs::read(file).unwrap();
        for (by, words) in writers(file) {
            // a picture's name says what it is; other endings are a slip
            if by == "a picture (SVG)" && !file.ends_with("yard489") && !file.ends_with(".svg") {
                continue;
            }
            if *is == by && by == "a PDF" && no_pdf {
                continue;
            }
            let answer = said(&words, &[]);
            if *is == by {
                assert_eq!(answer.status, 0, "{words:?}: {}", answer.err);
                written += 1;
            } else {
                let because = format!("{file}: is {is}, and is not overwritten by {by}; --force does");
                assert_eq!((answer.status, answer.err), (3, format!("bofrashem: {because}\n")), "{words:?}");
                assert!(fs::read(file).unwrap() == before, "{words:?}");
                kept += 1;
            }
            fs::write(file, &before).unwrap();
        }
    }
    assert!(kept >= 30 && written >= 7, "{kept} kept, {written} written");
}

#[test]
fn force_overwrites_and_an_empty_file_holds_nothing() {
    let folder = Folder::new();
    let notes = folder.file("notes", b"no longer wanted");
    for (_, words) in writers(&notes) {
        fs::write(&notes, b"no longer wanted").unwrap();
        let answer = said(&words, &["--force"]);
        assert!(answer.status == 0 || answer.err.contains("rsvg-convert is missing"), "{}", answer.err);
    }
    fs::write(&notes, b"").unwrap();
    assert_eq!(run(&["draw", &sample("dock.section"), "-o", &notes]).status, 0);
    let v = run(&["--json", "renumber", &sample("dock.section"), &notes]);
    assert!(v.err.contains("\"kind\":\"unwritten\"") && v.out.is_empty(), "{}", v.err);
}

/// A yard written in place keeps its permissions, a link stays a link, and nothing is left beside them.
#[test]
fn in_place() {
    let folder = Folder::new();
    let hall = fs::read(sample("hall.section")).unwrap();
    let (yard, link) = (folder.file("yard", &hall), folder.path("link"));
    fs::set_permissions(&yard, fs::Permissions::from_mode(0o640)).unwrap();
    symlink(&yard, &link).unwrap();
    assert_eq!(run(&["renumber", &link, &link]).status, 0);
    assert!(fs::symlink_metadata(&link).unwrap().is_symlink());
    assert_eq!(fs::metadata(&yard).unwrap().mode() & 0o777, 0o640);
    assert_eq!(run(&["diff", &yard, &sample("hall.section")]).status, 0);
    assert!(fs::read(&yard).unwrap() != hall);
    assert_eq!(names(&folder), ["link", "yard"]);
}

fn names(folder: &Folder) -> Vec<String> {
    let entry = |e: std::io::Result<fs::DirEntry>| e.unwrap().file_name().into_string().unwrap();
    let mut all: Vec<String> = fs::read_dir(folder.path("")).unwrap().map(entry).collect();
    all.sort();
    all
}

#[test]
fn what_can_t_be_written_is_said_and_nothing_is_left() {
    let folder = Folder::new();
    let lost = folder.path("lost");
    symlink(folder.path("nowhere/x"), &lost).unwrap();
    for out in [folder.path(""), folder.path("none/x.svg"), lost, "/dev/full".into()] {
        let answer = run(&["round", "make", "0", "-o", &out]);
        assert_eq!(
            (answer.status, answer.err.contains("can't be written")),
            (3, true),
            "{out}: {}",
            answer.err
        );
    }
    assert_eq!(run(&["round", "make", "0", "-o", "/dev/null"]).status, 0);
    assert_eq!(names(&folder), ["lost"]);
}
