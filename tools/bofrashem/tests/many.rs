//! Many files: answers in the order given, on all cores; folders compared.
mod common;
use common::{mixed, run, sample, Folder};
use serde_json::Value;
use std::fs;

/// Yards that are sound, unsound, refused and missing, in turn.
fn fleet(folder: &Folder, n: usize) -> Vec<String> {
    let (dock, unsound) = (fs::read(sample("dock.section")).unwrap(), mixed().write().unwrap());
    let file = |k: usize| {
        let name = format!("f{k:04}");
        match k % 10 {
            3 => folder.file(&name, &unsound),
            5 => folder.file(&name, &dock[..100]),
            7 => folder.path(&name),
            _ => folder.file(&name, &dock),
        }
    };
    (0..n).map(file).collect()
}

fn words<'a>(command: &[&'a str], files: &'a [String]) -> Vec<&'a str> {
    command.iter().copied().chain(files.iter().map(String::as_str)).collect()
}

#[test]
fn check_of_many_keeps_their_order() {
    let folder = Folder::new();
    // more than are worked on together
    let files = fleet(&folder, 1500);
    let said = run(&words(&["check"], &files));
    assert_eq!((said.status, said.err.as_str()), (3, ""));
    let lines: Vec<&str> = said.text().lines().collect();
    assert_eq!(lines.len(), 450);
    for (line, k) in lines.iter().zip((0..1500).filter(|k| [3, 5, 7].contains(&(k % 10)))) {
        let cause = ["unsound: link 0", "refused 1 0", "can't be read"][(k % 10 - 3) / 2];
        assert!(line.starts_with(&format!("{}: {cause}", files[k])), "{line}");
    }
    let v = run(&words(&["check", "--json"], &files)).json();
    let counts = ["checked", "bad", "unread"].map(|name| v[name].as_u64().unwrap());
    assert_eq!(counts, [1500, 450, 150]);
    let listed: Vec<&str> =
        v["files"].as_array().unwrap().iter().map(|f| f["file"].as_str().unwrap()).collect();
    assert!(listed == files.iter().map(String::as_str).collect::<Vec<_>>());
    // nothing is wrong with what has no files that can't be read
    let sound: Vec<String> = files.iter().step_by(10).cloned().collect();
    assert_eq!(run(&words(&["check"], &sound)).status, 0);
}

#[test]
fn info_of_many_is_an_object_a_line() {
    let folder = Folder::new();
    let files = fleet(&folder, 600);
    let said = run(&words(&["info", "--json"], &files));
    assert_eq!((said.status, said.err.as_str()), (3, ""));
    let values: Vec<Value> = said.text().lines().map(|line| serde_json::from_str(line).unwrap()).collect();
    assert_eq!(values.len(), 600);
    for (k, v) in values.iter().enumerate() {
        let named = if v["error"].is_null() { &v["file"] } else { &v["error"]["file"] };
        assert_eq!(
            (named.as_str(), v["error"].is_null()),
            (Some(files[k].as_str()), ![5, 7].contains(&(k % 10)))
        );
    }
    let alone = run(&["info", "--json", &files[3]]);
    assert_eq!(alone.json(), values[3]);
    let three = run(&["info", &files[0], &files[5], &files[1]]);
    let parts: Vec<&str> = three.text().split("\n\n").collect();
    assert_eq!((three.status, parts.len()), (1, 3));
    assert!(parts[1].starts_with(&format!("file       {}: refused 1 0", files[5])), "{}", parts[1]);
    assert_eq!(parts[0].to_string() + "\n", run(&["info", &files[0]]).text());
}

#[test]
fn folders_are_compared_by_name() {
    let (a, b) = (Folder::new(), Folder::new());
    let (dock, hall) = (fs::read(sample("dock.section")).unwrap(), fs::read(sample("hall.section")).unwrap());
    for k in 0..40 {
        a.file(&format!("y{k:02}"), &dock);
        b.file(&format!("y{k:02}"), if k == 7 { &hall } else { &dock });
    }
    let (left, right) = (a.path(""), b.path(""));
    let same = run(&["diff", &left, &left]);
    assert_eq!((same.status, same.text(), same.err.as_str()), (0, "", ""));
    let said = run(&["diff", &left, &right]);
    let last = said.text().lines().last().unwrap();
    assert!(last.starts_with("y07: ") && last.contains("differences that a walker could see"), "{last}");
    assert!(said.text().lines().all(|line| line.starts_with("y07: ")));
    assert_eq!(said.status, 1);
    a.file("only", &dock);
    b.file("y00", b"no yard");
    let said = run(&["diff", &left, &right]);
    assert_eq!(said.status, 3);
    assert!(said.text().starts_with("only: only in A\n"), "{}", said.text());
    let of_text = format!("\ny00: {}: refused 1 0: this is no yard, but text\n", b.path("y00"));
    assert!(said.text().contains(&of_text), "{}", said.text());
    let lines = run(&["diff", "--json", &left, &right]);
    let values: Vec<Value> = lines.text().lines().map(|line| serde_json::from_str(line).unwrap()).collect();
    assert_eq!(values.len(), 41);
    assert_eq!((values[0]["same"].as_bool(), values[0]["b"].is_null()), (Some(false), true));
    assert_eq!(
        (values[1]["error"]["kind"].as_str(), values[2]["same"].as_bool()),
        (Some("refused"), Some(true))
    );
    // one folder alone is no yard
    assert_eq!(run(&["diff", &left, &sample("dock.section")]).status, 3);
}
