//! The man page, from the command line's own help.
use clap::builder::StyledStr;
use clap::{Arg, Command};
use std::fmt::Write;

/// The whole page, in the macros of man(7).
pub fn page(mut root: Command) -> String {
    root.build();
    let mut t =
        format!(".TH BOFRASHEM 1 \"\" \"bofrashem {}\" \"User Commands\"\n", env!("CARGO_PKG_VERSION"));
    t += ".SH NAME\nbofrashem \\- look at path node yards: check, walk, print, draw\n.SH SYNOPSIS\n.B bofrashem\n";
    t += "[\\fB\\-\\-json\\fR] \\fICOMMAND\\fR ..\n.SH DESCRIPTION\n";
    t += &paragraphs(root.get_long_about().or(root.get_about()));
    t += ".SH OPTIONS\n";
    for arg in root.get_arguments() {
        t += &option(arg);
    }
    t += ".SH COMMANDS\n";
    for command in root.get_subcommands().filter(|c| c.get_name() != "help") {
        t += &section(command, "bofrashem");
    }
    t += &names();
    t += include_str!("man_end.roff");
    t
}

/// The names in JSON, and the exit statuses, from the tables of docs/TOOL.md.
fn names() -> String {
    let page = include_str!("../../../docs/TOOL.md");
    let mut t = String::from(".SH JSON\nWith \\-\\-json each command answers with one object,\n");
    t += "info of several yards and diff of folders with one a line. The names stay as they are.\n";
    for [what, says] in table(page, "| Command | Names |") {
        t += &format!(".TP\n{}\n{}\n", roff(&what), roff(&says));
    }
    t += ".SH EXIT STATUS\n";
    for [status, says] in table(page, "| Exit status | Says |") {
        t += &format!(".TP\n{status}\n{}\n", roff(&says));
    }
    t
}

/// The rows of a table of two columns in a page of Markdown, without its marks; a row without a first cell goes on
/// with the one before.
fn table(page: &str, head: &str) -> Vec<[String; 2]> {
    let rows = page.lines().skip_while(|line| *line != head).skip(2).take_while(|line| line.starts_with('|'));
    let mut found: Vec<[String; 2]> = Vec::new();
    for row in rows {
        let mut cells = row.trim_matches('|').splitn(2, " | ").map(|cell| cell.trim().replace('`', ""));
        let (what, says) = (cells.next().unwrap_or_default(), cells.next().unwrap_or_default());
        match found.last_mut().filter(|_| what.is_empty()) {
            Some([_, before]) => *before += &format!(" {says}"),
            None => found.push([what, says]),
        }
    }
    found
}

/// A command, and those below it.
fn section(command: &Command, above: &str) -> String {
    let name = format!("{above} {}", command.get_name());
    let below = command.get_subcommands().filter(|c| c.get_name() != "help");
    let below: String = below.map(|c| section(c, &name)).collect();
    if !below.is_empty() {
        return below;
    }
    let mut t = format!(".SS \"{}\"\n", roff(&usage(command, &name)));
    t += &paragraphs(command.get_long_about().or(command.get_about()));
    for arg in command.get_arguments().filter(|a| !a.is_global_set()) {
        t += &option(arg);
    }
    t
}

fn usage(command: &Command, name: &str) -> String {
    let words = command.get_positionals().map(|a| {
        let named = values(a);
        let many = a.get_num_args().is_some_and(|n| n.max_values() > 1);
        let named = if many { format!("{named}..") } else { named };
        if a.is_required_set() {
            named
        } else {
            format!("[{named}]")
        }
    });
    let options = command.get_opts().filter(|a| !a.is_global_set()).count()
        + command.get_arguments().filter(|a| flag(a)).count();
    let mut t = name.to_string();
    if options > 0 {
        t += " [OPTIONS]";
    }
    for word in words {
        t = t + " " + &word;
    }
    t
}

fn flag(a: &Arg) -> bool {
    !a.is_positional() && !a.is_global_set() && !a.get_action().takes_values() && a.get_id() != "help"
}

fn values(a: &Arg) -> String {
    match a.get_value_names() {
        Some(names) => names.iter().map(|n| n.as_str()).collect::<Vec<_>>().join(" "),
        None => a.get_id().as_str().to_uppercase(),
    }
}

fn option(a: &Arg) -> String {
    let mut head = String::new();
    if a.is_positional() {
        // a String takes every byte
        let _ = write!(head, "\\fI{}\\fR", roff(&values(a)));
    }
    if let Some(short) = a.get_short() {
        let _ = write!(head, "\\fB\\-{short}\\fR");
    }
    if let Some(long) = a.get_long() {
        let _ = write!(head, "{}\\fB\\-\\-{}\\fR", if head.is_empty() { "" } else { ", " }, roff(long));
        if a.get_action().takes_values() {
            let _ = write!(head, " \\fI{}\\fR", roff(&values(a)));
        }
    }
    let help = paragraphs(a.get_help()).replace(".PP\n", "");
    let possible: Vec<String> = a.get_possible_values().iter().map(|v| v.get_name().to_string()).collect();
    let one_of = if possible.is_empty() || !a.get_action().takes_values() {
        String::new()
    } else {
        format!("One of: {}.\n", roff(&possible.join(", ")))
    };
    format!(".TP\n{head}\n{}{one_of}", if help.is_empty() { "\n".into() } else { help })
}

fn paragraphs(text: Option<&StyledStr>) -> String {
    let text = text.map(StyledStr::to_string).unwrap_or_default();
    text.split("\n\n")
        .filter(|p| !p.trim().is_empty())
        .map(|p| format!(".PP\n{}\n", roff(&p.replace('\n', " "))))
        .collect()
}

/// Text in roff: a backslash, a hyphen and a dot that begins a line are spelled out.
fn roff(text: &str) -> String {
    let text = text.replace('\\', "\\e").replace('-', "\\-");
    if text.starts_with('.') || text.starts_with('\'') {
        format!("\\&{text}")
    } else {
        text
    }
}
