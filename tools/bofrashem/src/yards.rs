//! Yards of commands that take several: FILE or FILE --graphics FILE2, again and again. A --graphics belongs to the
//! FILE before it, so where each stands on the command line counts.
use crate::cli::Yard;
use clap::error::ErrorKind;
use clap::{Arg, ArgAction, ArgMatches, Args, Command, Error, FromArgMatches};
use std::path::PathBuf;

/// One yard or more: `FILE..`
pub struct Yards(pub Vec<Yard>);

/// Two yards: `A B`
pub struct Pair {
    pub a: Yard,
    pub b: Yard,
}

fn path(id: &'static str, name: &'static str, help: &'static str) -> Arg {
    Arg::new(id).value_name(name).value_parser(clap::value_parser!(PathBuf)).required(true).help(help)
}

fn graphics() -> Arg {
    Arg::new("graphics")
        .long("graphics")
        .value_name("FILE2")
        .value_parser(clap::value_parser!(PathBuf))
        .action(ArgAction::Append)
        .help("The graphics section of the yard named before it, where that is two sections in two files")
}

/// The values of an argument, each with its place on the command line.
fn placed(matches: &ArgMatches, id: &str) -> Vec<(usize, PathBuf)> {
    let values = matches.get_many::<PathBuf>(id).into_iter().flatten().cloned();
    matches.indices_of(id).into_iter().flatten().zip(values).collect()
}

/// The yards that these arguments name, with the graphics section that follows each.
fn yards(matches: &ArgMatches, ids: &[&str]) -> Result<Vec<Yard>, Error> {
    let files = ids.iter().flat_map(|id| placed(matches, id)).map(|(at, file)| (at, true, file));
    let sections = placed(matches, "graphics").into_iter().map(|(at, file)| (at, false, file));
    let mut words: Vec<(usize, bool, PathBuf)> = files.chain(sections).collect();
    words.sort_by_key(|word| word.0);
    let mut found: Vec<Yard> = Vec::new();
    for (_, is_yard, file) in words {
        match found.last_mut() {
            _ if is_yard => found.push(Yard { file, graphics: None }),
            Some(yard) if yard.graphics.is_none() => yard.graphics = Some(file),
            Some(_) => {
                return Err(wrong("a yard has one graphics section: --graphics stands twice behind it"))
            }
            None => return Err(wrong("--graphics stands behind the file that it belongs to")),
        }
    }
    Ok(found)
}

fn wrong(said: &str) -> Error {
    Error::raw(ErrorKind::ArgumentConflict, format!("{said}\n\nFor more information, try '--help'.\n"))
}

impl Args for Yards {
    fn augment_args(command: Command) -> Command {
        let files = path("files", "FILE", "A system section or a .ynd container; - is standard input, once");
        command.arg(files.num_args(1..).action(ArgAction::Append)).arg(graphics())
    }

    fn augment_args_for_update(command: Command) -> Command {
        Yards::augment_args(command)
    }
}

impl FromArgMatches for Yards {
    fn from_arg_matches(matches: &ArgMatches) -> Result<Yards, Error> {
        yards(matches, &["files"]).map(Yards)
    }

    fn update_from_arg_matches(&mut self, matches: &ArgMatches) -> Result<(), Error> {
        *self = Yards::from_arg_matches(matches)?;
        Ok(())
    }
}

impl Args for Pair {
    fn augment_args(command: Command) -> Command {
        command
            .arg(path(
                "a",
                "A",
                "A system section or a .ynd container, - is standard input; or a folder of them",
            ))
            .arg(path("b", "B", "Another one, or another folder"))
            .arg(graphics())
    }

    fn augment_args_for_update(command: Command) -> Command {
        Pair::augment_args(command)
    }
}

impl FromArgMatches for Pair {
    fn from_arg_matches(matches: &ArgMatches) -> Result<Pair, Error> {
        let mut two = yards(matches, &["a", "b"])?.into_iter();
        match (two.next(), two.next()) {
            (Some(a), Some(b)) => Ok(Pair { a, b }),
            _ => Err(wrong("A and B are wanted")),
        }
    }

    fn update_from_arg_matches(&mut self, matches: &ArgMatches) -> Result<(), Error> {
        *self = Pair::from_arg_matches(matches)?;
        Ok(())
    }
}
