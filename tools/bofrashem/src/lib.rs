//! The tool `bofrashem`: path node yards for people. It is thin: every answer about a yard comes from a proved call,
//! through the wrapper in bindings/rust; the tool parses arguments, reads files, lends memory and draws.
mod check;
mod cli;
pub mod container;
mod differ;
mod draw;
mod fault;
mod folders;
mod info;
mod input;
mod kinds;
mod man;
mod many;
mod near;
mod nodes;
mod output;
mod print;
mod rewrite;
mod rounds;
mod rsvg;
mod sets;
mod sound;
mod stream;
mod walks;
mod why;
mod yards;

use clap::{CommandFactory, Parser};
use cli::{Cli, Command};
use fault::{Fault, Trouble};
use input::Input;
use output::Out;
use std::ffi::OsString;
use std::fmt::Display;
use std::io::{self, IsTerminal, Read, Write};
use std::path::Path;
use stream::Stream;

/// What a command answers: for standard output, and the exit status.
pub struct Told {
    pub bytes: Vec<u8>,
    /// Words for standard error beside the answer.
    pub notes: Vec<String>,
    pub status: i32,
}

impl Told {
    pub fn bytes(bytes: Vec<u8>) -> Told {
        Told { bytes, notes: Vec::new(), status: 0 }
    }

    /// The answer in words, or in JSON where that is asked for: a value, or the text of one.
    pub fn either<V: Display>(json: bool, text: impl FnOnce() -> String, value: impl FnOnce() -> V) -> Told {
        let said = if json { format!("{}\n", value()) } else { text() };
        Told::bytes(said.into_bytes())
    }

    /// Bytes for a file that is named, and what is said of them; or the bytes alone, on standard output.
    pub fn to(out: Out, bytes: Vec<u8>, said: Told) -> Result<Told, Trouble> {
        if out.is_standard_output() {
            return Ok(Told { bytes, ..said });
        }
        out.write(&bytes)?;
        Ok(said)
    }

    pub fn status(self, status: i32) -> Told {
        Told { status, ..self }
    }

    pub fn note(mut self, note: impl Into<String>) -> Told {
        self.notes.push(note.into());
        self
    }
}

/// Runs the program on the process's own arguments and streams.
pub fn main() -> i32 {
    let terminal = io::stderr().is_terminal() && std::env::var_os("TERM").is_none_or(|term| term != "dumb");
    // standard error is not locked here: a progress bar writes to it
    let output = &mut io::stdout().lock();
    let ended = answer(std::env::args_os(), &mut io::stdin(), output, terminal);
    say(ended, output, &mut io::stderr().lock())
}

/// Runs the program on given arguments and streams; never on a terminal.
pub fn run<I, T>(
    args: I,
    input: &mut (dyn Read + Send),
    output: &mut dyn Write,
    errors: &mut dyn Write,
) -> i32
where
    I: IntoIterator<Item = T>,
    T: Into<OsString> + Clone,
{
    say(answer(args, input, output, false), output, errors)
}

/// What ends a command, and whether it is said in JSON.
enum Ended {
    Told(Told),
    Trouble { trouble: Trouble, json: bool, status: i32 },
    Clap(clap::Error),
}

fn answer<I, T>(args: I, input: &mut (dyn Read + Send), output: &mut dyn Write, terminal: bool) -> Ended
where
    I: IntoIterator<Item = T>,
    T: Into<OsString> + Clone,
{
    let args: Vec<OsString> = args.into_iter().map(Into::into).collect();
    let cli = match Cli::try_parse_from(&args) {
        Ok(cli) => cli,
        Err(e) if e.use_stderr() && wants_json(&args) => {
            let trouble = Fault::Usage(usage_words(&e)).plain();
            return Ended::Trouble { trouble, json: true, status: fault::USAGE };
        }
        Err(e) => return Ended::Clap(e),
    };
    match command(&cli, &Input::new(input), &mut Stream::new(output, cli.json, terminal)) {
        // notes are for people
        Ok(told) if cli.json => Ended::Told(Told { notes: Vec::new(), ..told }),
        Ok(told) => Ended::Told(told),
        Err(trouble) => {
            let status = status(&cli.command, &trouble);
            Ended::Trouble { trouble, json: cli.json, status }
        }
    }
}

/// The exit status of a command that ended without its answer. Of `diff` 1 says that yards differ: one that is refused
/// was not read.
fn status(command: &Command, trouble: &Trouble) -> i32 {
    match (command, trouble.fault.status()) {
        (Command::Diff(_), fault::REFUSED) => fault::UNREAD,
        (_, status) => status,
    }
}

/// Whether a command line that can't be understood asks for JSON all the same.
fn wants_json(args: &[OsString]) -> bool {
    args.iter().take_while(|word| *word != "--").any(|word| word == "--json")
}

/// What clap says is wrong, in one line, without its hints.
fn usage_words(e: &clap::Error) -> String {
    let said = e.to_string();
    let words = said.split("\n\n").next().unwrap_or_default();
    let lines: Vec<&str> = words.lines().map(str::trim).collect();
    lines.join(" ").trim_start_matches("error: ").to_string()
}

fn command(cli: &Cli, input: &Input, stream: &mut Stream) -> Result<Told, Trouble> {
    let json = cli.json;
    match &cli.command {
        Command::Info(args) => info::info(args, input, stream),
        Command::Check(args) => check::check(args, input, stream),
        Command::Walk(args) => walks::walk(args, input, json),
        Command::Near(args) => near::near(args, input, json),
        Command::Way(args) => walks::way(args, input, json),
        Command::Round(cli::Round::Make(args)) => rounds::make(args, json),
        Command::Round(cli::Round::Show(args)) => rounds::show(args, input, json),
        Command::Round(cli::Round::Follow(args)) => rounds::follow(args, input, json),
        Command::Print(args) => print::print(args, input, json),
        Command::Renumber(args) => rewrite::renumber(args, input, json),
        Command::Convert(args) => rewrite::convert(args, input, json),
        Command::Diff(args) => differ::diff(args, input, stream),
        Command::Draw(args) => draw::draw(args, input, json),
        Command::Set(args) => sets::set(args, input, json),
        Command::Completions(args) => Ok(Told::bytes(completions(args.shell))),
        Command::Man => Ok(Told::bytes(man::page(Cli::command()).into_bytes())),
    }
}

fn completions(shell: clap_complete::Shell) -> Vec<u8> {
    let mut bytes = Vec::new();
    clap_complete::generate(shell, &mut Cli::command(), "bofrashem", &mut bytes);
    bytes
}

/// Says how a command ended. A reader that closed its pipe is no trouble.
fn say(ended: Ended, output: &mut dyn Write, errors: &mut dyn Write) -> i32 {
    let told = match ended {
        Ended::Told(told) => told,
        Ended::Trouble { trouble, json, status } => {
            let said = if json { trouble.value().to_string() } else { trouble.text() };
            let _ = writeln!(errors, "{said}");
            return status;
        }
        Ended::Clap(e) if e.use_stderr() => {
            let _ = write!(errors, "{e}");
            return fault::USAGE;
        }
        Ended::Clap(e) => Told::bytes(e.to_string().into_bytes()),
    };
    for note in &told.notes {
        let _ = writeln!(errors, "bofrashem: {note}");
    }
    match output.write_all(&told.bytes).and_then(|()| output.flush()) {
        Ok(()) => told.status,
        Err(e) if e.kind() == io::ErrorKind::BrokenPipe => told.status,
        Err(e) => {
            let trouble = Fault::Unwritten(e).of(Path::new("standard output"));
            let _ = writeln!(errors, "{}", trouble.text());
            trouble.fault.status()
        }
    }
}
