//! The command line.
use crate::yards::{Pair, Yards};
use clap::{Args, Parser, Subcommand, ValueEnum};
use std::path::PathBuf;

/// Look at path node yards: read, checked, walked and renumbered by proved calls.
///
/// A yard is a system section, or the engine's own .ynd container (RSC7), or two sections: FILE --graphics FILE2, each
/// --graphics behind the FILE that it belongs to. FILE may be - for standard input, once a command. Nodes are named by
/// place, counted from 0, as the library does; --numbers names them by number instead.
///
/// Exit status: 0 accepted; 1 refused, unsound (check) or different (diff); 2 a command line that can't be understood;
/// 3 a file can't be read or written, or would be overwritten by one of another kind.
#[derive(Parser)]
#[command(name = "bofrashem", version, max_term_width = 100)]
pub struct Cli {
    /// Answer in JSON, errors too
    #[arg(long, global = true)]
    pub json: bool,

    #[command(subcommand)]
    pub command: Command,
}

#[derive(Subcommand)]
pub enum Command {
    Info(Info),
    Check(Check),
    Walk(WalkArgs),
    Near(Near),
    Way(Way),
    #[command(subcommand)]
    Round(Round),
    Print(Print),
    /// Number the nodes by place, ped nodes last, and write the yard; links follow, rounds don't
    Renumber(Rewrite),
    /// Write the yard as it is, as a section or a container
    Convert(Rewrite),
    Diff(Diff),
    Draw(Draw),
    Set(Set),
    Completions(Completions),
    /// The man page, on standard output
    Man,
}

/// The yard that a command reads.
#[derive(Args)]
pub struct Yard {
    /// A system section or a .ynd container; - is standard input
    #[arg(value_name = "FILE")]
    pub file: PathBuf,

    /// The graphics section, where the yard is two sections in two files
    #[arg(long, value_name = "FILE2")]
    pub graphics: Option<PathBuf>,
}

/// A file that a command writes.
#[derive(Args)]
pub struct Force {
    /// Overwrite a file of another kind, too
    #[arg(long)]
    pub force: bool,
}

/// What a yard holds: counts, area, grid cell, bounds, and whether it is sound
///
/// Of several yards each has its lines, and with --json its line, in the order given.
#[derive(Args)]
pub struct Info {
    #[command(flatten)]
    pub yards: Yards,
}

/// One line for each file that is refused or unsound, and then exit status 1
#[derive(Args)]
pub struct Check {
    #[command(flatten)]
    pub yards: Yards,
}

/// A walk from a node; each choice takes a link by its place among the node's links
#[derive(Args)]
pub struct WalkArgs {
    #[command(flatten)]
    pub yard: Yard,

    /// The node where the walk starts
    pub start: usize,

    /// The choices, each 0 to 255
    pub choices: Vec<u8>,

    /// START is a node's number, not its place
    #[arg(long)]
    pub numbers: bool,
}

/// The nodes within a radius of a point, nearest first
#[derive(Args)]
#[command(allow_negative_numbers = true)]
pub struct Near {
    #[command(flatten)]
    pub yard: Yard,

    /// The point's x in metres
    pub x: f64,

    /// The point's y in metres
    pub y: f64,

    /// The radius in metres
    pub radius: f64,

    /// X, Y and RADIUS are quarter-metre steps, the unit that is stored and compared
    #[arg(long)]
    pub steps: bool,
}

/// The way between two nodes with the fewest metres
#[derive(Args)]
pub struct Way {
    #[command(flatten)]
    pub yard: Yard,

    /// The node where the way starts
    pub from: usize,

    /// The node where it ends
    pub to: usize,

    /// FROM and TO are nodes' numbers, not their places
    #[arg(long)]
    pub numbers: bool,

    /// Write the way as a round file, of the yard's area
    #[arg(long, value_name = "FILE")]
    pub round: Option<PathBuf>,

    #[command(flatten)]
    pub over: Force,
}

/// Round files: made, shown, followed
#[derive(Subcommand)]
pub enum Round {
    Make(Make),
    Show(Show),
    Follow(Follow),
}

/// Write a round file
#[derive(Args)]
pub struct Make {
    /// The number of the start node
    pub start: u16,

    /// The choices, each 0 to 255
    pub choices: Vec<u8>,

    /// Say the area in the file, which is then of version 2
    #[arg(long)]
    pub area: Option<u16>,

    /// Where to write; - is standard output
    #[arg(short, long, value_name = "FILE")]
    pub output: PathBuf,

    #[command(flatten)]
    pub over: Force,
}

/// What a round file says
#[derive(Args)]
pub struct Show {
    /// A round file; - is standard input
    #[arg(value_name = "ROUND")]
    pub round: PathBuf,
}

/// The walk that a round is in a yard
#[derive(Args)]
pub struct Follow {
    #[command(flatten)]
    pub yard: Yard,

    /// A round file
    #[arg(value_name = "ROUND")]
    pub round: PathBuf,
}

/// A round on paper: what the program printround prints, byte for byte
#[derive(Args)]
pub struct Print {
    #[command(flatten)]
    pub yard: Yard,

    /// A round file
    #[arg(value_name = "ROUND")]
    pub round: PathBuf,

    /// Lend as much memory as the yard needs, where printround says `bad input` or refuses with 7
    #[arg(long)]
    pub large: bool,

    /// One A4 page instead: the lines beside the drawn round (needs rsvg-convert)
    #[arg(long, value_name = "FILE")]
    pub pdf: Option<PathBuf>,

    #[command(flatten)]
    pub over: Force,
}

/// What kind of file to write.
#[derive(Clone, Copy, ValueEnum, PartialEq, Eq, Debug)]
pub enum Form {
    Section,
    Container,
}

/// A yard that is read and written anew.
#[derive(Args)]
pub struct Rewrite {
    #[command(flatten)]
    pub yard: Yard,

    /// Where to write; - is standard output
    #[arg(value_name = "OUT")]
    pub output: PathBuf,

    /// What to write; a container where OUT ends in .ynd, else a section
    #[arg(long, value_enum)]
    pub form: Option<Form>,

    #[command(flatten)]
    pub over: Force,
}

/// What a walker could tell apart in two yards; exit status 1 if anything
///
/// Where A and B are folders, the files that both have are compared by name, and what only one has is said.
#[derive(Args)]
pub struct Diff {
    #[command(flatten)]
    pub yards: Pair,

    /// At most so many lines
    #[arg(long, default_value_t = 40, value_name = "LINES")]
    pub most: usize,
}

/// A picture of a yard: .svg, .html (to pan, zoom, click and step), .png or .pdf by OUT's ending
///
/// Several yards are drawn as a set, up to nine, with the links that lead from one into another; a round crosses.
#[derive(Args)]
pub struct Draw {
    #[command(flatten)]
    pub yards: Yards,

    /// Draw a round file's walk over the yard
    #[arg(long, value_name = "ROUND")]
    pub round: Option<PathBuf>,

    /// Draw the way with the fewest metres between two nodes of one yard
    #[arg(long, num_args = 2, value_names = ["FROM", "TO"])]
    pub way: Option<Vec<usize>>,

    /// Draw a circle, and the nodes within it marked: metres
    #[arg(long, num_args = 3, value_names = ["X", "Y", "R"], allow_hyphen_values = true)]
    pub near: Option<Vec<f64>>,

    /// FROM and TO are nodes' numbers, not their places
    #[arg(long)]
    pub numbers: bool,

    /// The member of a set in which a round of version 1 starts, counted from 0
    #[arg(long, value_name = "MEMBER", default_value_t = 0)]
    pub member: usize,

    /// Where to write; - is standard output, an SVG
    #[arg(short, long, value_name = "OUT")]
    pub output: PathBuf,

    #[command(flatten)]
    pub over: Force,
}

/// A set of up to nine cells: its members, whether it is sound, and walks that cross from cell to cell
#[derive(Args)]
pub struct Set {
    #[command(flatten)]
    pub yards: Yards,

    /// Walk from a node of a member, both counted from 0; then the choices
    #[arg(long, num_args = 2.., value_names = ["MEMBER", "PLACE", "CHOICES"])]
    pub walk: Option<Vec<usize>>,

    /// Follow a round file, which crosses; of version 2 it starts in the member of its area
    #[arg(long, value_name = "ROUND", conflicts_with = "walk")]
    pub round: Option<PathBuf>,

    /// The member in which a round of version 1 starts, counted from 0
    #[arg(long, value_name = "MEMBER", default_value_t = 0, requires = "round")]
    pub member: usize,
}

/// A shell's completions, on standard output
#[derive(Args)]
pub struct Completions {
    #[arg(value_enum)]
    pub shell: clap_complete::Shell,
}
