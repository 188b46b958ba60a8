//! `print`: a round on paper. It is what the proved program printround prints of the same section and round file; on
//! input that printround refuses, this prints its line too, and says on standard error what the line leaves out.
use crate::cli;
use crate::draw;
use crate::fault::{shown, Fault, Here, Trouble, REFUSED};
use crate::input::{Input, Opened, Sections};
use crate::kinds::Kind;
use crate::nodes;
use crate::output::Out;
use crate::walks;
use crate::why;
use crate::{rsvg, Told};
use bofrashem::{count, Cell, Refusal, VersionedRound, Walk};
use serde_json::json;
use std::fmt::Write;
use std::path::{Path, PathBuf};

/// The longest input, with the four bytes of the section's length.
const INPUT_MOST: usize = 65_536;
/// What the program lends: nodes, links, junctions, heightmap bytes, refs.
const LENT: [usize; 5] = [1024, 8192, 256, 65_536, 1024];
const VISITED_LENT: usize = 16_384;

/// A round that was followed in a yard.
pub struct Followed {
    pub opened: Opened,
    pub round: VersionedRound,
    pub walk: Walk,
}

/// Why there is no text of a round: printround's line, and of which file, and why.
struct Refused {
    line: String,
    file: PathBuf,
    fault: Fault,
}

impl Refused {
    fn by(r: Refusal, file: &Path, fault: Fault) -> Refused {
        Refused { line: format!("refused {}\n", r.number()), file: file.into(), fault }
    }
}

pub fn print(args: &cli::Print, input: &Input, json: bool) -> Result<Told, Trouble> {
    let sections = input.sections(&args.yard.file, args.yard.graphics.as_deref())?;
    let file = input.round_bytes(&args.round)?;
    let followed = match follow(sections, &file, args) {
        Ok(followed) => followed,
        Err(refused) => return line_of(refused, args.large, json),
    };
    match &args.pdf {
        Some(pdf) => page(&followed, args, pdf, json),
        None => {
            let Followed { opened, round, walk } = &followed;
            let value = || walks::value(&opened.cell, walk, &round.round.choices);
            Ok(Told::either(json, || text(&followed), value))
        }
    }
}

/// The A4 page.
fn page(followed: &Followed, args: &cli::Print, pdf: &Path, json: bool) -> Result<Told, Trouble> {
    let out = Out { file: pdf, kind: Kind::Pdf, force: args.over.force };
    out.allowed()?;
    let name = |file: &Path| file.file_name().map_or(String::new(), |name| shown(Path::new(name)));
    let title = format!("{} · {}", name(&args.yard.file), name(&args.round));
    let bytes = rsvg::convert(&draw::paper(followed, &text(followed), &title), "pdf")?;
    let (file, length) = (shown(pdf), bytes.len());
    let words = || format!("{file}: {length} bytes\n");
    let said = Told::either(json, words, || json!({ "file": file, "bytes": length }));
    Told::to(out, bytes, said)
}

fn follow(sections: Sections, file: &[u8], args: &cli::Print) -> Result<Followed, Refused> {
    let large = args.large;
    if !large && 4 + sections.system.len() + file.len() > INPUT_MOST {
        let words = format!("section and round have over {INPUT_MOST} bytes");
        let (line, file) = ("bad input\n".into(), sections.file);
        return Err(Refused { line, file, fault: Fault::BadInput(words) });
    }
    let unread = |r| Refused::by(r, &sections.file, why::unread(r, &sections.system, &sections.graphics));
    let c = count(&sections.system, &sections.graphics).map_err(unread)?;
    let held = [c.nodes, c.links, c.junctions, c.heights, c.refs];
    let short = |list: usize, file: &Path| {
        let r = Refusal::LentTooShort(list);
        Refused::by(r, file, Fault::Refused(r, Here::AsCause))
    };
    if let Some(list) = (0..5).find(|&k| !large && held[k] > LENT[k]) {
        return Err(short(list, &sections.file));
    }
    let cell = Cell::read(&sections.system, &sections.graphics).map_err(unread)?;
    let by_round = |r, fault| Refused::by(r, &args.round, fault);
    let round = VersionedRound::from_bytes(file).map_err(|r| by_round(r, why::round_file(r, file)))?;
    let yard = shown(&sections.file);
    let no_walk = |r| by_round(r, why::round(r, &round, &cell, &yard));
    let walk = cell.follow_versioned_indexed(&round).map_err(no_walk)?;
    if !large && walk.visited.len() > VISITED_LENT {
        return Err(short(8, &args.round));
    }
    Ok(Followed { opened: Opened { sections, cell }, round, walk })
}

/// The lines.
pub fn text(f: &Followed) -> String {
    let cell = &f.opened.cell;
    let mut t = format!("round area {} choices {}\n", cell.area().unwrap_or(0), f.round.round.choices.len());
    for (k, &place) in f.walk.visited.iter().enumerate() {
        if let Some(n) = cell.nodes().get(place as usize) {
            let [x, y, z] = nodes::steps(n);
            // a String takes every byte
            let _ = writeln!(t, "{k} node {} x {x} y {y} z {z}", n.node_id);
        }
    }
    t + &walks::end_text(f.walk.end) + "\n"
}

/// printround's line of a refusal, with the words on standard error; in JSON an error as of other commands.
fn line_of(Refused { line, file, fault }: Refused, large: bool, json: bool) -> Result<Told, Trouble> {
    if json {
        return Err(fault.of(&file));
    }
    let short = matches!(fault, Fault::BadInput(_) | Fault::Refused(Refusal::LentTooShort(_), _));
    let more = if short && !large { "; --large lends as much as the yard needs" } else { "" };
    let told = Told::bytes(line.into_bytes()).status(REFUSED);
    Ok(told.note(format!("{}{more}", fault.of(&file).line())))
}
