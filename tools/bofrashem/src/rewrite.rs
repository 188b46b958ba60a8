//! `renumber` and `convert`: a yard read and written anew.
use crate::cli::{Form, Rewrite};
use crate::container;
use crate::fault::{shown, Trouble};
use crate::input::{Input, Opened};
use crate::kinds::Kind;
use crate::output::Out;
use crate::Told;
use serde_json::{json, Value};

/// The form that is asked for, or that the name ends in.
fn form(args: &Rewrite) -> Form {
    let ends = args.output.extension().is_some_and(|e| e.eq_ignore_ascii_case("ynd"));
    args.form.unwrap_or(if ends { Form::Container } else { Form::Section })
}

fn write(
    opened: &Opened,
    args: &Rewrite,
    said: String,
    mut value: Value,
    json: bool,
) -> Result<Told, Trouble> {
    let section = opened.cell.write().map_err(|r| opened.refused(r))?;
    let (bytes, form) = match form(args) {
        Form::Section => (section, "section"),
        Form::Container => (container::close(&section), "container"),
    };
    let text = format!(
        "{}: a {form} of {} bytes, {} nodes{said}\n",
        shown(&args.output),
        bytes.len(),
        opened.cell.nodes().len()
    );
    value["file"] = json!(shown(&args.output));
    value["form"] = json!(form);
    value["bytes"] = json!(bytes.len());
    value["nodes"] = json!(opened.cell.nodes().len());
    let out = Out { file: &args.output, kind: Kind::Yard, force: args.over.force };
    Told::to(out, bytes, Told::either(json, || text, || value))
}

pub fn convert(args: &Rewrite, input: &Input, json: bool) -> Result<Told, Trouble> {
    let opened = input.open(&args.yard)?;
    write(&opened, args, String::new(), json!({}), json)
}

pub fn renumber(args: &Rewrite, input: &Input, json: bool) -> Result<Told, Trouble> {
    let mut opened = input.open(&args.yard)?;
    let before: Vec<u16> = opened.cell.nodes().iter().map(|n| n.node_id).collect();
    let places = match opened.cell.renumber() {
        Ok(places) => places,
        Err(r) => return Err(opened.refused(r)),
    };
    let moved = places.iter().enumerate().filter(|&(old, &new)| old != new as usize).count();
    let renamed = places.iter().zip(&before).filter(|&(&new, &number)| new != number as usize).count();
    let said = format!(", {moved} at another place, {renamed} with another number");
    let told = write(
        &opened,
        args,
        said,
        json!({ "new_places": places, "moved": moved, "renumbered": renamed }),
        json,
    )?;
    if renamed == 0 {
        return Ok(told);
    }
    Ok(told.note(format!(
        "round files name numbers, and {renamed} nodes have new ones: write such rounds again"
    )))
}
