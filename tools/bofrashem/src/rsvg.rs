//! PNG and PDF of an SVG, by rsvg-convert (Debian's librsvg2-bin).
use crate::fault::{Fault, Trouble};
use std::io::{self, Write};
use std::process::{Child, Command, Stdio};

const MISSING: &str = "rsvg-convert is missing, which makes .png and .pdf: apt-get install librsvg2-bin";

fn failed(said: impl Into<String>) -> Trouble {
    Fault::Program(said.into()).plain()
}

fn started(format: &str) -> Result<Child, Trouble> {
    let mut command = Command::new("rsvg-convert");
    command.args(["-f", format]).stdin(Stdio::piped()).stdout(Stdio::piped()).stderr(Stdio::piped());
    command.spawn().map_err(|e| match e.kind() {
        io::ErrorKind::NotFound => failed(MISSING),
        _ => failed(format!("rsvg-convert: {e}")),
    })
}

/// The picture in another format: png or pdf.
pub fn convert(svg: &str, format: &str) -> Result<Vec<u8>, Trouble> {
    let mut child = started(format)?;
    let (to, text) = (child.stdin.take(), svg.to_string());
    // in a thread of its own, so that neither side waits for the other; what it does not take, its answer says
    let writer = std::thread::spawn(move || to.map(|mut pipe| pipe.write_all(text.as_bytes())));
    let done = child.wait_with_output();
    let _ = writer.join();
    match done {
        Ok(out) if out.status.success() && !out.stdout.is_empty() => Ok(out.stdout),
        Ok(out) => {
            Err(failed(format!("rsvg-convert failed: {}", String::from_utf8_lossy(&out.stderr).trim())))
        }
        Err(e) => Err(failed(format!("rsvg-convert: {e}"))),
    }
}
