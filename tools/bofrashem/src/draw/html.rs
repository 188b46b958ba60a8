//! The yard in the page bofrashem.html (page/): its files are put into the page as they came, and the page asks the
//! library of them by itself. The page is built into the tool where `make page` made it first, or lies beside it.
use super::scene::Scene;
use super::xml::escaped;
use crate::fault::{shown, Fault, Trouble};
use crate::input::Opened;
use flate2::write::GzEncoder;
use flate2::Compression;
use serde_json::json;
use std::io::Write;
use std::path::Path;

/// Where the files go.
const MARK: &str = "<!-- embedded -->";

/// A round's file, and the member of a set in which one of version 1 starts.
pub struct RoundFile {
    pub name: String,
    pub bytes: Vec<u8>,
    pub member: usize,
}

impl RoundFile {
    pub fn of(file: &Path, bytes: Vec<u8>, member: usize) -> RoundFile {
        RoundFile { name: name(file), bytes, member }
    }
}

/// The page with these yards (a set, if there are several), a round, and what lies over the scene.
pub fn page(scene: &Scene, yards: &[&Opened], round: Option<&RoundFile>) -> Result<String, Trouble> {
    let page = built().map_err(Fault::plain)?;
    let mut files = String::new();
    for Opened { sections: s, .. } in yards {
        let form = |(version, stored)| json!({ "version": version, "stored": stored }).to_string();
        let said = s.container.map_or(String::new(), |c| format!(" data-container=\"{}\"", escaped(&form(c))));
        files += &embedded(&name(&s.file), "system", &s.system, &said);
        if !s.graphics.is_empty() {
            files += &embedded(&name(&s.file), "graphics", &s.graphics, "");
        }
    }
    if let Some(RoundFile { name, bytes, member }) = round {
        files += &embedded(name, "round", bytes, &format!(" data-member=\"{member}\""));
    }
    let asked = format!("<script id=\"asked\" type=\"application/json\">{}</script>\n", asked(scene));
    Ok(page.replacen(MARK, &(files + &asked), 1))
}

/// The short way's ends, and the circle in steps.
fn asked(scene: &Scene) -> serde_json::Value {
    let ends = |places: &[usize]| Some([*places.first()?, *places.last()?]);
    let way = scene.over.way.as_ref().and_then(|track| ends(&track.places));
    let near = scene.over.near.as_ref().map(|(c, _)| [c.point[0] as i32, c.point[1] as i32, c.radius as i32]);
    json!({ "way": way, "near": near })
}

fn name(file: &Path) -> String {
    file.file_name().map_or(String::new(), |name| shown(Path::new(name)))
}

/// A file as the page takes it: data, which no browser runs.
fn embedded(name: &str, kind: &str, bytes: &[u8], more: &str) -> String {
    let mut gzip = GzEncoder::new(Vec::new(), Compression::best());
    // a Vec takes every byte
    let _ = gzip.write_all(bytes);
    let packed = base64(&gzip.finish().unwrap_or_default());
    let data = format!("data-name=\"{}\" data-kind=\"{kind}\"{more} data-packed=\"gzip\"", escaped(name));
    format!("<script class=\"embedded\" type=\"text/plain\" {data}>{packed}</script>\n")
}

fn base64(bytes: &[u8]) -> String {
    const DIGITS: &[u8; 64] = b"ABCDEFGHIJKLMNOPQRSTUVWXYZabcdefghijklmnopqrstuvwxyz0123456789+/";
    let mut out = String::with_capacity(bytes.len().div_ceil(3) * 4);
    for three in bytes.chunks(3) {
        let word = three.iter().fold(0u32, |w, &b| w << 8 | b as u32) << (8 * (3 - three.len()));
        for k in 0..4 {
            let digit = DIGITS[(word >> (18 - 6 * k) & 63) as usize] as char;
            out.push(if k <= three.len() { digit } else { '=' });
        }
    }
    out
}

#[cfg(page_built)]
fn built() -> Result<String, Fault> {
    Ok(include_str!(env!("BOFRASHEM_PAGE")).into())
}

/// The page beside the tool.
#[cfg(not(page_built))]
fn built() -> Result<String, Fault> {
    const FILE: &str = "bofrashem.html";
    let program = std::env::current_exe().unwrap_or_default();
    let folder = program.parent().unwrap_or(Path::new("."));
    let places = [folder.join(FILE), folder.join("../share/bofrashem").join(FILE)];
    let page = places.iter().find_map(|file| std::fs::read_to_string(file).ok());
    page.filter(|page| page.contains(MARK)).ok_or_else(|| {
        let said = "the page is not in this program, and not beside it";
        Fault::Program(format!("{said}: `make page tool` builds it in, or put {FILE} into this program's folder"))
    })
}

#[cfg(test)]
mod tests {
    use super::*;

    #[test]
    fn base64_of_every_rest() {
        let of = |text: &str| base64(text.as_bytes());
        assert_eq!([of(""), of("f"), of("fo"), of("foo"), of("foob")], ["", "Zg==", "Zm8=", "Zm9v", "Zm9vYg=="]);
        assert_eq!(base64(&[0, 255, 62, 63 << 2]), "AP8+/A==");
    }

    #[test]
    fn a_name_stays_a_name() {
        let said = embedded("\"><script>alert(1)</script>", "system", b"x", "");
        assert_eq!(said.matches('<').count(), 2, "{said}");
    }
}
