//! Copies the judged Rust, unmodified, into the build's own folder and puts the stubs beside it; no line of it is kept
//! in the repository. YND_RUST_SRC names the folder of the published text (files end in .rs.txt). The port's archive is
//! linked by bofrashem-sys.
use std::path::{Path, PathBuf};
use std::{env, fs};

/// The published files and their names in the copy. The real `resource.rs` stands behind stubs/resource.rs.
const JUDGED: [(&str, &str); 5] = [
    ("ynd.rs", "ynd.rs"),
    ("math.rs", "math.rs"),
    ("resource.rs", "resource_real.rs"),
    ("blocks/mod.rs", "blocks/mod.rs"),
    ("blocks/base.rs", "blocks/base.rs"),
];
const STUBS: [&str; 4] = ["names.rs", "xml.rs", "resource.rs", "blocks/xml.rs"];
const EMPTY: [&str; 10] = ["bounds", "bvh", "drawable", "light", "shader", "skeleton", "texture", "vertex", "ybn",
    "ydr"];
const MODULES: [&str; 6] = ["blocks/mod", "math", "names", "resource", "xml", "ynd"];

fn main() {
    let home = PathBuf::from(env::var("CARGO_MANIFEST_DIR").unwrap());
    let source = env::var("YND_RUST_SRC").map(PathBuf::from)
        .unwrap_or_else(|_| home.join("../../shared/docs/src/src"));
    let copy = PathBuf::from(env::var("OUT_DIR").unwrap()).join("rust");
    fs::create_dir_all(copy.join("blocks")).unwrap();
    for (name, to) in JUDGED { bring(&source.join(format!("{name}.txt")), &copy.join(to)); }
    for name in STUBS { bring(&home.join("stubs").join(name), &copy.join(name)); }
    for name in EMPTY { fs::write(copy.join(format!("blocks/{name}.rs")), "").unwrap(); }
    let modules: String = MODULES.iter().map(|m| {
        let path = copy.join(format!("{m}.rs"));
        format!("#[allow(warnings)]\n#[path = {path:?}]\npub mod {};\n", m.split('/').next().unwrap())
    }).collect();
    fs::write(copy.join("modules.rs"), modules).unwrap();
    println!("cargo:rerun-if-env-changed=YND_RUST_SRC");
}

fn bring(from: &Path, to: &Path) {
    let text = fs::read(from)
        .unwrap_or_else(|e| panic!("{}: {e}; YND_RUST_SRC names the folder of the Rust's text", from.display()));
    fs::write(to, text).unwrap();
    println!("cargo:rerun-if-changed={}", from.display());
}
