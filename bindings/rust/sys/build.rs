//! Finds the library and tells cargo to link it. In this order:
//!
//! 1. YND_ARCHIVE names the archive (libbofrashem.a or libexports.a);
//! 2. the repository's own, where `make archive` puts it: target/staticlib/libexports.a;
//! 3. an installed one, by `pkg-config bofrashem`: the archive if it is there, else the shared library.
//!
//! Dependents get DEP_BOFRASHEM_ARCHIVE (an archive's file) or DEP_BOFRASHEM_LIBDIR (an installed library's folder),
//! and DEP_BOFRASHEM_INCLUDE (the folder of bofrashem.h) where it is known.
use std::path::{Path, PathBuf};
use std::process::Command;
use std::{env, fs};

const MISSING: &str = "no library: run `make archive` at the repository's root, let YND_ARCHIVE name the archive, or \
                       install it so that `pkg-config bofrashem` finds it";

fn main() {
    println!("cargo:rerun-if-env-changed=YND_ARCHIVE");
    println!("cargo:rerun-if-env-changed=PKG_CONFIG_PATH");
    let root = PathBuf::from(env::var("CARGO_MANIFEST_DIR").unwrap()).join("../../..");
    let own = root.join("target/staticlib/libexports.a");
    let named = env::var("YND_ARCHIVE").map(PathBuf::from);
    println!("cargo:rerun-if-changed={}", own.display());
    match named {
        Ok(archive) => link(&archive, &root),
        Err(_) if own.exists() => link(&own, &root),
        Err(_) => installed().expect(MISSING),
    }
}

/// An archive of any name.
fn link(archive: &Path, root: &Path) {
    let to = PathBuf::from(env::var("OUT_DIR").unwrap());
    fs::copy(archive, to.join("libbofrashem.a"))
        .unwrap_or_else(|e| panic!("{}: {e}; {MISSING}", archive.display()));
    println!("cargo:rustc-link-search=native={}", to.display());
    println!("cargo:rustc-link-lib=static=bofrashem");
    println!("cargo:rerun-if-changed={}", archive.display());
    println!("cargo:archive={}", archive.display());
    let include = root.join("include");
    if include.join("bofrashem.h").exists() {
        println!("cargo:include={}", include.display());
    }
}

/// The library that pkg-config names.
fn installed() -> Option<()> {
    let libdir = PathBuf::from(pkg_config("libdir")?);
    let kind = if libdir.join("libbofrashem.a").exists() {
        "static="
    } else {
        ""
    };
    println!("cargo:rustc-link-search=native={}", libdir.display());
    println!("cargo:rustc-link-lib={kind}bofrashem");
    println!("cargo:libdir={}", libdir.display());
    if let Some(include) = pkg_config("includedir") {
        println!("cargo:include={include}");
    }
    Some(())
}

/// A variable of bofrashem.pc.
fn pkg_config(variable: &str) -> Option<String> {
    let program = env::var("PKG_CONFIG").unwrap_or_else(|_| "pkg-config".into());
    let said = Command::new(program)
        .args(["--variable", variable, "bofrashem"])
        .output()
        .ok()?;
    let value = String::from_utf8(said.stdout).ok()?.trim().to_string();
    (said.status.success() && !value.is_empty()).then_some(value)
}
