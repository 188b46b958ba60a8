//! Where the Rust's published text is at hand, a test compares the container with it: YND_RUST_SRC, by default the
//! folder beside the repository that `make diff` takes too. The page that `make page` made is built into the tool, by
//! default where it lies in the repository; BOFRASHEM_PAGE names another.
use std::env;
use std::path::PathBuf;

fn main() {
    println!("cargo:rustc-check-cfg=cfg(rust_text)");
    println!("cargo:rerun-if-changed=build.rs");
    println!("cargo:rerun-if-env-changed=YND_RUST_SRC");
    let home = PathBuf::from(env::var("CARGO_MANIFEST_DIR").unwrap());
    let beside = home.join("../../../shared/docs/src/src");
    let file = env::var("YND_RUST_SRC").map_or(beside, PathBuf::from).join("resource.rs.txt");
    if file.is_file() {
        println!("cargo:rustc-cfg=rust_text");
        println!("cargo:rustc-env=RUST_RESOURCE={}", file.display());
    }
    page();
}

fn page() {
    println!("cargo:rustc-check-cfg=cfg(page_built)");
    println!("cargo:rerun-if-env-changed=BOFRASHEM_PAGE");
    let home = PathBuf::from(env::var("CARGO_MANIFEST_DIR").unwrap());
    let built = home.join("../../target/page/bofrashem.html");
    let page = env::var("BOFRASHEM_PAGE").map_or(built, PathBuf::from);
    // a file that isn't there would make cargo build anew each time
    if page.is_file() {
        println!("cargo:rerun-if-changed={}", page.display());
        println!("cargo:rustc-cfg=page_built");
        println!("cargo:rustc-env=BOFRASHEM_PAGE={}", page.display());
    }
}
