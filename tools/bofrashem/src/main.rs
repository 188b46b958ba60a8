//! `bofrashem`: see the library beside it.
use std::process::exit;

fn main() {
    exit(bofrashem_tool::main())
}
