//! Links the program with the proved libraries that tools/library wrote, and makes Rust modules of the proved source of
//! the estimated root.

#[path = "build/rattle.rs"]
mod rattle;

use std::path::{Path, PathBuf};

/// The files of the estimated root and its exact test, which are modules of the crate float64.
const ESTIMATE: [&str; 4] = ["bit_patterns", "operand", "estimate", "exact_test"];

fn main() {
    let here = PathBuf::from(std::env::var_os("CARGO_MANIFEST_DIR").expect("cargo sets it"));
    link(&here.join("../target/staticlib"));
    let out = PathBuf::from(std::env::var_os("OUT_DIR").expect("cargo sets it"));
    let modules = ESTIMATE.map(|name| module(name, &here.join("../crates/float64/src")));
    std::fs::write(out.join("estimate.rs"), modules.concat()).expect("cargo lends a folder for the output");
}

fn link(libraries: &Path) {
    println!("cargo:rustc-link-search=native={}", libraries.display());
    let today = ["c_root", "c_time", "c_board", "c_message"];
    let before = ["before_root", "before_time"];
    let asked = std::env::var_os("CARGO_FEATURE_BEFORE").is_some();
    for name in today.iter().chain(before.iter().filter(|_| asked)) {
        println!("cargo:rustc-link-lib=static={name}");
        println!("cargo:rerun-if-changed={}/lib{name}.a", libraries.display());
    }
}

/// Returns a Rattle file as a Rust module.
fn module(name: &str, folder: &Path) -> String {
    let path = folder.join(name).with_extension("rt");
    println!("cargo:rerun-if-changed={}", path.display());
    let source = std::fs::read_to_string(&path).unwrap_or_else(|e| panic!("{}: {e}", path.display()));
    let rust = rattle::as_rust(&source).unwrap_or_else(|line| {
        panic!("{}: the benchmark cannot read this line as Rust: {line}", path.display())
    });
    format!("pub mod {name} {{\n{rust}}}\n")
}
