//! Links the program with the proved libraries that tools/library wrote, and tells it which compiler it is compiled with.

fn main() {
    let here = std::env::var("CARGO_MANIFEST_DIR").expect("cargo sets it");
    println!("cargo:rustc-link-search=native={here}/../target/staticlib");
    for name in ["c_solver", "c_board", "c_message"] {
        println!("cargo:rustc-link-lib=static={name}");
        println!("cargo:rerun-if-changed={here}/../target/staticlib/lib{name}.a");
    }
    println!("cargo:rustc-env=LAMBERT_COMPILER={}", compiler());
}

fn compiler() -> String {
    let rustc = std::env::var_os("RUSTC").expect("cargo sets it");
    let told = std::process::Command::new(rustc).arg("--version").output();
    let line = told.ok().and_then(|told| String::from_utf8(told.stdout).ok()).unwrap_or_default();
    let line = line.trim();
    if line.is_empty() { "unknown" } else { line }.into()
}
