//! The text that `--version` prints: what the program was built from, and what was proved. `cli/build` passes this to the compiler in
//! environment variables. If the program is built without `cli/build`, it is not known, and the text says so.

use crate::words;

#[cfg(test)]
mod tests;

const COLUMNS: usize = 100;
/// The width of the labels.
const LABEL: usize = 12;
const UNKNOWN: &str = "unknown: not built by cli/build";

pub fn text() -> String {
    let facts = [
        ("commit", option_env!("LAMBERT_COMMIT")),
        ("toolchain", option_env!("LAMBERT_TOOLCHAIN")),
        ("compiler", Some(env!("LAMBERT_COMPILER"))),
        ("proved", option_env!("LAMBERT_PROVED")),
        ("sources", option_env!("LAMBERT_SOURCES")),
    ];
    let lines = facts.map(|(label, fact)| wrapped(label, fact.unwrap_or(UNKNOWN)));
    format!("{} {}\n{}", env!("CARGO_PKG_NAME"), env!("CARGO_PKG_VERSION"), lines.concat())
}

/// Returns a label and the words after it, in lines of at most 100 columns. On every line the words begin in the same column.
fn wrapped(label: &str, words: &str) -> String {
    let lines = words::wrapped(words, COLUMNS - LABEL, "");
    format!("{label:<LABEL$}{}\n", lines.join(&format!("\n{:LABEL$}", "")))
}
