//! The rules that every run has to keep.

use crate::case::Case;
use crate::folder::{Folder, Found};
use std::collections::BTreeMap;

/// The bytes of an output that is there before the run.
pub const OLD: &[u8] = b"an old output";

/// The longest line of a message.
const LONGEST: usize = 2000;

/// Returns the words for a rule that is broken.
pub fn rule(kept: bool, words: &str) -> Result<(), String> {
    kept.then_some(()).ok_or_else(|| words.into())
}

pub fn kept(case: &Case, found: &Found, folder: &Folder) -> Result<(), String> {
    let err = String::from_utf8_lossy(&found.err);
    let told = |words: &str| rule(!err.contains(words), &format!("standard error has '{words}'"));
    told("panicked")?;
    told("RUST_BACKTRACE")?;
    rule(matches!(found.status, Some(0..=2)), &format!("the status is {:?}", found.status))?;
    let command = case.words.first().and_then(|word| word.to_str()).unwrap_or_default();
    if found.status == Some(1) {
        rule(case.has("--strict") || command == "answer", "the status is 1 without --strict")?;
    }
    if found.status == Some(2) {
        rule(err.starts_with("lambert-cli: "), "the status is 2 without a message")?;
        rule(
            found.out.is_empty() || !["ask", "solve", "plot", "check", "opm"].contains(&command),
            "the status is 2, but something is printed to standard output",
        )?;
    }
    rule(
        found.err.split(|byte| *byte == b'\n').all(|line| line.len() <= LONGEST),
        "a message has a long line",
    )?;
    rule(!folder.has_temporary_files(), "a temporary file is left")?;
    files(case, found, command, &folder.files())
}

/// Checks that the inputs are unchanged, and that the named output is the only new file and there only if it may be.
fn files(case: &Case, found: &Found, command: &str, after: &BTreeMap<String, Vec<u8>>) -> Result<(), String> {
    for (name, bytes) in case.files.iter().filter(|(name, _)| *name != "out") {
        rule(after.get(*name) == Some(bytes), &format!("the input {name} is changed"))?;
    }
    let before = |name: &str| case.files.iter().any(|(file, _)| *file == name);
    for name in after.keys().filter(|name| !before(name)) {
        let message = name.starts_with("to/") && name.ends_with(".opm") && case.has("--to");
        rule(message || (name == "out" && case.has("-o")), &format!("there is a file {name}"))?;
        let none = found.status == Some(2) && ["ask", "solve", "plot", "board", "opm"].contains(&command);
        rule(!none, &format!("the status is 2, but the file {name} is written"))?;
    }
    let out = after.get("out").map(Vec::as_slice);
    if found.status == Some(2) && before("out") {
        rule(out == Some(OLD), "the status is 2, but the old output is changed")?;
    }
    if found.status == Some(0) && case.has("-o") {
        rule(out.is_some_and(|bytes| bytes != OLD), "the status is 0, but the output is not written")?;
    }
    Ok(())
}
