//! The rules of each command, beside those for every run.

use crate::case::Case;
use crate::folder::{Folder, Found};
use crate::rules::rule;
use crate::samples::PROGRAM;
use std::ffi::OsString;
use std::path::Path;

/// Returns what a command has written, to the file or to standard output.
fn written(case: &Case, found: &Found, folder: &Folder) -> Vec<u8> {
    match case.has("-o") {
        true => folder.files().remove("out").unwrap_or_default(),
        false => found.out.clone(),
    }
}

fn run(folder: &Folder, words: &[&str]) -> Result<Found, String> {
    let words: Vec<OsString> = words.iter().map(OsString::from).collect();
    folder.run(Path::new(PROGRAM), &words, None)
}

/// Returns the records that the program lambert writes for the file `in`.
fn lambert(folder: &Folder) -> Result<Vec<u8>, String> {
    let program = std::env::var_os("LAMBERT").expect("LAMBERT names the program lambert");
    let found = folder.run(Path::new(&program), &[], Some("in"))?;
    rule(found.status == Some(0), "lambert fails")?;
    Ok(found.out)
}

/// Returns the numbers of the refusals among well-formed records.
fn refusals(records: &[u8]) -> Vec<u8> {
    let (mut numbers, mut rest) = (Vec::new(), records);
    while !rest.is_empty() {
        if rest[4] == 3 {
            numbers.push(rest[14]);
        }
        rest = &rest[4 + usize::from(rest[0]) + 256 * usize::from(rest[1])..];
    }
    numbers
}

/// `ask` writes whole questions that `check` finds well-formed.
pub fn asked(case: &Case, found: &Found, folder: &Folder) -> Result<(), String> {
    if found.status != Some(0) {
        return Ok(());
    }
    let questions = written(case, found, folder);
    rule(questions.chunks(82).all(|slot| slot.len() == 82), "ask does not write whole slots")?;
    folder.fill(&[("made", questions)]);
    rule(run(folder, &["check", "--questions", "made"])?.status == Some(0), "ask writes what check refuses")
}

/// `solve` writes what lambert writes, and `show` takes it with the questions. It may refuse text, records and a board, and an empty
/// input if it would have to write an empty file.
pub fn solved(case: &Case, found: &Found, folder: &Folder) -> Result<(), String> {
    if found.status == Some(2) {
        let message = String::from_utf8_lossy(&found.err);
        return rule(
            ["not questions", "is a board", "is empty"].iter().any(|words| message.contains(words)),
            "solve refuses its input",
        );
    }
    let (records, expected) = (written(case, found, folder), lambert(folder)?);
    rule(records == expected, "solve does not write what lambert writes")?;
    let strict = case.has("--strict") && !refusals(&expected).is_empty();
    rule(found.status == Some(strict.into()), "the status of solve does not fit its records")?;
    folder.fill(&[("made", records)]);
    let shown = run(folder, &["show", "--questions", "in", "made"])?;
    rule(shown.status == Some(0), "show refuses the questions and the records of solve")
}

/// Reports whether, among records split by their lengths, the refusals of length 18 are exactly those with number 12.
fn lengths_fit(records: &[u8]) -> bool {
    let mut rest = records;
    while !rest.is_empty() {
        let length = usize::from(rest[0]) + 256 * usize::from(rest[1]);
        if rest[4] == 3 && length != if rest[14] == 12 { 18 } else { 12 } {
            return false;
        }
        rest = &rest[4 + length..];
    }
    true
}

/// `check` takes exactly the records that `show` takes, in each form. It takes no refusal whose length does not fit its number.
pub fn shown(_: &Case, found: &Found, folder: &Folder) -> Result<(), String> {
    if found.status == Some(0) {
        let records = folder.files().remove("in").unwrap_or_default();
        rule(lengths_fit(&records), "check takes a refusal whose length does not fit its number")?;
    }
    for form in [&["show", "in"][..], &["show", "--json", "in"], &["show", "--csv", "in"]] {
        let shown = run(folder, form)?;
        let statuses =
            format!("the status of check is {:?}, that of {form:?} {:?}", found.status, shown.status);
        rule(shown.status == found.status, &statuses)?;
    }
    Ok(())
}

/// `check --questions` takes exactly the files of which lambert refuses no slot with number 1.
pub fn checked(_: &Case, found: &Found, folder: &Folder) -> Result<(), String> {
    let well_formed = !refusals(&lambert(folder)?).contains(&1);
    rule(well_formed == (found.status == Some(0)), "check --questions and lambert differ")
}

/// `board --bytes` writes a board, and the same board again if it starts from it with no record.
pub fn posted(case: &Case, found: &Found, folder: &Folder) -> Result<(), String> {
    let board = written(case, found, folder);
    if found.status == Some(2) || !case.has("--bytes") {
        return Ok(());
    }
    rule(board.len() == 64 * 528, "board --bytes does not write a board")?;
    folder.fill(&[("made", board.clone()), ("none", Vec::new())]);
    let again = run(folder, &["board", "--bytes", "--board", "made", "none"])?;
    rule(again.status == Some(0) && again.out == board, "board does not take its own board")
}

/// `plot` draws a whole picture, and its curve has finite coordinates.
pub fn drawn(case: &Case, found: &Found, folder: &Folder) -> Result<(), String> {
    if found.status != Some(0) {
        return Ok(());
    }
    let picture = String::from_utf8(written(case, found, folder)).map_err(|_| "the picture is not text")?;
    rule(picture.starts_with("<svg") && picture.ends_with("</svg>\n"), "the picture is not whole")?;
    let mut paths = picture.split(" d=\"").skip(1).filter_map(|rest| rest.split('"').next());
    rule(paths.all(|path| !path.contains("NaN") && !path.contains("inf")), "a coordinate is not finite")
}

/// `opm` writes orbit messages that it reads back.
pub fn messages(case: &Case, found: &Found, folder: &Folder) -> Result<(), String> {
    if found.status != Some(0) {
        return Ok(());
    }
    if !case.has("--list") {
        folder.fill(&[("made", written(case, found, folder))]);
    }
    let files = folder.files();
    for name in files.keys().filter(|name| *name == "made" || name.starts_with("to/")) {
        rule(run(folder, &["opm", "--read", name])?.status == Some(0), "opm writes what it does not read")?;
    }
    Ok(())
}
