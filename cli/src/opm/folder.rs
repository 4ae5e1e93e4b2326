//! Writes orbit messages as the files of a folder. If a write fails, removes the files that it has written,
//! or says how many it could not remove.

use super::message::OrbitMessage;
use super::request::Place;
use crate::mistakes::Mistakes;
use crate::stop::{tell, Stop};
use crate::streams::Output;
use std::collections::BTreeMap;
use std::fs;
use std::io;
use std::path::{Path, PathBuf};

/// The files that are to be written, each with its bytes and the place in the list that asks for it.
pub type Files = BTreeMap<PathBuf, (Place, Vec<u8>)>;

/// Adds an orbit message under its name in the folder. Equal orbit messages are one file. If an earlier line
/// has a different one of that name, records a mistake.
pub fn add(files: &mut Files, folder: &str, place: &Place, message: OrbitMessage, mistakes: &mut Mistakes) {
    let OrbitMessage { job, revision, entry, bytes, .. } = message;
    let path = Path::new(folder).join(format!("{job}-{revision}-{entry}.opm"));
    match files.get(&path) {
        None => {
            files.insert(path, (place.clone(), bytes));
        }
        Some((_, same)) if *same == bytes => {}
        Some(_) => {
            let words = format!("asks for {}, as an earlier line does, but with other texts", path.display());
            mistakes.push(place.say(words));
        }
    }
}

/// Takes out of `files` those that the folder already has with the same bytes, and returns how many they are.
/// Nothing in the folder is changed. Records a mistake for each file that the folder has with other bytes, or
/// that cannot be read.
pub fn leave_out_present(files: &mut Files, mistakes: &mut Mistakes) -> usize {
    let all = files.len();
    files.retain(|path, (place, bytes)| match fs::read(path) {
        Ok(present) if present == *bytes => false,
        Err(e) if e.kind() == io::ErrorKind::NotFound => true,
        found => {
            let words =
                found.map_or_else(|e| e.to_string(), |_| "it is there already, with other bytes; without --creation-date the date is that of the clock".into());
            mistakes.push(place.say(format!("cannot write {}: {words}", path.display())));
            true
        }
    });
    all - files.len()
}

/// Writes the files, and makes the folder if it is missing. If a write fails, removes the files written before it.
pub fn write(folder: &str, files: &Files, present: usize) -> Result<(), Stop> {
    fs::create_dir_all(folder).map_err(|e| Stop::Said(format!("cannot make the folder {folder}: {e}")))?;
    let mut written = Vec::new();
    for (path, (_, bytes)) in files {
        if let Err(Stop::Said(words)) = write_one(path, bytes) {
            let left = written.iter().filter(|path| fs::remove_file(path).is_err()).count();
            let rest = match left {
                0 => "no orbit message is written".into(),
                1 => "1 file is left".into(),
                _ => format!("{left} files are left"),
            };
            return Stop::said(format!("{words}; {rest}"));
        }
        written.push(path);
    }
    let s = if files.len() == 1 { "" } else { "s" };
    let there = match present {
        0 => String::new(),
        1 => ", 1 was there already".into(),
        _ => format!(", {present} were there already"),
    };
    tell(&format!("{folder}: {} orbit message{s} written{there}", files.len()));
    Ok(())
}

/// Writes a file that must not be there yet.
fn write_one(path: &Path, bytes: &[u8]) -> Result<(), Stop> {
    let name = path.to_string_lossy();
    if path.symlink_metadata().is_ok() {
        return Stop::said(format!("cannot write {name}: it is there already"));
    }
    let mut output = Output::open(Some(&name), &[])?;
    output.put(bytes)?;
    output.finish()
}
