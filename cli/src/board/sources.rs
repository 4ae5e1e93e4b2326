//! The inputs of records: files, the files of folders, and standard input. They are checked before anything is posted, and opened
//! one after the other.

use crate::stop::{tell, Stop};
use crate::streams::{FileId, Input};
use crate::words::printable;
use std::fs::{self, File, FileType};
use std::io;
use std::os::unix::ffi::OsStrExt;
use std::os::unix::fs::FileTypeExt;
use std::path::{Path, PathBuf};

pub struct Source {
    pub name: String,
    pub id: Option<FileId>,
    stream: Stream,
}

enum Stream {
    Standard,
    Closed(PathBuf),
    /// A pipe or a device. It stays open after the check, because opening it again can lose what its writer has written.
    Open(Input),
}

/// Returns the inputs by the names that are given, in this order. A folder stands for the files in it. Fails if one of them
/// cannot be opened.
pub fn list(names: &[String]) -> Result<Vec<Source>, Stop> {
    let standard = || Source { name: "standard input".into(), id: None, stream: Stream::Standard };
    if names.is_empty() {
        return Ok(vec![standard()]);
    }
    let mut sources = Vec::new();
    for name in names {
        let failed = |e| Stop::reading(&printable(name), &e);
        if name == "-" {
            sources.push(standard());
        } else if fs::metadata(name).map_err(failed)?.is_dir() {
            for path in files_of(name).map_err(failed)? {
                sources.push(checked(&path)?);
            }
        } else {
            sources.push(checked(Path::new(name))?);
        }
    }
    Ok(sources)
}

/// The most things in one folder that are named because they are not read. The rest are only counted.
const NAMED: usize = 20;

/// Returns the plain files of a folder. Names what else is in it, because it is not read.
fn files_of(folder: &str) -> io::Result<Vec<PathBuf>> {
    let (files, others) = content_of(folder)?;
    if files.is_empty() {
        tell(&format!("{}: this folder has no file to read", printable(folder)));
    }
    for (path, kind) in others.iter().take(NAMED) {
        tell(&format!("{}: is not read, because it is a {kind}", printable(&path.to_string_lossy())));
    }
    if others.len() > NAMED {
        let more = others.len() - NAMED;
        let are = if more == 1 { "is" } else { "are" };
        tell(&format!("{}: {more} more in this folder {are} not read", printable(folder)));
    }
    Ok(files)
}

/// Something in a folder that is not a plain file, and what it is.
type Other = (PathBuf, &'static str);

/// Returns the plain files of a folder and what else is in it, in the order of their names. Hidden ones are left out.
fn content_of(folder: &str) -> io::Result<(Vec<PathBuf>, Vec<Other>)> {
    let (mut files, mut others) = (Vec::new(), Vec::new());
    for entry in fs::read_dir(folder)? {
        let entry = entry?;
        if entry.file_name().as_bytes().starts_with(b".") {
            continue;
        }
        // A link whose file is missing counts as a file, so that the check finds that it cannot be opened.
        match fs::metadata(entry.path()) {
            Ok(about) if !about.is_file() => others.push((entry.path(), kind(about.file_type()))),
            _ => files.push(entry.path()),
        }
    }
    files.sort();
    others.sort();
    Ok((files, others))
}

/// Returns what something in a folder is if it is not a plain file.
fn kind(of: FileType) -> &'static str {
    match of {
        _ if of.is_dir() => "folder",
        _ if of.is_fifo() => "pipe",
        _ if of.is_socket() => "socket",
        _ => "device",
    }
}

/// Opens a file to check that this is possible, and closes it unless it has to stay open.
fn checked(path: &Path) -> Result<Source, Stop> {
    let name = path.to_string_lossy().into_owned();
    let input = opened(path, &name)?;
    let regular = input.file.as_ref().is_some_and(|about| about.is_file());
    let id = input.id();
    let stream = if regular { Stream::Closed(path.into()) } else { Stream::Open(input) };
    Ok(Source { name, id, stream })
}

fn opened(path: &Path, name: &str) -> Result<Input, Stop> {
    let name = printable(name);
    let opened = File::open(path).and_then(|file| Ok((file.metadata()?, file)));
    let (about, file) = opened.map_err(|e| Stop::reading(&name, &e))?;
    Ok(Input { name, bytes: Box::new(file), file: Some(about) })
}

impl Source {
    pub fn open(self) -> Result<Input, Stop> {
        match self.stream {
            Stream::Standard => Input::open(None),
            Stream::Closed(path) => opened(&path, &self.name),
            Stream::Open(input) => Ok(input),
        }
    }
}

#[cfg(test)]
mod tests;
