//! An input: a named file, or standard input.

use super::FileId;
use crate::standard;
use crate::stop::{tell, Stop};
use crate::words::printable;
use std::fs::{File, Metadata};
use std::io::{self, IsTerminal, Read};

pub struct Input {
    pub name: String,
    pub bytes: Box<dyn Read + Send>,
    /// The metadata of a named file. Standard input has none here.
    pub file: Option<Metadata>,
}

impl Input {
    pub fn open(name: Option<&str>) -> Result<Input, Stop> {
        match name {
            None | Some("-") => {
                if standard::input_is_closed() {
                    return Stop::said("standard input is closed, so there is nothing to read");
                }
                if io::stdin().is_terminal() {
                    tell(
                        "waiting for standard input, which is a terminal: end the input with Ctrl-D, or name a file",
                    );
                }
                Ok(Input { name: "standard input".into(), bytes: Box::new(io::stdin()), file: None })
            }
            Some("") => Stop::said("the name of a file to read is empty"),
            Some(name) => {
                let opened = File::open(name).and_then(|file| Ok((file.metadata()?, file)));
                let (about, file) = opened.map_err(|e| Stop::reading(name, &e))?;
                Ok(Input { name: printable(name), bytes: Box::new(file), file: Some(about) })
            }
        }
    }

    pub fn id(&self) -> Option<FileId> {
        self.file.as_ref().map(FileId::of)
    }

    /// Fails if the input has no bytes and the output is a file: an empty input often means that the command before failed, and the file
    /// may be a good one.
    pub fn not_empty_for(&mut self, output: Option<&str>) -> Result<(), Stop> {
        match output.filter(|name| *name != "-") {
            Some(name) if self.first(1)?.is_empty() => Stop::said(format!(
                "{} is empty: did the command before it fail? {} is not written",
                self.name,
                printable(name)
            )),
            _ => Ok(()),
        }
    }

    /// Returns the first bytes of the input, at most `most`. They stay part of the input. If the input has fewer, its end was read,
    /// and it is not read again: a terminal would need a second Ctrl-D.
    pub fn first(&mut self, most: usize) -> Result<Vec<u8>, Stop> {
        let mut first = vec![0; most];
        let had = crate::wire::read_full(&mut self.bytes, &mut first);
        first.truncate(had.map_err(|e| Stop::reading(&self.name, &e))?);
        let rest = std::mem::replace(&mut self.bytes, Box::new(io::empty()));
        let begin = io::Cursor::new(first.clone());
        self.bytes = if first.len() < most { Box::new(begin) } else { Box::new(begin.chain(rest)) };
        Ok(first)
    }
}
