//! An output: a file that appears when it is complete, or standard output.

use super::beside::Beside;
use super::FileId;
use crate::standard;
use crate::stop::Stop;
use crate::words::printable;
use std::fs::File;
use std::io::{self, BufWriter, IsTerminal, Write};

/// An output. The message for a failed write gives its name. A file appears under its name only when the output is
/// finished: until then it is written beside, and if the output is dropped before, nothing is left.
pub struct Output {
    name: String,
    bytes: BufWriter<Box<dyn Write>>,
    beside: Option<Beside>,
}

impl Output {
    /// Opens an output for text. The caller has opened the inputs before and passes what they are, so that no input is
    /// overwritten.
    pub fn open(name: Option<&str>, inputs: &[Option<FileId>]) -> Result<Output, Stop> {
        let Some(name) = name.filter(|name| *name != "-") else {
            if standard::output_is_closed() {
                return Stop::said("standard output is closed, so nothing can be written to it");
            }
            let bytes = BufWriter::new(Box::new(io::stdout()) as Box<dyn Write>);
            return Ok(Output { name: "standard output".into(), bytes, beside: None });
        };
        if name.is_empty() {
            return Stop::said("the name of the file to write is empty");
        }
        if name.starts_with('-') {
            let name = printable(name);
            return Stop::said(format!("{name} looks like an option: write ./{name} if it is a file"));
        }
        let present = std::fs::metadata(name).ok();
        let id = present.as_ref().filter(|file| file.is_file()).map(FileId::of);
        if id.is_some() && inputs.contains(&id) {
            return Stop::said(format!("{name} is also an input, and would be overwritten"));
        }
        let failed = |e| Stop::writing(name, &e);
        let (file, beside) = match present {
            Some(other) if !other.is_file() => (File::create(name).map_err(failed)?, None),
            _ => Beside::create(name).map(|(file, beside)| (file, Some(beside))).map_err(failed)?,
        };
        Ok(Output { name: name.into(), bytes: BufWriter::new(Box::new(file)), beside })
    }

    /// Opens an output for bytes that are not text. They are not written to a terminal.
    pub fn open_bytes(name: Option<&str>, inputs: &[Option<FileId>], hint: &str) -> Result<Output, Stop> {
        if name.is_none_or(|name| name == "-") && io::stdout().is_terminal() {
            return Stop::said(format!(
                "standard output is a terminal, and these bytes are not text: {hint}"
            ));
        }
        Output::open(name, inputs)
    }

    pub fn put(&mut self, bytes: &[u8]) -> Result<(), Stop> {
        self.bytes.write_all(bytes).map_err(|e| Stop::writing(&self.name, &e))
    }

    pub fn flush(&mut self) -> Result<(), Stop> {
        self.bytes.flush().map_err(|e| Stop::writing(&self.name, &e))
    }

    /// Writes out what is left and gives a file its name.
    pub fn finish(mut self) -> Result<(), Stop> {
        self.flush()?;
        match self.beside.take() {
            None => Ok(()),
            Some(beside) => beside.finish().map_err(|e| Stop::writing(&self.name, &e)),
        }
    }
}

/// Opens an output, writes a text and finishes it.
pub fn write_text(name: Option<&str>, inputs: &[Option<FileId>], text: &str) -> Result<(), Stop> {
    let mut output = Output::open(name, inputs)?;
    output.put(text.as_bytes())?;
    output.finish()
}
