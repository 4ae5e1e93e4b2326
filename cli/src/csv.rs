//! CSV as in RFC 4180: a field is quoted if it needs to be, and quotes within it are doubled.

mod columns;

pub use columns::{Column, Columns};

use crate::stop::Stop;
use std::io::{self, BufRead, Read};

/// The fields of a row, and the number of the line on which the row begins.
#[derive(Debug, PartialEq)]
pub struct Row {
    pub line: usize,
    pub fields: Vec<String>,
}

/// Returns the text of a field, quoted if needed.
pub fn field(text: &str) -> String {
    if text.contains(['"', ',', '\r', '\n']) {
        format!("\"{}\"", text.replace('"', "\"\""))
    } else {
        text.into()
    }
}

/// Returns the text of a row, with its line end, which is LF.
pub fn line(fields: &[String]) -> String {
    let fields: Vec<String> = fields.iter().map(|text| field(text)).collect();
    fields.join(",") + "\n"
}

/// The most bytes of a row.
const LONGEST: usize = 1 << 20;

/// Why no row can be read: a read failed, or a line has a mistake.
#[derive(Debug)]
pub enum Fault {
    Read(io::Error),
    Line(usize, String),
}

impl Fault {
    /// Returns the reason for which the command stops, with the name of the file.
    pub fn stop(&self, name: &str) -> Stop {
        match self {
            Fault::Read(e) => Stop::reading(name, e),
            Fault::Line(line, words) => Stop::Said(format!("{name}: line {line}: {words}")),
        }
    }
}

/// Reads rows one by one. Lines end with LF or CRLF.
pub struct Rows<R> {
    input: R,
    /// The number of lines read so far.
    lines: usize,
}

impl<R: BufRead> Rows<R> {
    pub fn new(input: R) -> Self {
        Rows { input, lines: 0 }
    }

    /// Returns the next row, or `None` at the end of the input.
    pub fn next(&mut self) -> Result<Option<Row>, Fault> {
        let line = self.lines + 1;
        let text = self.text(line)?;
        let mut rest = text.as_str();
        if rest.is_empty() {
            return Ok(None);
        }
        let mut row = Row { line, fields: Vec::new() };
        loop {
            let (text, after) = next_field(rest).map_err(|words| Fault::Line(line, words.into()))?;
            row.fields.push(text);
            match after.strip_prefix(',') {
                Some(after) => rest = after,
                None => return Ok(Some(row)),
            }
        }
    }

    /// Reads the text of the row that begins on `line`: lines up to the one that closes every quote.
    fn text(&mut self, line: usize) -> Result<String, Fault> {
        let (mut bytes, mut quotes) = (Vec::new(), 0);
        loop {
            let had = bytes.len();
            let limited = &mut self.input.by_ref().take((LONGEST + 1 - had) as u64);
            let more = limited.read_until(b'\n', &mut bytes).map_err(Fault::Read)?;
            if bytes.len() > LONGEST {
                return Err(Fault::Line(line, format!("the row has more than {LONGEST} bytes")));
            }
            self.lines += usize::from(more > 0);
            quotes += bytes[had..].iter().filter(|byte| **byte == b'"').count();
            if more == 0 || quotes % 2 == 0 {
                break;
            }
        }
        let text = String::from_utf8(bytes)
            .map_err(|_| Fault::Line(line, "is not UTF-8 text, so this is not a CSV file".into()))?;
        match text.strip_prefix('\u{feff}') {
            Some(rest) if line == 1 => Ok(rest.into()),
            _ => Ok(text),
        }
    }
}

/// Returns the first field of a text and the rest of the text, which begins with a comma or a line end or is empty.
fn next_field(text: &str) -> Result<(String, &str), &'static str> {
    let Some(quoted) = text.strip_prefix('"') else {
        let end = text.find([',', '\n']).unwrap_or(text.len());
        let field = &text[..end];
        let field =
            if text[end..].starts_with('\n') { field.strip_suffix('\r').unwrap_or(field) } else { field };
        if field.contains('"') {
            return Err("a quote is inside a field that has no quotes around it");
        }
        return Ok((field.into(), &text[field.len()..]));
    };
    let (mut field, mut rest) = (String::new(), quoted);
    loop {
        let Some((part, after)) = rest.split_once('"') else { return Err("a quote is not closed") };
        field += part;
        match after.strip_prefix('"') {
            Some(after) => {
                field.push('"');
                rest = after;
            }
            None if after.is_empty() || after.starts_with([',', '\n']) || after.starts_with("\r\n") => {
                return Ok((field, after));
            }
            None => return Err("text follows a closing quote"),
        }
    }
}

#[cfg(test)]
mod tests;
