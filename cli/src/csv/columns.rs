//! The columns of a CSV file that has a header. The message for a mistake gives the file, the line and, if there is one,
//! the column.

use super::Row;
use crate::mistakes::Mistakes;
use crate::similar::similar;
use crate::stop::tell;
use crate::words::{quoted, shortened};

/// A column that a file may have. Its header is the name, or the name with the unit.
#[derive(Clone, Copy)]
pub struct Column {
    pub name: &'static str,
    pub unit: Option<&'static str>,
}

impl Column {
    pub const fn of(name: &'static str) -> Column {
        Column { name, unit: None }
    }

    pub const fn with_unit(name: &'static str, unit: &'static str) -> Column {
        Column { name, unit: Some(unit) }
    }

    fn is(&self, header: &str) -> bool {
        header == self.name || self.unit.is_some_and(|unit| header == format!("{}_{unit}", self.name))
    }
}

pub struct Columns {
    file: String,
    /// The names in the order of the header. A column that is left out has none.
    names: Vec<Option<&'static str>>,
}

impl Columns {
    /// Returns the columns of a file in the order of its header, before the header was read.
    pub fn of_file(file: &str) -> Columns {
        Columns { file: file.into(), names: Vec::new() }
    }

    /// Reads the header, and records its mistakes. A header may have the columns in `known`, in any order, and must
    /// have the first `needed` of them. Other columns are left out if `ignore` is true, and otherwise a mistake.
    /// `what` says in the messages what a row holds.
    pub fn read(
        mut self,
        header: &Row,
        (known, needed): (&[Column], usize),
        ignore: bool,
        what: &str,
        mistakes: &mut Mistakes,
    ) -> Columns {
        let file = self.file.clone();
        let mut left_out = Vec::new();
        for name in header.fields.iter().map(|name| name.trim()) {
            let column = known.iter().find(|column| column.is(name)).map(|column| column.name);
            match column {
                None if ignore && meant(name, known).is_none() => left_out.push(shortened(name)),
                None => mistakes.push(format!("{file}: line 1, column {}", unknown(name, known, what))),
                Some(_) if self.names.contains(&column) => {
                    mistakes.push(format!("{file}: line 1, column {name}: is there twice"));
                }
                Some(_) => {}
            }
            self.names.push(column);
        }
        if !left_out.is_empty() {
            tell(&format!("{file}: these columns are left out: {}", left_out.join(", ")));
        }
        for column in known[..needed].iter().filter(|column| !self.has(column.name)) {
            mistakes.push(format!("{}: line 1, column {}: is missing", self.file, column.name));
        }
        self
    }

    /// Reports whether a row has a field for each column, and records a mistake if it has not.
    pub fn fit(&self, row: &Row, mistakes: &mut Mistakes) -> bool {
        let (has, header) = (row.fields.len(), self.names.len());
        if has != header {
            let s = if has == 1 { "" } else { "s" };
            let words = format!("has {has} field{s}, but the header has {header}");
            mistakes.push(format!("{}: line {}: {words}", self.file, row.line));
        }
        has == header
    }

    /// Returns the words for the place of a field.
    pub fn place(&self, row: &Row, name: &str) -> String {
        format!("{}: line {}, column {name}", self.file, row.line)
    }

    pub fn has(&self, name: &str) -> bool {
        self.names.contains(&Some(name))
    }

    /// Returns the field of a row in a column, or `None` if there is none.
    pub fn cell<'a>(&self, row: &'a Row, name: &str) -> Option<&'a str> {
        let at = self.names.iter().position(|column| *column == Some(name))?;
        row.fields.get(at).map(String::as_str)
    }
}

/// Returns the known column that a header resembles, whatever its case.
fn meant(name: &str, known: &[Column]) -> Option<&'static str> {
    similar(&name.to_lowercase(), known.iter().map(|column| column.name))
}

/// Returns a message for a column that is not known.
fn unknown(name: &str, known: &[Column], what: &str) -> String {
    let hint = match meant(name, known) {
        Some(column) => format!("did you mean {column}?"),
        None if name.contains(';') => "the fields are separated by commas, not by semicolons".into(),
        None => "--ignore-extra leaves such columns out".into(),
    };
    format!("{}: is not a column of {what}; {hint}", quoted(name))
}
