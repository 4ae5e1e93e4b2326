//! Reads the list of orbit messages from a CSV file with a header.

use super::request::{Place, Request};
use super::texts::{self, Text};
use crate::csv::{Column, Columns, Row, Rows};
use crate::fields;
use crate::mistakes::Mistakes;
use crate::stop::Stop;
use crate::streams::Input;
use std::io::BufReader;
use std::rc::Rc;

/// The columns of the list beside those of the texts. The first is needed.
const COLUMNS: [&str; 3] = ["job", "revision", "entry"];
const NEEDED: usize = 1;

/// Returns a request for each line of the list, and records the mistakes of the lines. Fails if the header
/// has a mistake. A text in the list is used instead of the option's, and an empty field counts as not given.
pub fn requests(
    input: &mut Input,
    ignore_extra: bool,
    given: &[Option<Text>; 8],
    mistakes: &mut Mistakes,
) -> Result<Vec<Request>, Stop> {
    let file: Rc<str> = input.name.as_str().into();
    let mut rows = Rows::new(BufReader::new(&mut input.bytes));
    let mut next = || rows.next().map_err(|fault| fault.stop(&file));
    let Some(header) = next()? else {
        return Stop::said(format!("{file}: has no header"));
    };
    let known: Vec<Column> = COLUMNS.iter().chain(&texts::COLUMNS).map(|name| Column::of(name)).collect();
    let mut wrong = Mistakes::default();
    let columns = Columns::of_file(&file);
    let columns =
        columns.read(&header, (&known, NEEDED), ignore_extra, "a list of orbit messages", &mut wrong);
    for ((option, column), text) in texts::OPTIONS.iter().zip(texts::COLUMNS).zip(given) {
        if text.is_none() && !columns.has(column) {
            wrong.push(format!("{option}: is missing, and the list has no column {column}"));
        }
    }
    wrong.stop()?;
    let mut requests = Vec::new();
    while let Some(row) = next()? {
        requests.extend(request(&row, Place::Line(file.clone(), row.line), &columns, given, mistakes));
    }
    Ok(requests)
}

/// Returns the request of a line, or `None` if the line has a mistake.
fn request(
    row: &Row,
    place: Place,
    columns: &Columns,
    given: &[Option<Text>; 8],
    mistakes: &mut Mistakes,
) -> Option<Request> {
    if !columns.fit(row, mistakes) {
        return None;
    }
    let before = mistakes.count();
    let mut texts: [Text; 8] = Default::default();
    for (i, column) in texts::COLUMNS.iter().enumerate() {
        let found = text(row, &place, columns, column).or(given[i].clone());
        let missing = || format!("is empty, and {} is missing", texts::OPTIONS[i]);
        texts[i] = mistakes.take(&place.of(column), found.ok_or_else(missing));
    }
    let mut whole = |name: &str, read: fn(&str) -> Result<u32, String>| {
        let cell = columns.cell(row, name).filter(|cell| !cell.trim().is_empty());
        cell.map(|cell| mistakes.take(&place.of(name), read(cell)))
    };
    let (revision, entry) = (whole("revision", fields::revision), whole("entry", fields::entry));
    let job = columns.cell(row, "job").unwrap_or_default();
    let job = Some(mistakes.take(&place.of("job"), fields::job(job)));
    (mistakes.count() == before).then_some(Request { place, job, revision, entry, texts })
}

fn text(row: &Row, place: &Place, columns: &Columns, column: &str) -> Option<Text> {
    let value = columns.cell(row, column).filter(|value| !value.is_empty())?;
    Some(Text { place: place.of(column), value: value.into() })
}
