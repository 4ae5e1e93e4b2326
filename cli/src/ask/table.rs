//! Reads questions from a CSV file with a header, one row at a time.

use super::draft::Draft;
use super::{say_mu, DEFAULT_REVISION, DEFAULT_REVOLUTIONS};
use crate::csv::{Column, Columns, Row, Rows};
use crate::fields::{self, BODIES};
use crate::mistakes::Mistakes;
use crate::stop::{tell, Stop};
use crate::streams::Input;
use crate::wire::Question;
use crate::words::counted;
use std::io::BufReader;

/// The columns of a question. The last two are optional.
const COLUMNS: [Column; 12] = [
    Column::of("job"),
    Column::with_unit("r1_x", "km"),
    Column::with_unit("r1_y", "km"),
    Column::with_unit("r1_z", "km"),
    Column::with_unit("r2_x", "km"),
    Column::with_unit("r2_y", "km"),
    Column::with_unit("r2_z", "km"),
    Column::with_unit("mu", "km3_s2"),
    Column::with_unit("time", "s"),
    Column::of("way"),
    Column::of("revision"),
    Column::of("revolutions"),
];
const NEEDED: usize = 10;

/// Adds the question of each row to the draft. If there is a mistake, stops with all of them.
pub fn questions(input: &mut Input, ignore_extra: bool, draft: &mut Draft) -> Result<(), Stop> {
    let name = input.name.clone();
    let mut rows = Rows::new(BufReader::new(&mut input.bytes));
    let mut next = || rows.next().map_err(|fault| fault.stop(&name));
    let Some(header) = next()? else {
        return Stop::said(format!("{name}: has no header"));
    };
    let mut mistakes = Mistakes::default();
    let columns = Columns::of_file(&name);
    let columns = columns.read(&header, (&COLUMNS, NEEDED), ignore_extra, "a question", &mut mistakes);
    mistakes.stop()?;
    let mut named = [false; BODIES.len()];
    while let Some(row) = next()? {
        if let Some(question) = question(&row, &columns, &mut mistakes) {
            draft.add(row.line, &question)?;
        }
        for (body, named) in BODIES.iter().zip(&mut named) {
            *named |= columns.cell(&row, "mu").is_some_and(|mu| mu.trim() == body.name);
        }
    }
    draft.differing(&name, &mut mistakes)?;
    mistakes.stop()?;
    if draft.count() == 0 {
        tell(&format!("{name}: has a header and no question"));
    }
    if draft.repeated > 0 {
        let repeat = if draft.repeated == 1 { "repeats" } else { "repeat" };
        tell(&format!("{name}: {} {repeat} an earlier one", counted(draft.repeated, "question")));
    }
    BODIES.iter().zip(named).filter(|(_, named)| *named).for_each(|(body, _)| say_mu(body.name, body.mu));
    Ok(())
}

fn question(row: &Row, columns: &Columns, mistakes: &mut Mistakes) -> Option<Question> {
    if !columns.fit(row, mistakes) {
        return None;
    }
    let before = mistakes.count();
    let value = |name: &str, usual: &'static str| columns.cell(row, name).unwrap_or(usual).to_string();
    let place = |name: &str| columns.place(row, name);
    let mut reals =
        |names: [&str; 3]| names.map(|name| mistakes.take(&place(name), fields::real(&value(name, ""))));
    let (r1, r2) = (reals(["r1_x", "r1_y", "r1_z"]), reals(["r2_x", "r2_y", "r2_z"]));
    let revision = fields::revision(&value("revision", DEFAULT_REVISION));
    let revolutions = fields::revolutions(&value("revolutions", DEFAULT_REVOLUTIONS));
    let question = Question {
        job: mistakes.take(&place("job"), fields::job(&value("job", ""))),
        revision: mistakes.take(&place("revision"), revision),
        revolutions: mistakes.take(&place("revolutions"), revolutions),
        long_way: mistakes.take(&place("way"), fields::way(&value("way", ""))),
        r1,
        r2,
        mu: mistakes.take(&place("mu"), fields::mu(&value("mu", ""))),
        time: mistakes.take(&place("time"), fields::time(&value("time", ""))),
    };
    (mistakes.count() == before).then_some(question)
}
