//! Prints records one after the other, in one of the forms, and counts them for the summary of the table.

use super::item::Item;
use super::notes::notes;
use super::pairs::Asked;
use super::table::{Names, Table};
use super::view::{Form, View};
use super::{comma, json};
use crate::terminal::Mark;
use crate::wire::{Outcome, Record};
use crate::words::{counted, wrapped};

pub struct Printer {
    view: View,
    table: Table,
    with_questions: bool,
    tally: Tally,
}

#[derive(Default)]
struct Tally {
    answered: u64,
    refused: u64,
    transfers: u64,
    /// The transfers that pass below the surface, and those of bodies whose radius is not known.
    below: u64,
    unknown: u64,
}

impl Printer {
    pub fn new(view: View, names: Names, with_questions: bool) -> Printer {
        let table = Table::new(names, with_questions, &view);
        Printer { view, table, with_questions, tally: Tally::default() }
    }

    /// Returns the text before the first record.
    pub fn head(&self) -> String {
        match self.view.form {
            Form::Table => self.table.head(),
            Form::Json => String::new(),
            Form::Csv => comma::head(self.with_questions),
        }
    }

    pub fn record(&mut self, record: &Record, asked: &Asked) -> String {
        self.item(Item::new(record, asked, self.view.radius))
    }

    /// Returns one line for refusals that differ only in the whole revolutions of their questions: these are from those
    /// of `asked` to `last`.
    pub fn equal_refusals(&mut self, record: &Record, asked: &Asked, last: u16) -> String {
        self.item(Item { last: Some(last), ..Item::new(record, asked, self.view.radius) })
    }

    fn item(&mut self, item: Item) -> String {
        self.tally.add(&item);
        match self.view.form {
            Form::Table => self.table.item(&item, &self.view),
            Form::Json => json::item(&item),
            Form::Csv => comma::item(&item),
        }
    }

    /// Returns the text after the last record: in a table the summary, and what has to be known of the columns.
    pub fn foot(&self) -> String {
        match self.view.form {
            Form::Table if self.tally.transfers == 0 => self.summary(),
            Form::Table => self.summary() + &notes(self.with_questions, &self.view),
            _ => String::new(),
        }
    }

    /// Returns the text after a record that is the last only because of a fault.
    pub fn cut(&self, why: &str) -> String {
        match self.view.form {
            Form::Table => self.summary() + &self.lines(&format!("INCOMPLETE: {why}"), Some(Mark::Warning)),
            Form::Json => json::incomplete(why),
            Form::Csv => comma::incomplete(why, self.with_questions),
        }
    }

    /// Returns how many records there are of each outcome, and what has to be known of their transfers.
    fn summary(&self) -> String {
        let Tally { answered, refused, transfers, below, unknown } = self.tally;
        let found = counted(transfers, "transfer");
        let mut counts = match (answered, refused) {
            (0, 0) => "0 records: there is nothing to show".into(),
            (_, 0) => format!("{} answered with {found}", counted(answered, "record")),
            (0, _) => format!("{} refused", counted(refused, "record")),
            _ => {
                let all = counted(answered + refused, "record");
                format!("{all}: {answered} answered with {found}, {refused} refused")
            }
        };
        if refused > 0 && !self.view.explain {
            counts += "; --explain says what a refusal means";
        }
        let mut text = self.lines(&counts, None);
        if below > 0 {
            let pass = if below == 1 { "passes" } else { "pass" };
            let words = format!("{} {pass} below the surface", counted(below, "transfer"));
            text += &self.lines(&words, Some(Mark::Warning));
        }
        if unknown > 0 {
            let words = "could not be checked against a surface: give the body's radius with --radius";
            text += &self.lines(&format!("{} {words}", counted(unknown, "transfer")), None);
        }
        text
    }

    /// Returns a sentence in lines that fit the output.
    fn lines(&self, sentence: &str, mark: Option<Mark>) -> String {
        let lines = wrapped(sentence, self.view.width(), "").join("\n") + "\n";
        mark.map_or(lines.clone(), |mark| self.view.colour.paint(mark, &lines))
    }
}

impl Tally {
    fn add(&mut self, item: &Item) {
        match item.record.outcome {
            Outcome::Refused(_) => self.refused += item.count(),
            Outcome::Answered(_) => self.answered += 1,
        }
        for transfer in item.transfers() {
            self.transfers += 1;
            self.below += u64::from(transfer.facts.is_some_and(|facts| facts.passed().is_some()));
            self.unknown += u64::from(transfer.facts.is_some_and(|facts| facts.surface.is_none()));
        }
    }
}
