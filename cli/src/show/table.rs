//! Records as a table for people: a line for each transfer or refusal, what has to be known about it below, and a
//! summary at the end.

use super::columns::{cells, columns};
use super::facts::Facts;
use super::item::{Item, Transfer};
use super::layout::{number, words, Layout};
use super::pairs::Asked;
use super::view::View;
use super::{detail, refused};
use crate::refusal::NOT_SAID;
use crate::terminal::Mark;
use crate::wire::{Outcome, Question, Record, Refusal};
use crate::words::wrapped;

/// What the first two columns name a record by.
#[derive(Clone, Copy, PartialEq)]
pub enum Names {
    JobAndRevision,
    /// For questions that have no job of their own.
    WayAndRevolutions,
}

pub struct Table {
    names: Names,
    layout: Layout,
}

impl Table {
    pub fn new(names: Names, with_questions: bool, view: &View) -> Table {
        let mut columns = match names {
            Names::JobAndRevision => vec![number("job", 6), number("revision", 8)],
            Names::WayAndRevolutions => vec![words("way", 5), number("revolutions", 11)],
        };
        columns.extend(super::columns::columns(with_questions));
        Table { names, layout: Layout::new(columns, 2, view.columns) }
    }

    pub fn head(&self) -> String {
        self.layout.head()
    }

    pub fn item(&self, item: &Item, view: &View) -> String {
        let text = match item.record.outcome {
            Outcome::Refused(refusal) => self.refusal(self.names(item), refusal, item, view),
            Outcome::Answered(_) => {
                let rows = item.transfers().map(|transfer| self.transfer(&transfer, item, view));
                rows.collect()
            }
        };
        let asked = if view.detail { detail::asked(item.asked) } else { Vec::new() };
        let note = item.note().map(|note| self.indented(&[format!("NOTE: {note}")], view));
        text + &note.unwrap_or_default() + &self.indented(&asked, view)
    }

    fn names(&self, item: &Item) -> [String; 2] {
        match (self.names, item.asked) {
            (Names::WayAndRevolutions, Asked::Known(question)) => {
                let revolutions = match item.last {
                    Some(last) if last > question.revolutions => {
                        format!("{} to {last}", question.revolutions)
                    }
                    _ => question.revolutions.to_string(),
                };
                [question.way().into(), revolutions]
            }
            _ => [item.record.job.to_string(), item.record.revision.to_string()],
        }
    }

    fn transfer(&self, transfer: &Transfer, item: &Item, view: &View) -> String {
        let names = if transfer.number == 1 { self.names(item) } else { Default::default() };
        let mut text = self.layout.row(&[&names[..], &cells(transfer)].concat());
        for warning in transfer.facts.map(Facts::warnings).unwrap_or_default() {
            let lines = self.indented(&[format!("WARNING: {warning}")], view);
            text += &view.colour.paint(Mark::Warning, &lines);
        }
        let detail = if view.detail { detail::transfer(transfer) } else { Vec::new() };
        text + &self.indented(&detail, view)
    }

    fn refusal(&self, names: [String; 2], refusal: Refusal, item: &Item, view: &View) -> String {
        let (question, number) = (item.question(), refusal.number);
        let line = match item.asked {
            Asked::NoQuestion(why) => format!("refused {number}: {why}; {NOT_SAID}"),
            _ => format!("refused {number}: {}", refused::short(refusal, question)),
        };
        let mut lines = vec![line];
        if view.explain {
            lines.extend([refused::words(refusal, question), refused::advice(number, question)]);
        }
        let text = self.indented(&lines, view);
        let text = view.colour.paint(Mark::Refusal, &text);
        // The names take the place of the first line's indent. If they are longer, two blanks follow them.
        let head = self.layout.row(&Vec::from(names));
        let head = format!("{:<1$}", format!("{}  ", head.trim_end()), self.layout.indent());
        text.replacen(&" ".repeat(self.layout.indent()), &head, 1)
    }

    /// Returns sentences below a row, each broken into lines that fit the output.
    fn indented(&self, sentences: &[String], view: &View) -> String {
        let indent = " ".repeat(self.layout.indent());
        let width = view.width().saturating_sub(indent.len()).max(20);
        let lines = sentences.iter().flat_map(|sentence| wrapped(sentence, width - 2, "  "));
        lines.map(|line| format!("{indent}{line}\n")).collect()
    }
}

/// Returns the transfers of an answer as lines, without job and revision. The first line is the header.
pub fn transfers(record: &Record, question: &Question) -> Vec<String> {
    let asked = Asked::Known(question.clone());
    let (item, columns) = (Item::new(record, &asked, None), columns(true));
    let layout = Layout::new(columns, 0, None);
    let mut lines = vec![layout.head()];
    for transfer in item.transfers() {
        lines.push(layout.row(&cells(&transfer)));
        let warnings = transfer.facts.map(Facts::warnings).unwrap_or_default();
        lines.extend(warnings.iter().map(|warning| format!("WARNING: {warning}")));
    }
    lines.into_iter().map(|line| line.trim_end().into()).collect()
}

#[cfg(test)]
mod tests;
