//! A record that is printed, with its question and the facts of its transfers.

use super::facts::Facts;
use super::pairs::Asked;
use crate::wire::{Entry, Outcome, Question, Record};

pub struct Item<'a> {
    pub record: &'a Record,
    pub asked: &'a Asked,
    /// If the item stands for several refusals, the whole revolutions of the last one. They rise by 1.
    pub last: Option<u16>,
    /// The facts of each transfer, if the question is known.
    pub facts: Vec<Facts>,
}

/// A transfer of an item: its position, counted from 1, and how many there are.
pub struct Transfer<'a> {
    pub entry: &'a Entry,
    pub number: usize,
    pub count: usize,
    pub facts: Option<&'a Facts>,
}

impl<'a> Item<'a> {
    /// Returns the item of a record. `radius` is that of the body in km, if it was given.
    pub fn new(record: &'a Record, asked: &'a Asked, radius: Option<f64>) -> Item<'a> {
        let facts = match (&record.outcome, asked) {
            (Outcome::Answered(entries), Asked::Known(question)) => {
                entries.iter().map(|entry| Facts::of(question, entry, radius)).collect()
            }
            _ => Vec::new(),
        };
        Item { record, asked, last: None, facts }
    }

    pub fn question(&self) -> Option<&'a Question> {
        match self.asked {
            Asked::Known(question) => Some(question),
            _ => None,
        }
    }

    /// Returns what an answer with whole revolutions and one transfer does not say. The time of flight falls to its least and rises again,
    /// so every longer time has two transfers.
    pub fn note(&self) -> Option<&'static str> {
        let revolutions = self.question().is_some_and(|question| question.revolutions > 0);
        let one = matches!(&self.record.outcome, Outcome::Answered(entries) if entries.len() == 1);
        (revolutions && one).then_some("with whole revolutions a second transfer exists beyond the search")
    }

    /// Returns the number of records that the item stands for.
    pub fn count(&self) -> u64 {
        let first = self.question().map_or(0, |question| question.revolutions);
        self.last.map_or(1, |last| u64::from(last - first) + 1)
    }

    /// Returns the transfers. A refusal has none.
    pub fn transfers(&self) -> impl Iterator<Item = Transfer<'_>> {
        let entries = match &self.record.outcome {
            Outcome::Answered(entries) => &entries[..],
            Outcome::Refused(_) => &[],
        };
        let count = entries.len();
        let numbered = entries.iter().enumerate();
        numbered.map(move |(i, entry)| Transfer { entry, number: i + 1, count, facts: self.facts.get(i) })
    }
}
