//! Finds the question of each record: the one at the same position. Its job and revision must be those of the record.

use crate::belongs;
use crate::expected;
use crate::stop::Stop;
use crate::streams::FileId;
use crate::wire::{Outcome, Question, Record, Refusal, Slots};
use std::io::{BufReader, Read};

pub enum Asked {
    /// No questions were given.
    Unknown,
    /// The slot is not a question, and its record is refused with number 1. The words say which slot it is and why.
    NoQuestion(String),
    Known(Question),
}

type Source = Slots<BufReader<Box<dyn Read + Send>>>;

/// The questions of the records, if they were given.
pub struct Pairs {
    questions: Option<(String, Source)>,
}

impl Pairs {
    /// Opens the questions, if a name is given. Returns which file they are too.
    pub fn open(name: Option<&str>) -> Result<(Pairs, Option<FileId>), Stop> {
        let Some(name) = name else { return Ok((Pairs { questions: None }, None)) };
        let input = expected::questions(Some(name))?;
        let id = input.id();
        Ok((Pairs { questions: Some((input.name, Slots::new(BufReader::new(input.bytes)))) }, id))
    }

    /// Returns the question of the next record, whose position is `number`. After the last record the caller passes `None`; then the
    /// call fails if a question is left.
    pub fn next(&mut self, record: Option<&Record>, number: u64) -> Result<Asked, Stop> {
        let Some((name, slots)) = &mut self.questions else { return Ok(Asked::Unknown) };
        let slot = slots.next().map_err(|e| Stop::reading(name, &e))?;
        match (record, slot) {
            (None, None) => Ok(Asked::Unknown),
            (None, Some(_)) => Stop::said(format!("{name}: there are more questions than records")),
            (Some(_), None) => Stop::said(format!("{name}: there are fewer questions than records")),
            (Some(record), Some(slot)) => paired(record, &slot, number)
                .or_else(|words| Stop::said(format!("{name}: slot {number} {words}"))),
        }
    }
}

fn paired(record: &Record, slot: &[u8], number: u64) -> Result<Asked, String> {
    let damaged = matches!(record.outcome, Outcome::Refused(Refusal { number: 1, .. }));
    match Question::read(slot) {
        Err((_, words)) if damaged => {
            Ok(Asked::NoQuestion(format!("slot {number} is not a question: {words}")))
        }
        Err((_, words)) => Err(format!("is not a question ({words}), but its record does not say so")),
        Ok(_) if damaged => Err("is a question, but its record says that it is not".into()),
        Ok(asked) if (asked.job, asked.revision) == (record.job, record.revision) => {
            match belongs::fault(&asked, &record.outcome) {
                None => Ok(Asked::Known(asked)),
                Some(words) => Err(format!(
                    "(job {}, revision {}) is not the question that its record answers: {words}",
                    asked.job, asked.revision
                )),
            }
        }
        Ok(asked) => Err(format!(
            "is job {}, revision {}, but its record is of job {}, revision {}",
            asked.job, asked.revision, record.job, record.revision
        )),
    }
}
