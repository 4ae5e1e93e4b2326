//! Finds the question of a file that is drawn.

use crate::options::Options;
use crate::stop::Stop;
use crate::streams::Input;
use crate::wire::{Fault, Question, Slots};
use std::io::{BufReader, Read};

#[derive(Debug, PartialEq)]
pub enum Choice {
    /// The only question of the file.
    Only,
    Job(u32),
    /// The question in a slot, counted from 1.
    Slot(u64),
}

impl Choice {
    pub fn read(options: &Options) -> Result<Choice, Stop> {
        match (options.value("--job"), options.value("--slot")) {
            (None, None) => Ok(Choice::Only),
            (Some(_), Some(_)) => Stop::said("--job and --slot cannot be used together"),
            (Some(job), None) => match job.parse() {
                Ok(job @ 1..) => Ok(Choice::Job(job)),
                _ => Stop::said("--job takes a whole number from 1 to 4294967295"),
            },
            (None, Some(slot)) => match slot.parse() {
                Ok(slot @ 1..) => Ok(Choice::Slot(slot)),
                _ => Stop::said("--slot takes a whole number from 1"),
            },
        }
    }

    /// Returns the chosen question of an input. If the slot is not a question, the message is the one that `check` prints.
    pub fn question(&self, input: &mut Input) -> Result<Question, Stop> {
        let slots = &mut Slots::new(BufReader::new(&mut input.bytes));
        let name = &input.name;
        let Some(slot) = self.slot(slots, name)? else {
            return Stop::said(format!("{name}: {}", self.missing(slots.number)));
        };
        // A slot that is not a question was read last, since a job is found only in a question. So `slots` has its position.
        let fault = |(at, words)| Fault { offset: slots.offset() + at as u64, number: slots.number, words };
        Question::read(&slot).map_err(|wrong| Stop::Said(fault(wrong).located(name, "slot")))
    }

    /// Returns the chosen slot, or `None` if there is none. Fails if more than one slot fits the choice.
    fn slot(&self, slots: &mut Slots<impl Read>, name: &str) -> Result<Option<Vec<u8>>, Stop> {
        let mut found: Option<(u64, Vec<u8>)> = None;
        while let Some(slot) = slots.next().map_err(|e| Stop::reading(name, &e))? {
            if !self.means(slots.number, &slot) {
                continue;
            }
            if let Some((first, _)) = found {
                return Stop::said(format!("{name}: {}", self.several(first, slots.number)));
            }
            found = Some((slots.number, slot));
            if matches!(self, Choice::Slot(_)) {
                break;
            }
        }
        Ok(found.map(|(_, slot)| slot))
    }

    fn means(&self, number: u64, slot: &[u8]) -> bool {
        match self {
            Choice::Only => true,
            Choice::Job(job) => Question::read(slot).is_ok_and(|question| question.job == *job),
            Choice::Slot(wanted) => *wanted == number,
        }
    }

    fn several(&self, first: u64, second: u64) -> String {
        match self {
            Choice::Job(job) => format!("job {job} is in slots {first} and {second}: choose with --slot"),
            _ => "has more than one slot: choose with --job or --slot".into(),
        }
    }

    fn missing(&self, slots: u64) -> String {
        match self {
            Choice::Only => "has no question".into(),
            Choice::Job(job) if slots == 1 => format!("the only slot has no question of job {job}"),
            Choice::Job(job) => format!("none of the {slots} slots has a question of job {job}"),
            Choice::Slot(number) => format!("there is no slot {number}, the file has {slots}"),
        }
    }
}
