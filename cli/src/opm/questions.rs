//! The questions of an input by job and revision, in any order. Equal questions of a job and revision count
//! as one. Only the questions of the given outcomes are kept.

use super::outcomes::{words_of, Outcomes};
use super::request::Key;
use crate::stop::Stop;
use crate::streams::Input;
use crate::wire::{Question, Slots};
use std::collections::BTreeMap;
use std::io::BufReader;

pub struct Questions {
    name: String,
    slots: u64,
    /// The number of slots that are not questions. They have no job.
    others: u64,
    /// The first question of each job and revision, and whether a different one came.
    by_key: BTreeMap<Key, (Question, bool)>,
}

impl Questions {
    pub fn read(input: &mut Input, outcomes: &Outcomes) -> Result<Questions, Stop> {
        let Input { name, bytes, .. } = input;
        let mut slots = Slots::new(BufReader::new(bytes));
        let (mut others, mut by_key) = (0, BTreeMap::new());
        while let Some(slot) = slots.next().map_err(|e| Stop::reading(name, &e))? {
            let Ok(question) = Question::read(&slot) else {
                others += 1;
                continue;
            };
            let key = (question.job, question.revision);
            if !outcomes.has(key) {
                continue;
            }
            let (first, conflict) = by_key.entry(key).or_insert_with(|| (question, false));
            // The bytes are compared, since a NaN is not equal to itself.
            *conflict |= first.bytes() != slot;
        }
        Ok(Questions { name: name.clone(), slots: slots.number, others, by_key })
    }

    /// Returns the only question of a job and revision, or a sentence that says why there is none.
    pub fn find(&self, key: Key) -> Result<&Question, String> {
        let Questions { name, slots, others, by_key } = self;
        let which = words_of(key);
        match by_key.get(&key) {
            Some((question, false)) => Ok(question),
            Some(_) => {
                Err(format!("{name}: has different questions of {which}: nothing says which was answered"))
            }
            None => {
                let rest = if *others == 0 { "" } else { &format!(", of which {others} hold no question") };
                Err(format!("{name}: has no question of {which} (slots: {slots}{rest})"))
            }
        }
    }
}
