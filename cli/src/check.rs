//! `check`: prints the counts of a well-formed file, or where a file is not well-formed.

mod voids;

use crate::expected;
use crate::options::Options;
use crate::stop::Stop;
use crate::streams::{write_text, Input};
use crate::wire::refusal::INCOMPLETE;
use crate::wire::{Fault, Outcome, Question, Records, Slots};
use crate::words::counted;
use std::collections::BTreeMap;
use std::io::BufReader;
use voids::Voids;

pub fn run(words: &[String]) -> Result<u8, Stop> {
    let options = Options::read(words, &["--questions"], &[])?;
    let summary = match options.has("--questions") {
        true => questions(expected::questions(options.file()?)?)?,
        false => records(expected::records(options.file()?)?)?,
    };
    write_text(None, &[], &summary)?;
    Ok(0)
}

fn questions(input: Input) -> Result<String, Stop> {
    let name = input.name;
    let mut slots = Slots::new(BufReader::new(input.bytes));
    while let Some(slot) = slots.next().map_err(|e| Stop::reading(&name, &e))? {
        if let Err((at, words)) = Question::read(&slot) {
            let offset = slots.offset() + at as u64;
            return Stop::said(Fault { offset, number: slots.number, words }.located(&name, "slot"));
        }
    }
    Ok(format!("{name}: {}, well-formed\n", counted(slots.number, "question")))
}

fn records(input: Input) -> Result<String, Stop> {
    let name = input.name;
    let mut records = Records::new(BufReader::new(input.bytes));
    let mut answers = BTreeMap::new();
    let (mut refusals, mut voids) = (BTreeMap::new(), Voids::default());
    loop {
        let next = records.next().map_err(|e| Stop::reading(&name, &e))?;
        match next.map_err(|fault| Stop::Said(fault.located(&name, "record")))?.map(|record| record.outcome) {
            None => break,
            Some(Outcome::Answered(entries)) => *answers.entry(entries.len()).or_insert(0u64) += 1,
            Some(Outcome::Refused(refusal)) => {
                *refusals.entry(refusal.number).or_insert(0u64) += 1;
                refusal.void.into_iter().for_each(|void| voids.add(void));
            }
        }
    }
    let all = counted(records.number, "record");
    let mut told = format!("{name}: {all}, {} bytes, well-formed\n", records.offset);
    for (entries, count) in answers {
        told += &format!("{count} answered with {entries} transfer{}\n", if entries == 1 { "" } else { "s" });
    }
    for (number, count) in refusals {
        told += &format!("{count} refused with number {number}\n");
        if number == INCOMPLETE {
            told += &voids.lines();
        }
    }
    Ok(told)
}
