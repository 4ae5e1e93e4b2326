//! A board as CSV: a line for each transfer, refusal or conflict and, if something is missing, a last line that says what. Fields that
//! do not apply are empty.

use super::conflict::{impossible, CONFLICT};
use super::difference;
use super::origins::Origin;
use super::posting::Posting;
use crate::csv::line;
use crate::orbit::{kind, x_of};
use crate::refusal::{self, void_station};
use crate::vectors::size;
use crate::wire::slots::{filled, Filled, Held};
use crate::wire::{Entry, Outcome};

const HEAD: &str = "job,revision,state,number,meaning,transfer,transfers,orbit,x,v1_size_km_s,v2_size_km_s,\
    conflict_file_1,conflict_byte_1,conflict_file_2,conflict_byte_2,";
/// How many columns are before those of a conflict, before those of a void station, and in all.
const CONFLICT_AT: usize = 11;
const VOID_AT: usize = 15;
const COLUMNS: usize = 18;
/// How many columns are before the fields that follow the state.
const SAID_AT: usize = 3;

pub fn lines(posting: &Posting) -> String {
    let slots = filled(&posting.board).map(|slot| rows(&slot, posting));
    let none = String::new;
    let missing =
        posting.tally.missing().map(|words| row([none(), none()], "incomplete", vec![none(), words]));
    HEAD.to_string() + void_station::COLUMNS + "\n" + &slots.chain(missing).collect::<String>()
}

/// Returns a line with a job and a revision, a state and the fields after it. The fields that are left are empty.
fn row(of: [String; 2], state: &str, said: Vec<String>) -> String {
    let mut fields = [&of[..], &[state.into()], &said].concat();
    fields.resize(COLUMNS, String::new());
    line(&fields)
}

fn rows(slot: &Filled, posting: &Posting) -> String {
    let row =
        |state: &str, said| row([slot.job, slot.revision].map(|number| number.to_string()), state, said);
    match &slot.held {
        Held::Conflict => row("conflict", conflict(posting.origins.of(slot.job), posting)),
        Held::Outcome(Outcome::Refused(refusal)) => {
            let mut said = vec![refusal.number.to_string(), refusal::words(*refusal)];
            said.resize(VOID_AT - SAID_AT, String::new());
            said.extend(void_station::fields(refusal.void));
            row("refused", said)
        }
        Held::Outcome(Outcome::Answered(entries)) => {
            let which = |i: usize| [(i + 1).to_string(), entries.len().to_string()];
            let counted = entries.iter().enumerate();
            counted.map(|(i, entry)| row("answered", transfer(entry, which(i)))).collect()
        }
        Held::Foreign(entries, words) => {
            let none = String::new;
            row("answered", vec![none(), impossible(*entries, words), none(), entries.to_string()])
        }
    }
}

/// Returns the fields of a transfer after its state.
fn transfer(entry: &Entry, [transfer, transfers]: [String; 2]) -> Vec<String> {
    let float = |value: f64| format!("{value:?}");
    let mut fields = vec![String::new(), String::new(), transfer, transfers, kind(entry).into()];
    fields.extend([x_of(entry.chosen()), size(entry.v1), size(entry.v2)].map(float));
    fields
}

/// Returns the fields of a conflict after its state. The places of records that are not known are empty.
fn conflict(origin: Option<&Origin>, posting: &Posting) -> Vec<String> {
    let records = origin.map(|origin| &origin.records[..]).unwrap_or_default();
    let differ = match records {
        [one, other] => difference::first(&one.bytes, &other.bytes),
        _ => None,
    };
    let differ = differ.map(|found| format!("; {}", found.sentence())).unwrap_or_default();
    let mut fields = vec![String::new(), format!("{CONFLICT}{differ}")];
    fields.resize(CONFLICT_AT - SAID_AT, String::new());
    for kept in records {
        let (file, byte) = posting.names.file_and_byte(kept.place);
        fields.extend([file.into(), byte.to_string()]);
    }
    fields
}

#[cfg(test)]
mod tests;
