//! Says which records are in conflict, where they came from, what they say and where they differ first.

use super::difference;
use super::names::Names;
use super::origins::Origin;
use crate::orbit::kind;
use crate::refusal;
use crate::vectors::size;
use crate::wire::slots::{held, Held};
use crate::wire::{Entry, Outcome};
use crate::words::counted;
use crate::words::{component, printable};

pub const CONFLICT: &str = "different records came for this revision; only a higher revision clears it";

/// Returns the sentences that explain a conflict, or say that its records are not known.
pub fn sentences(origin: &Origin, names: &Names) -> Vec<String> {
    let mut said = Vec::new();
    if let Some(slot) = origin.conflict_in {
        let why = "which records caused it is not known, because a board does not keep them";
        said.push(format!("{}, slot {slot}: in conflict already; {why}", printable(&names.stored)));
    }
    let records = origin.records.iter();
    said.extend(records.map(|kept| format!("{}: {}", names.place(kept.place), phrase(&held(&kept.bytes)))));
    if let [one, other] = &origin.records[..] {
        said.extend(difference::first(&one.bytes, &other.bytes).map(|difference| difference.sentence()));
    }
    if origin.more > 0 {
        let s = if origin.more == 1 { "s" } else { "" };
        said.push(format!("{} for this revision differ{s} from both", counted(origin.more, "more record")));
    }
    said
}

/// Returns what a record says.
fn phrase(held: &Held) -> String {
    match held {
        Held::Conflict => CONFLICT.into(),
        Held::Outcome(Outcome::Refused(refusal)) => {
            format!("refused {}: {}", refusal.number, refusal::short(*refusal))
        }
        Held::Outcome(Outcome::Answered(entries)) => {
            let transfers: Vec<String> = entries.iter().map(transfer).collect();
            format!("{}: {}", counted(entries.len() as u64, "transfer"), transfers.join("; "))
        }
        Held::Foreign(entries, words) => impossible(*entries, words),
    }
}

fn transfer(entry: &Entry) -> String {
    let [v1, v2] = [entry.v1, entry.v2].map(|v| component(size(v), size(v)));
    format!("{}, v1 {v1} km/s, v2 {v2} km/s", kind(entry))
}

/// Returns the words for an answer that the solver cannot have written.
pub fn impossible(entries: u16, words: &str) -> String {
    format!("{} that the solver cannot have written: {words}", counted(entries.into(), "transfer"))
}

#[cfg(test)]
mod tests;
