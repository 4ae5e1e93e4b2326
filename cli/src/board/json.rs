//! A board as JSON: an object for each filled slot, on one line. If something is missing, the last object says what.

use super::conflict::impossible;
use super::difference::{first, Difference};
use super::names::Names;
use super::origins::{Kept, Origin, Place};
use super::posting::Posting;
use crate::json::{array, number, object, string};
use crate::orbit::{kind, x_of};
use crate::refusal::{self, void_station};
use crate::vectors::size;
use crate::wire::slots::{filled, held, Filled, Held};
use crate::wire::{Entry, Outcome};

type Fields = Vec<(&'static str, String)>;

pub fn lines(posting: &Posting) -> String {
    let slots = filled(&posting.board).map(|slot| object(fields(&slot, posting)) + "\n");
    let missing = posting.tally.missing().map(|words| object(incomplete(&words)) + "\n");
    slots.chain(missing).collect()
}

fn fields(slot: &Filled, posting: &Posting) -> Fields {
    let mut fields = vec![("job", slot.job.to_string()), ("revision", slot.revision.to_string())];
    fields.extend(outcome(&slot.held));
    if let (Held::Conflict, Some(origin)) = (&slot.held, posting.origins.of(slot.job)) {
        fields.extend(conflict(origin, &posting.names));
    }
    fields
}

/// Returns the fields of the last object. They say what is missing on the board.
fn incomplete(words: &str) -> Fields {
    vec![("state", string("incomplete")), ("meaning", string(words))]
}

/// Returns the state of a slot or a record, and what it says.
fn outcome(held: &Held) -> Fields {
    let state = |name| ("state", string(name));
    match held {
        Held::Conflict => vec![state("conflict")],
        Held::Outcome(Outcome::Refused(refusal)) => {
            let (number, meaning) = (refusal.number.to_string(), string(&refusal::words(*refusal)));
            let void = refusal.void.map(|void| (void_station::NAME, void_station::object(void)));
            [state("refused"), ("number", number), ("meaning", meaning)].into_iter().chain(void).collect()
        }
        Held::Outcome(Outcome::Answered(entries)) => {
            vec![state("answered"), ("transfers", array(entries.iter().map(transfer)))]
        }
        Held::Foreign(entries, words) => {
            vec![
                state("answered"),
                ("transfers", "null".into()),
                ("fault", string(&impossible(*entries, words))),
            ]
        }
    }
}

/// Returns the records of a conflict as far as they are known, and their first difference.
fn conflict(origin: &Origin, names: &Names) -> Fields {
    let mut fields = Vec::new();
    if let Some(slot) = origin.conflict_in {
        let stored = [("file", string(&names.stored)), ("slot", slot.to_string())];
        fields.push(("stored_conflict", object(stored)));
    }
    fields.push(("records", array(origin.records.iter().map(|kept| record(kept, names)))));
    if let [one, other] = &origin.records[..] {
        fields.extend(first(&one.bytes, &other.bytes).map(|found| ("first_difference", difference(&found))));
    }
    fields.push(("more_records", origin.more.to_string()));
    fields
}

fn record(kept: &Kept, names: &Names) -> String {
    let (file, byte) = names.file_and_byte(kept.place);
    let mut fields = vec![("file", string(file)), ("byte", byte.to_string())];
    if let Place::Stored { slot } = kept.place {
        fields.push(("slot", slot.to_string()));
    }
    fields.extend(outcome(&held(&kept.bytes)));
    object(fields)
}

fn difference(found: &Difference) -> String {
    let values = found.values.iter().map(|value| match value.parse::<f64>() {
        Ok(float) if float.is_finite() => value.clone(),
        _ => string(value),
    });
    object([("byte", found.byte.to_string()), ("field", string(&found.field)), ("values", array(values))])
}

fn transfer(entry: &Entry) -> String {
    object([
        ("orbit", string(kind(entry))),
        ("x", number(x_of(entry.chosen()))),
        ("k", entry.chosen().to_string()),
        ("v1_km_s", array(entry.v1.into_iter().map(number))),
        ("v1_size_km_s", number(size(entry.v1))),
        ("v2_km_s", array(entry.v2.into_iter().map(number))),
        ("v2_size_km_s", number(size(entry.v2))),
    ])
}

#[cfg(test)]
mod tests;
