//! Makes an orbit message. The proved library writes it or refuses it; this file finds the record and the
//! question, and puts each refusal into words.

use super::outcomes::words_of;
use super::request::{Key, Request};
use super::sources::Sources;
use super::texts;
use crate::belongs;
use crate::proved::orbit_message;
use crate::refusal;
use crate::show::facts::Facts;
use crate::show::table;
use crate::wire::{Entry, Outcome, Question, Record, Refusal};
use crate::words::number;

/// The numbers of the refusals, B1, B5, B6 and B7.
const MALFORMED: u64 = 1;
const TEXT: u64 = 5;
const NO_ENTRY: u64 = 6;
const NOT_WRITABLE: u64 = 7;

/// The size that a number of an orbit message does not reach.
const LIMIT: f64 = 1e7;

pub struct OrbitMessage {
    pub job: u32,
    pub revision: u32,
    pub entry: u32,
    pub bytes: Vec<u8>,
    /// What the orbit message does not say.
    pub warnings: Vec<String>,
}

/// Returns the orbit message that is asked for, or the sentences that say why there is none.
pub fn make(request: &Request, sources: &Sources) -> Result<OrbitMessage, Vec<String>> {
    let say = |words| vec![request.place.say(words)];
    let bytes = sources.outcomes.chosen(request).map_err(say)?;
    let record = Record::read(bytes).map_err(|(_, words)| say(words))?;
    let key = (record.job, record.revision);
    let entries = match &record.outcome {
        Outcome::Refused(refusal) => return Err(say(refused(key, *refusal))),
        Outcome::Answered(entries) => entries,
    };
    let question = sources.questions.find(key).map_err(say)?;
    if let Some(words) = belongs::fault(question, &record.outcome) {
        let which = words_of(key);
        return Err(say(format!(
            "the record of {which} does not answer the question of that job and revision: {words}"
        )));
    }
    let entry = match (request.entry, &entries[..]) {
        (Some(entry), _) => entry,
        (None, [_]) => 1,
        (None, _) => return Err(say(several(request, &record, question, entries.len()))),
    };
    match orbit_message(bytes, entry.into(), question.r1, &texts::lines(&request.texts)) {
        Ok(bytes) => {
            let facts = Facts::of(question, &entries[entry as usize - 1], sources.radius);
            let which = format!("{}, transfer {entry}", words_of(key));
            Ok(OrbitMessage { job: key.0, revision: key.1, entry, bytes, warnings: warnings(&which, &facts) })
        }
        Err(TEXT) => Err(texts::why(&request.texts)),
        Err(NO_ENTRY) => Err(vec![no_entry(request, key, entry, entries)]),
        Err(NOT_WRITABLE) => Err(say(not_writable(key, question, &entries[entry as usize - 1]))),
        Err(MALFORMED) => Err(say(format!("the record of {} is malformed (B1)", words_of(key)))),
        Err(number) => Err(say(format!("the orbit message of {} is refused with B{number}", words_of(key)))),
    }
}

fn warnings(which: &str, facts: &Facts) -> Vec<String> {
    let mut warnings: Vec<String> = facts.warnings().iter().map(|words| format!("{which} {words}")).collect();
    if facts.surface.is_none() {
        let how = "give the body's radius with --radius";
        warnings.push(format!("{which} could not be checked against a surface: {how}"));
    }
    warnings
}

fn refused(key: Key, refusal: Refusal) -> String {
    let record = format!("the record of {} is a refusal, so it has no entry to write", words_of(key));
    format!("{record}. Refusal {}: {}", refusal.number, refusal::words(refusal))
}

/// Returns a sentence that says that an answer has several transfers, and lists them as `show` does.
fn several(request: &Request, record: &Record, question: &Question, count: usize) -> String {
    let how = request.place.choose("entry");
    let lines: String = table::transfers(record, question).iter().map(|line| format!("\n  {line}")).collect();
    let which = words_of((record.job, record.revision));
    format!("{which} has {count} transfers, and an orbit message has one: {how}, 1 to {count}{lines}")
}

fn no_entry(request: &Request, key: Key, entry: u32, entries: &[Entry]) -> String {
    let s = if entries.len() == 1 { "" } else { "s" };
    let answer = format!("the answer of {} has {} transfer{s}, counted from 1", words_of(key), entries.len());
    format!("{}: there is no entry {entry}: {answer} (B6)", request.place.of("entry"))
}

/// Returns a sentence about the first number of the state that cannot be written. If none is found, the
/// sentence is about the state.
fn not_writable(key: Key, question: &Question, entry: &Entry) -> String {
    let names = ["x of r1", "y of r1", "z of r1", "x of v1", "y of v1", "z of v1"];
    let mut numbers = names.into_iter().zip(question.r1.iter().chain(&entry.v1));
    let what = match numbers.find(|(_, value)| value.is_nan() || value.abs() >= LIMIT) {
        None => "a number of its departure state".into(),
        Some((name, value)) => format!("{name} is {}, which", number(*value)),
    };
    format!(
        "{}: {what} is not finite or not below 10^7 in size, so no orbit message can hold it; \
         the answer still has the transfer (B7)",
        words_of(key)
    )
}
