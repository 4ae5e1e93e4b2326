//! Writes the departure state of one entry of an answer as an orbit message.

use super::lines::lines;
use super::text::is_text;
use super::{Decimal, BETWEEN, NUMBER_KEYS, TEXT_KEYS, VERSION, VERSION_KEY};
use super::{BAD_ANSWER, BAD_STATE, BAD_TEXT, NO_ENTRY, SHORT_BUFFER};
use crate::message::Message;
use crate::record::Record;
use crate::solve::Entry;
use crate::wire::Vector;

/// Writes the orbit message of an entry, counted from 1, to the beginning of `out` and returns its size. The
/// eight texts stand in `texts` as lines, each ended by LF. A refusal is returned as the number after its B,
/// and leaves `out` unchanged.
pub fn write(answer: &[u8], entry: u64, r1: Vector, texts: &[u8], out: &mut [u8]) -> Result<usize, u8> {
    let entries = entries(answer).ok_or(BAD_ANSWER)?;
    let texts = legal_texts(texts).ok_or(BAD_TEXT)?;
    let entry = nth(&entries, entry).ok_or(NO_ENTRY)?;
    let numbers = state(r1, entry.velocities[0]).ok_or(BAD_STATE)?;
    let message = message(&texts, &numbers);
    let place = out.get_mut(..message.len()).ok_or(SHORT_BUFFER)?;
    place.copy_from_slice(&message);
    Ok(message.len())
}

/// Returns the entries of an answer. Returns None if the record is malformed (02, A1) or a refusal. Any job
/// is allowed.
fn entries(answer: &[u8]) -> Option<Vec<Entry>> {
    Message::read(answer)?;
    Record::read(answer)?.outcome.ok()
}

fn legal_texts(bytes: &[u8]) -> Option<[&[u8]; TEXT_KEYS.len()]> {
    lines(bytes).filter(|texts| texts.iter().all(|text| is_text(text)))
}

/// Returns the entry with a number counted from 1.
fn nth(entries: &[Entry], number: u64) -> Option<&Entry> {
    entries.get(usize::try_from(number.checked_sub(1)?).ok()?)
}

/// Returns the six rounded numbers. Returns None if one of them is out of range.
fn state(r1: Vector, v1: Vector) -> Option<Vec<Decimal>> {
    r1.into_iter().chain(v1).map(Decimal::nearest).collect()
}

fn message(texts: &[&[u8]], numbers: &[Decimal]) -> Vec<u8> {
    let mut bytes = line(VERSION_KEY, VERSION.as_bytes());
    TEXT_KEYS.iter().zip(texts).for_each(|(key, text)| bytes.extend(line(key, text)));
    NUMBER_KEYS.iter().zip(numbers).for_each(|(key, n)| bytes.extend(line(key, n.to_string().as_bytes())));
    bytes
}

fn line(key: &str, value: &[u8]) -> Vec<u8> {
    [key.as_bytes(), BETWEEN.as_bytes(), value, b"\n"].concat()
}

#[cfg(test)]
mod tests;
