//! The record that is written for a question: an answer (kind 2) or a refusal (kind 3), little-endian, with
//! the length first and then the kind.

use crate::entrance::ROOM;
use crate::solve::{solve, Entry, Refusal, VOID_NUMBER};
use crate::wire::{part, put, Question, LENGTH, QUESTION_SIZE};

pub const ANSWER_KIND: u16 = 2;
pub const REFUSED_KIND: u16 = 3;

/// The size of the part before the first entry, which is also the size of a refusal with a number other than 12;
/// the size of an entry; the size of the void station at the end of a refusal with number 12; and the size of the
/// length field, which the length doesn't count.
pub const HEAD: usize = 16;
pub const ENTRY: usize = 64;
pub const STATION: usize = 6;
pub const LENGTH_SIZE: usize = 4;

/// The fields of a record. The outcome is the entries of an answer or a refusal.
#[derive(Clone, Debug, PartialEq)]
pub struct Record {
    pub job: u32,
    pub revision: u32,
    pub outcome: Result<Vec<Entry>, Refusal>,
}

impl Record {
    /// Returns the record for a slot. With number 1, its job and revision are 0.
    pub fn reply(slot: &[u8]) -> Record {
        let outcome = solve(slot, ROOM);
        let (job, revision) = match (Question::read(slot), &outcome) {
            (None, _) | (_, Err(Refusal::Number(1))) => (0, 0),
            (Some(q), _) => (q.job, q.revision),
        };
        Record { job, revision, outcome }
    }

    pub fn write(&self) -> Vec<u8> {
        let (kind, last, rest) = match &self.outcome {
            Ok(entries) => {
                (ANSWER_KIND, entries.len() as u16, entries.iter().flat_map(write_entry).collect())
            }
            Err(refusal) => (REFUSED_KIND, refusal.number(), write_station(refusal)),
        };
        let mut bytes = vec![0; LENGTH_SIZE];
        bytes.extend(kind.to_le_bytes());
        bytes.extend(self.job.to_le_bytes());
        bytes.extend(self.revision.to_le_bytes());
        bytes.extend(last.to_le_bytes());
        bytes.extend(rest);
        let length = (bytes.len() - LENGTH_SIZE) as u32;
        put(&mut bytes, LENGTH, &length.to_le_bytes());
        bytes
    }

    /// Reads the fields of `bytes`. Returns None if they aren't a record.
    pub fn read(bytes: &[u8]) -> Option<Record> {
        let (head, rest) = bytes.split_at_checked(HEAD)?;
        let length = u32::from_le_bytes(part(head, LENGTH));
        let (kind, last) = (u16::from_le_bytes(part(head, 4)), u16::from_le_bytes(part(head, 14)));
        let outcome = match kind {
            ANSWER_KIND if rest.len() == ENTRY * usize::from(last) => {
                Ok(rest.chunks_exact(ENTRY).map(read_entry).collect())
            }
            REFUSED_KIND => Err(read_refusal(last, rest)?),
            _ => return None,
        };
        let (job, revision) = (u32::from_le_bytes(part(head, 6)), u32::from_le_bytes(part(head, 10)));
        (length as usize == bytes.len() - LENGTH_SIZE).then_some(Record { job, revision, outcome })
    }
}

/// Returns the j and the reason at the end of a refusal with number 12. Other refusals have nothing there.
fn write_station(refusal: &Refusal) -> Vec<u8> {
    match refusal {
        Refusal::Number(_) => vec![],
        Refusal::Void { j, reason } => [&j.to_le_bytes()[..], &reason.to_le_bytes()].concat(),
    }
}

/// Reads a refusal, given its number and the bytes after it. Returns None if they aren't as many as the number demands.
fn read_refusal(number: u16, rest: &[u8]) -> Option<Refusal> {
    match (number, rest.len()) {
        (VOID_NUMBER, STATION) => {
            let (j, reason) = (i32::from_le_bytes(part(rest, 0)), u16::from_le_bytes(part(rest, 4)));
            Some(Refusal::Void { j, reason })
        }
        (VOID_NUMBER, _) => None,
        (_, 0) => Some(Refusal::Number(number)),
        _ => None,
    }
}

fn write_entry(e: &Entry) -> Vec<u8> {
    let mut bytes = e.lower.to_le_bytes().to_vec();
    bytes.extend(e.halvings.to_le_bytes());
    bytes.extend(u32::from(e.upper_chosen).to_le_bytes());
    e.velocities.concat().iter().for_each(|x| bytes.extend(x.to_le_bytes()));
    bytes
}

fn read_entry(bytes: &[u8]) -> Entry {
    let float = |i: usize| f64::from_le_bytes(part(bytes, HEAD + 8 * i));
    Entry {
        lower: i64::from_le_bytes(part(bytes, 0)),
        halvings: u32::from_le_bytes(part(bytes, 8)),
        upper_chosen: u32::from_le_bytes(part(bytes, 12)) != 0,
        velocities: [[float(0), float(1), float(2)], [float(3), float(4), float(5)]],
    }
}

/// Returns the records for all slots of the input. The last slot may be short.
pub fn replies(input: &[u8]) -> impl Iterator<Item = Vec<u8>> + '_ {
    input.chunks(QUESTION_SIZE).map(|slot| Record::reply(slot).write())
}

/// Splits the bytes into records by their lengths. If the last bytes are too short for their length, they
/// form the last part.
pub fn split(mut bytes: &[u8]) -> Vec<&[u8]> {
    let mut all = Vec::new();
    while !bytes.is_empty() {
        let length = bytes.first_chunk().map_or(u32::MAX, |b| u32::from_le_bytes(*b));
        let size = (length as usize).saturating_add(LENGTH_SIZE).min(bytes.len());
        let (record, rest) = bytes.split_at(size);
        all.push(record);
        bytes = rest;
    }
    all
}

#[cfg(test)]
mod tests;
