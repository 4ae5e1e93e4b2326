//! The records that a board takes: answers and refusals, judged by their bytes alone. Two records are the
//! same only if their bytes are equal. Their floats are never compared as floats.

use crate::record::{Record, ENTRY, HEAD};
use crate::wire::part;

/// An answer has 1 to 8 entries, and a refusal has a number from 1 to 14. With number 12 it has a void station, whose
/// j and reason may have any values.
pub const MOST_ENTRIES: usize = 8;
pub const LAST_NUMBER: u16 = 14;

/// The offset in a record of an answer's number of entries or of a refusal's number, and the offset in an
/// entry of its chosen end, a u32 that is 0 for the lower end and 1 for the upper.
pub const COUNT: usize = 14;
pub const CHOSEN: usize = 12;

#[derive(Clone, Debug, PartialEq, Eq)]
pub struct Message {
    pub job: u32,
    pub revision: u32,
    pub bytes: Vec<u8>,
}

impl Message {
    /// Reads a record's bytes. Returns None if they are malformed (02, A1).
    pub fn read(bytes: &[u8]) -> Option<Message> {
        let Record { job, revision, outcome } = Record::read(bytes)?;
        let in_force = match outcome {
            Ok(entries) => (1..=MOST_ENTRIES).contains(&entries.len()) && ends_are_in_force(&bytes[HEAD..]),
            Err(refusal) => (1..=LAST_NUMBER).contains(&refusal.number()),
        };
        in_force.then(|| Message { job, revision, bytes: bytes.to_vec() })
    }
}

/// Reports whether the chosen end of each entry is 0 or 1.
fn ends_are_in_force(entries: &[u8]) -> bool {
    entries.chunks(ENTRY).all(|entry| u32::from_le_bytes(part(entry, CHOSEN)) <= 1)
}

#[cfg(test)]
mod tests;
