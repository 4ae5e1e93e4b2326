//! Reads the slots of a well-formed board: what each slot holds for its job.

use super::{u16_at, u32_at, Outcome, Record, ROOM};

pub const SLOTS: usize = 64;
/// The size of a board in bytes. Each slot has room for the longest record.
pub const BOARD: usize = SLOTS * ROOM;

const CONFLICT_KIND: u16 = 4;

#[derive(Debug, PartialEq)]
pub enum Held {
    Conflict,
    Outcome(Outcome),
    /// A well-formed answer that the solver cannot have written: the number of its entries, and what is wrong with them.
    Foreign(u16, String),
}

#[derive(Debug, PartialEq)]
pub struct Filled<'a> {
    /// The number of the slot, counted from 1.
    pub slot: usize,
    pub job: u32,
    pub revision: u32,
    /// The bytes of the record or of the conflict, without the zeros after them.
    pub bytes: &'a [u8],
    pub held: Held,
}

/// Returns the filled slots of a board. A free slot is all zeros.
pub fn filled(board: &[u8]) -> impl Iterator<Item = Filled<'_>> {
    used(board).map(|(slot, bytes)| {
        let (job, revision) = (u32_at(bytes, 6), u32_at(bytes, 10));
        Filled { slot, job, revision, bytes, held: held(bytes) }
    })
}

/// Returns the revision that a board holds for a job.
pub fn revision_of(board: &[u8], job: u32) -> Option<u32> {
    used(board).find(|(_, bytes)| u32_at(bytes, 6) == job).map(|(_, bytes)| u32_at(bytes, 10))
}

/// Returns the number and the bytes of each filled slot.
fn used(board: &[u8]) -> impl Iterator<Item = (usize, &[u8])> {
    let slots = board.chunks(ROOM).enumerate().map(|(i, slot)| (i + 1, slot, u32_at(slot, 0) as usize));
    slots.filter(|(.., length)| *length != 0).map(|(number, slot, length)| (number, &slot[..4 + length]))
}

/// Returns what the bytes of a well-formed record or conflict hold.
pub fn held(bytes: &[u8]) -> Held {
    if u16_at(bytes, 4) == CONFLICT_KIND {
        return Held::Conflict;
    }
    match Record::read(bytes) {
        Ok(record) => Held::Outcome(record.outcome),
        Err((_, words)) => Held::Foreign(u16_at(bytes, 14), words),
    }
}
