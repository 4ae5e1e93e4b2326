//! The board (02, A1). For each job it holds the record of the highest revision, or a conflict at that revision. The
//! caller lends the board as 64 slots of bytes. The code works on a map from job to what the board holds for it.

use crate::message::Message;
use crate::record::LENGTH_SIZE;
use crate::wire::{part, JOB, KIND, LENGTH, REVISION};
use std::cmp::Ordering;
use std::collections::btree_map::{BTreeMap, Entry};

pub const SLOTS: usize = 64;
pub const SLOT: usize = 528;
pub const SIZE: usize = SLOTS * SLOT;

/// A conflict in its slot consists of length, kind, job and revision. The length doesn't count its own four bytes.
pub const CONFLICT_KIND: u16 = 4;
pub const CONFLICT_LENGTH: u32 = 10;

/// The numbers of the refusals B0 to B3, in the order of the checks.
pub const BAD_BOARD: u8 = 0;
pub const MALFORMED: u8 = 1;
pub const JOB_ZERO: u8 = 2;
pub const NO_SLOT: u8 = 3;

/// What the board holds for a job: the only record of its highest revision, or a conflict if there are
/// different records of that revision.
#[derive(Clone, Debug, PartialEq, Eq)]
pub enum Held {
    Record(Message),
    Conflict { job: u32, revision: u32 },
}

impl Held {
    fn job(&self) -> u32 {
        match self {
            Held::Record(Message { job, .. }) | Held::Conflict { job, .. } => *job,
        }
    }

    fn revision(&self) -> u32 {
        match self {
            Held::Record(Message { revision, .. }) | Held::Conflict { revision, .. } => *revision,
        }
    }

    /// Returns what the board holds after one more message for the same job.
    fn after(&self, message: Message) -> Held {
        match message.revision.cmp(&self.revision()) {
            Ordering::Less => self.clone(),
            Ordering::Equal if *self == Held::Record(message.clone()) => self.clone(),
            Ordering::Equal => Held::Conflict { job: message.job, revision: message.revision },
            Ordering::Greater => Held::Record(message),
        }
    }

    /// Reads what a filled slot holds. The slot's length says how many bytes count; the bytes after them
    /// are ignored. Returns None if the slot holds neither a conflict nor a well-formed record.
    fn read(slot: &[u8]) -> Option<Held> {
        let length = u32::from_le_bytes(part(slot, LENGTH));
        let bytes = slot.get(..(length as usize).checked_add(LENGTH_SIZE)?)?;
        let kind = u16::from_le_bytes(part(slot, KIND));
        if (length, kind) == (CONFLICT_LENGTH, CONFLICT_KIND) {
            let [job, revision] = [JOB, REVISION].map(|at| u32::from_le_bytes(part(slot, at)));
            return Some(Held::Conflict { job, revision });
        }
        Message::read(bytes).map(Held::Record)
    }

    /// Returns the whole slot: the bytes that it holds, then zeros.
    fn slot(&self) -> [u8; SLOT] {
        let bytes = match self {
            Held::Record(message) => message.bytes.clone(),
            Held::Conflict { job, revision } => conflict(*job, *revision),
        };
        let mut slot = [0; SLOT];
        slot[..bytes.len()].copy_from_slice(&bytes);
        slot
    }
}

/// Returns the bytes of a conflict.
pub fn conflict(job: u32, revision: u32) -> Vec<u8> {
    let mut bytes = CONFLICT_LENGTH.to_le_bytes().to_vec();
    bytes.extend(CONFLICT_KIND.to_le_bytes());
    bytes.extend(job.to_le_bytes());
    bytes.extend(revision.to_le_bytes());
    bytes
}

/// The contents of a board: what it holds, by job.
#[derive(Clone, Debug, Default, PartialEq, Eq)]
pub struct Board(BTreeMap<u32, Held>);

impl Board {
    /// Reads a board from its bytes. Returns None unless they are 64 slots filled as the rules demand
    /// (02, A1). The order of the slots, the position of the free ones and the zeros after a record have
    /// only one valid form. So they are right exactly when writing the board gives the same bytes again.
    pub fn read(bytes: &[u8]) -> Option<Board> {
        if bytes.len() != SIZE {
            return None;
        }
        let filled = bytes.chunks_exact(SLOT).filter(|slot| slot.iter().any(|&b| b != 0));
        let held: Option<Vec<Held>> = filled.map(Held::read).collect();
        let board = Board(held?.into_iter().map(|h| (h.job(), h)).collect());
        (!board.0.contains_key(&0) && board.write() == bytes).then_some(board)
    }

    /// Returns the board's bytes: the filled slots in order of rising job number, then the free slots, all zeros.
    pub fn write(&self) -> Vec<u8> {
        let mut bytes = self.held().map(Held::slot).collect::<Vec<_>>().concat();
        bytes.resize(SIZE, 0);
        bytes
    }

    /// Returns what the board holds, in order of rising job number.
    pub fn held(&self) -> impl Iterator<Item = &Held> {
        self.0.values()
    }

    /// Posts a message. A refusal, B2 or B3, changes nothing.
    pub fn take(&mut self, message: Message) -> Result<(), u8> {
        if message.job == 0 {
            return Err(JOB_ZERO);
        }
        let full = self.0.len() == SLOTS;
        match self.0.entry(message.job) {
            Entry::Occupied(mut held) => {
                let next = held.get().after(message);
                held.insert(next);
            }
            Entry::Vacant(_) if full => return Err(NO_SLOT),
            Entry::Vacant(free) => {
                free.insert(Held::Record(message));
            }
        }
        Ok(())
    }
}

/// Posts a record to the board's bytes. A refusal is returned as the digit after its B, and leaves the bytes unchanged.
pub fn post(board: &mut [u8], record: &[u8]) -> Result<(), u8> {
    let mut held = Board::read(board).ok_or(BAD_BOARD)?;
    let message = Message::read(record).ok_or(MALFORMED)?;
    held.take(message)?;
    board.copy_from_slice(&held.write());
    Ok(())
}

#[cfg(test)]
mod tests;
