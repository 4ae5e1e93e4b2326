//! Where the records of each job on a board came from. The proved board alone decides what it holds; what is kept here only
//! explains its conflicts. It is at most two records for each job on the board.

use crate::wire::slots::{filled, revision_of, Held};
use crate::wire::u32_at;
use std::collections::BTreeMap;

#[derive(Clone, Copy, Debug, PartialEq)]
pub enum Place {
    /// A slot of the stored board, counted from 1.
    Stored { slot: usize },
    /// An input, by its position in the list of inputs, and the byte at which the record begins.
    Input { number: usize, byte: u64 },
}

/// A record and the place at which it was first found.
#[derive(Debug, PartialEq)]
pub struct Kept {
    pub place: Place,
    pub bytes: Vec<u8>,
}

/// The origin of what a board holds for a job.
#[derive(Debug, Default, PartialEq)]
pub struct Origin {
    pub revision: u32,
    /// The slot of the stored board that was in conflict already. Its records are not known.
    pub conflict_in: Option<usize>,
    /// The first two different records of the revision.
    pub records: Vec<Kept>,
    /// How many more records of the revision came that differ from both. Equal ones among them are counted each time.
    pub more: u64,
}

#[derive(Default)]
pub struct Origins(BTreeMap<u32, Origin>);

impl Origins {
    /// Returns the origins of a stored board.
    pub fn stored(board: &[u8]) -> Origins {
        let slots = filled(board).map(|slot| {
            let mut origin = Origin { revision: slot.revision, ..Origin::default() };
            if slot.held == Held::Conflict {
                origin.conflict_in = Some(slot.slot);
            } else {
                origin
                    .records
                    .push(Kept { place: Place::Stored { slot: slot.slot }, bytes: slot.bytes.into() });
            }
            (slot.job, origin)
        });
        Origins(slots.collect())
    }

    /// Notes a record that the board has taken. Only a record of the revision that the board now holds for the job counts.
    pub fn note(&mut self, board: &[u8], place: Place, record: &[u8]) {
        let (job, revision) = (u32_at(record, 6), u32_at(record, 10));
        if revision_of(board, job) != Some(revision) {
            return;
        }
        let origin = self.0.entry(job).or_default();
        if origin.revision != revision {
            *origin = Origin { revision, ..Origin::default() };
        }
        if origin.records.iter().any(|kept| kept.bytes == record) {
            return;
        }
        if origin.records.len() < 2 {
            origin.records.push(Kept { place, bytes: record.into() });
        } else {
            origin.more += 1;
        }
    }

    pub fn of(&self, job: u32) -> Option<&Origin> {
        self.0.get(&job)
    }
}

#[cfg(test)]
mod tests;
