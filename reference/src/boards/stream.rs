//! One stream of records for the program that keeps a board. The records follow each other without gaps.
//! Even a malformed record has a length that matches its size.

use super::malformed;
use super::meetings::shuffled;
use super::messages::{answer, message, refusal, variant, without_station};
use super::void_stations;
use crate::board::{post, SIZE, SLOT};
use crate::message::MOST_ENTRIES;
use crate::random::Random;
use crate::record::{split, LENGTH_SIZE};

const JOBS: u32 = 40;

/// A revision above the others of the same job. The answers that fill their slots have it, so that the
/// board holds some of them at the end.
const HIGHEST: u32 = 5;

/// Returns the records of the stream: two or three for each job, some of them in conflict, mixed with
/// records that the board refuses. Of these, refusals with number 12 lack their void station. Then come records with and
/// without void stations.
pub fn records() -> Vec<u8> {
    let mut r = Random::new(21);
    let mut all = Vec::new();
    for i in 1..=JOBS {
        let (job, revision) = (i * 0x0101, r.below(3) as u32);
        let first = match i % 8 {
            0 => answer(job, HIGHEST, MOST_ENTRIES, &mut r),
            _ => message(job, revision, &mut r),
        };
        all.push(message(job, revision + r.below(3) as u32, &mut r));
        if i % 3 == 0 {
            all.push(variant(&first, &mut r));
        }
        all.push(first);
    }
    let mut all: Vec<Vec<u8>> = all.into_iter().map(without_station).collect();
    all.extend(unfit(&mut r));
    let first = shuffled(all, &mut r);
    let then = void_stations::stream(&mut r).into_iter().filter(|record| is_framed(record)).collect();
    [first, shuffled(then, &mut r)].concat().concat()
}

/// Reports whether the record has the length of its size and is no longer than a slot.
fn is_framed(record: &[u8]) -> bool {
    let length = record.first_chunk().map(|b| u32::from_le_bytes(*b) as usize);
    length.is_some_and(|length| length + LENGTH_SIZE == record.len() && record.len() <= SLOT)
}

/// Returns malformed records whose length matches their size, and records for job 0.
fn unfit(r: &mut Random) -> Vec<Vec<u8>> {
    let (short, long) = (refusal(0x0505, 9, r), answer(0x0808, 9, 2, r));
    let mut all = [malformed::faults(&short, r), malformed::faults(&long, r)].concat();
    all.retain(|record| is_framed(record));
    all.extend([malformed::nobody(&short), malformed::nobody(&long)]);
    all
}

/// Returns the board after the stream.
pub fn board() -> Vec<u8> {
    let mut bytes = vec![0; SIZE];
    for record in split(&records()) {
        // A refusal changes nothing.
        let _ = post(&mut bytes, record);
    }
    bytes
}
