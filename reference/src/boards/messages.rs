//! Well-formed records. Most are refusals with few different numbers, so that equal records for a job occur often.

use super::pick;
use crate::message::{Message, COUNT, LAST_NUMBER, MOST_ENTRIES};
use crate::random::Random;
use crate::record::{Record, HEAD, LENGTH_SIZE, REFUSED_KIND, STATION};
use crate::solve::{Entry, Refusal, VOID_NUMBER};
use crate::wire::{part, put, JOB, KIND, LENGTH};

/// Returns a refusal in most cases, because it is short. Otherwise returns an answer, mostly with one or two entries.
pub fn message(job: u32, revision: u32, r: &mut Random) -> Vec<u8> {
    match r.below(12) {
        0 => answer(job, revision, 1 + r.below(MOST_ENTRIES as u64) as usize, r),
        1 | 2 => answer(job, revision, 1 + r.below(2) as usize, r),
        _ => refusal(job, revision, r),
    }
}

/// Returns a refusal. Half of the time its number is drawn from 1 to 3, else from all numbers.
pub fn refusal(job: u32, revision: u32, r: &mut Random) -> Vec<u8> {
    let numbers = if r.below(2) == 0 { 3 } else { u64::from(LAST_NUMBER) };
    let outcome = Err(Refusal::Number(1 + r.below(numbers) as u16));
    with_station(Record { job, revision, outcome }.write())
}

/// Adds the void station that number 12 needs. Its bytes are those of the job and of the revision, so that equal
/// records for a job occur often. Records without number 12 are returned unchanged.
fn with_station(mut record: Vec<u8>) -> Vec<u8> {
    if has_number_12(&record) {
        record.extend_from_within(JOB..JOB + STATION);
        sized(record)
    } else {
        record
    }
}

/// Takes the void station away from a refusal with number 12, which is then malformed. Other records are returned
/// unchanged.
pub fn without_station(mut record: Vec<u8>) -> Vec<u8> {
    if has_number_12(&record) {
        record.truncate(HEAD);
        sized(record)
    } else {
        record
    }
}

fn has_number_12(record: &[u8]) -> bool {
    let [kind, number] = [KIND, COUNT].map(|at| u16::from_le_bytes(part(record, at)));
    (kind, number) == (REFUSED_KIND, VOID_NUMBER)
}

/// Returns the record with the length of its size.
fn sized(mut record: Vec<u8>) -> Vec<u8> {
    let length = (record.len() - LENGTH_SIZE) as u32;
    put(&mut record, LENGTH, &length.to_le_bytes());
    record
}

/// Returns an answer with `n` entries of random values.
pub fn answer(job: u32, revision: u32, n: usize, r: &mut Random) -> Vec<u8> {
    let mut float = || f64::from_bits(r.word());
    let floats: Vec<_> = (0..n).map(|_| [(); 2].map(|()| [(); 3].map(|()| float()))).collect();
    let entry = |velocities| Entry {
        lower: r.bits(36) as i64 - (1 << 35),
        halvings: r.below(21) as u32,
        upper_chosen: r.below(2) == 1,
        velocities,
    };
    Record { job, revision, outcome: Ok(floats.into_iter().map(entry).collect()) }.write()
}

/// Returns the record with another number, if it is a refusal, or with one byte of its entries changed. It is still
/// well-formed.
pub fn variant(record: &[u8], r: &mut Random) -> Vec<u8> {
    loop {
        let mut other = without_station(record.to_vec());
        let last = (HEAD - 2) as u64;
        let at = last + r.below(other.len() as u64 - last);
        other[at as usize] ^= pick(&[1, 1, 2, 4, 0x80, 0xFF], r);
        let other = with_station(other);
        if Message::read(&other).is_some() {
            return other;
        }
    }
}
