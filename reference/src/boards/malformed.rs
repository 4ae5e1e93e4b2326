//! Records that every board refuses, made from well-formed ones.

use super::messages::answer;
use super::pick;
use super::steps::LONGEST;
use crate::board::conflict;
use crate::message::{Message, CHOSEN, COUNT};
use crate::questions::document;
use crate::random::Random;
use crate::record::{ANSWER_KIND, ENTRY, HEAD, LENGTH_SIZE, REFUSED_KIND};
use crate::wire::{part, put, with, JOB, KIND, LENGTH, REVISION};

/// Returns the record with one random fault. If only its size is changed, the new size may happen to be the
/// record's own, and then the record has no fault.
pub fn any(record: &[u8], r: &mut Random) -> Vec<u8> {
    let size = r.below(600) as usize;
    match r.below(8) {
        0 => nobody(record),
        1 => resized(record, size, r),
        2 => agreed(record, size, r),
        _ => pick(&faults(record, r), r),
    }
}

/// Returns malformed records made from a well-formed one: each fault of a field or of the size, one at a
/// time; one fault together with job 0; and a conflict and a question, which can't be posted. Versions that
/// happen to be well-formed are left out.
pub fn faults(record: &[u8], r: &mut Random) -> Vec<Vec<u8>> {
    let kinds = [0, 1, 4, 5, 255, 0x0102, 0x0103, 0x0200, 0x0300].map(u16::to_le_bytes);
    let numbers = [0, 9, 15, 16, 255, 256, 257, 0x0B00, u16::MAX].map(u16::to_le_bytes);
    let mut all = lengths(record);
    all.extend(kinds.map(|kind| with(record, KIND, &kind)));
    all.push(other_kind(record));
    all.extend(numbers.map(|number| with(record, COUNT, &number)));
    all.extend(chosen_ends(record));
    all.extend(counts(record, r));
    for size in [0, 1, 3, 4, 5, 6, 14, 15, 17, record.len() - 1, record.len() + 1, record.len() + ENTRY] {
        all.push(resized(record, size, r));
        all.push(agreed(record, size, r));
    }
    let [job, revision] = [JOB, REVISION].map(|at| u32::from_le_bytes(part(record, at)));
    all.extend([conflict(job, revision), document().write().to_vec()]);
    all.push(nobody(&with(record, COUNT, &99u16.to_le_bytes())));
    all.retain(|bytes| Message::read(bytes).is_none());
    all
}

/// Returns the record with job 0. It is well-formed, but the board refuses it (B2).
pub fn nobody(record: &[u8]) -> Vec<u8> {
    with(record, JOB, &[0; 4])
}

/// Returns the record with lengths that don't match its size.
fn lengths(record: &[u8]) -> Vec<Vec<u8>> {
    let own = u32::from_le_bytes(part(record, LENGTH));
    let near = [own - 1, own + 1, own - 4, own + 4, own + 64, own << 8, own << 24 | own, own | 1 << 16];
    let all = [&near[..], &[0, 10, 14, u32::MAX]].concat();
    all.iter().map(|length| with(record, LENGTH, &length.to_le_bytes())).collect()
}

/// Returns an answer marked as a refusal, or a refusal marked as an answer.
fn other_kind(record: &[u8]) -> Vec<u8> {
    let kind = u16::from_le_bytes(part(record, KIND));
    let other = if kind == ANSWER_KIND { REFUSED_KIND } else { ANSWER_KIND };
    with(record, KIND, &other.to_le_bytes())
}

/// Returns versions of the record in which the chosen end of one entry is above 1. Every entry and every
/// byte of the field is used.
fn chosen_ends(record: &[u8]) -> Vec<Vec<u8>> {
    let ends = [2u32, 3, 0x100, 0x1_0000, 0x100_0000, u32::MAX].map(u32::to_le_bytes);
    let entries = 0..(record.len() - HEAD) / ENTRY;
    entries.flat_map(|i| ends.map(|end| with(record, HEAD + ENTRY * i + CHOSEN, &end))).collect()
}

/// Returns answers whose number of entries is out of range or doesn't match their size.
fn counts(record: &[u8], r: &mut Random) -> Vec<Vec<u8>> {
    let n = 1 + r.below(8) as u16;
    let shapes = [(0, 0), (9, 9), (n, n + 1), (n, n - 1), (n, n + 256)];
    let shaped = |(entries, told): (u16, u16)| {
        let other = with(&answer(1, 1, entries.into(), r), JOB, &part::<8>(record, JOB));
        with(&other, COUNT, &told.to_le_bytes())
    };
    shapes.map(shaped).into()
}

/// Returns the record cut or lengthened to a size, at most `LONGEST`. The added bytes are either all zeros or all A5.
pub fn resized(record: &[u8], size: usize, r: &mut Random) -> Vec<u8> {
    let fill = pick(&[0, 0xA5], r);
    let mut bytes = record.to_vec();
    bytes.resize(size.min(LONGEST), fill);
    bytes
}

/// Returns the record resized in the same way, with a length that matches the new size if there is room for a length.
pub fn agreed(record: &[u8], size: usize, r: &mut Random) -> Vec<u8> {
    let mut bytes = resized(record, size, r);
    if let Some(length) = bytes.len().checked_sub(LENGTH_SIZE) {
        put(&mut bytes, LENGTH, &(length as u32).to_le_bytes());
    }
    bytes
}
