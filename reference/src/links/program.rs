//! The program at the end of a link. It reads pieces and writes the record of each question.

use crate::link::{Came, Link};
use crate::record::Record;
use crate::solve::Refusal;

/// Returns the records for an input of pieces. A refused length gets number 1, and nothing more is written
/// after it. An unfinished question at the end also gets number 1.
pub fn answer(input: &[u8]) -> Vec<u8> {
    let mut link = Link::new();
    let mut records = Vec::new();
    for (_, came) in pieces(input).into_iter().flat_map(|piece| link.take_all(piece)) {
        match came {
            Came::Question(bytes) => records.extend(Record::reply(&bytes).write()),
            Came::Nothing => {}
            Came::Refused | Came::NeedsReset => return [records, number_1()].concat(),
        }
    }
    match link.kept() {
        [] => records,
        _ => [records, number_1()].concat(),
    }
}

/// Returns the refusal of bytes that aren't a question.
fn number_1() -> Vec<u8> {
    Record { job: 0, revision: 0, outcome: Err(Refusal::Number(1)) }.write()
}

/// Splits the input into pieces. Each is a size as a u16, little-endian, and that many bytes. The last
/// piece may be cut short. A single byte at the end is half of a size and not a piece.
fn pieces(mut input: &[u8]) -> Vec<&[u8]> {
    let mut all = Vec::new();
    while let Some((size, rest)) = input.split_first_chunk() {
        let (piece, rest) = rest.split_at(rest.len().min(u16::from_le_bytes(*size).into()));
        all.push(piece);
        input = rest;
    }
    all
}

#[cfg(test)]
mod tests;
