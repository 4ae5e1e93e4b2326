//! The steps that the compared program performs, and its reports.

use crate::link::{Came, Link};

/// Each step begins with a u16 command, little-endian: the size of the piece that follows, up to `LONGEST`, or `END`.
pub const LONGEST: usize = 4096;
const END: u16 = 0xFFFF;

#[derive(Clone, Debug, PartialEq, Eq)]
pub enum Step {
    /// Pass in a piece.
    Piece(Vec<u8>),
    /// End the stream: report the state, and reset the reader.
    End,
}

impl Step {
    pub fn frame(&self) -> Vec<u8> {
        match self {
            Step::Piece(piece) => [&(piece.len() as u16).to_le_bytes()[..], piece].concat(),
            Step::End => END.to_le_bytes().to_vec(),
        }
    }

    /// Reads the step at the beginning of the bytes and advances the bytes past it. Returns None if there is no valid step.
    fn read(bytes: &mut &[u8]) -> Option<Step> {
        let (command, rest) = bytes.split_first_chunk()?;
        let (step, rest) = match u16::from_le_bytes(*command) {
            END => (Step::End, rest),
            size if usize::from(size) <= LONGEST => {
                let (piece, rest) = rest.split_at_checked(size.into())?;
                (Step::Piece(piece.to_vec()), rest)
            }
            _ => return None,
        };
        *bytes = rest;
        Some(step)
    }
}

/// Performs all steps of a file and returns their reports, one line for each end. Returns None if the bytes
/// aren't valid steps.
pub fn lines(mut frames: &[u8]) -> Option<String> {
    let (mut link, mut told) = (Link::new(), String::new());
    while !frames.is_empty() {
        match Step::read(&mut frames)? {
            Step::Piece(piece) => told.extend(link.take_all(&piece).iter().map(call)),
            Step::End => {
                told += &state(&link);
                link.reset();
            }
        }
    }
    Some(told)
}

/// Reports a call: a letter, the number of bytes taken, and the bytes of a question.
fn call((taken, came): &(usize, Came)) -> String {
    match came {
        Came::Question(bytes) => format!("Q{taken}={}", words(bytes)),
        Came::Nothing => format!("N{taken}"),
        Came::Refused => format!("R{taken}"),
        Came::NeedsReset => format!("B{taken}"),
    }
}

/// Reports the state: the number of kept bytes, the bytes themselves, and a mark if a reset is needed.
fn state(link: &Link) -> String {
    let mark = if link.needs_reset() { "!" } else { "" };
    format!(" K{}={}{mark}\n", link.kept().len(), words(link.kept()))
}

/// Writes the bytes as hexadecimal words of eight bytes each, little-endian, with the last word padded with zeros.
fn words(bytes: &[u8]) -> String {
    let word = |part: &[u8]| part.iter().rev().fold(0, |word, byte| word << 8 | u64::from(*byte));
    bytes.chunks(8).map(|part| format!("{:016x}", word(part))).collect()
}

#[cfg(test)]
mod tests;
