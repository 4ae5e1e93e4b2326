//! The reader of a thin link (02, A2). It takes the bytes of a stream in pieces and gives out the stream's
//! questions, one per call. It keeps the bytes after the last question and examines all of them again with
//! each piece, so its results can't depend on how the bytes were cut.

use crate::wire::{QUESTION_LENGTH, QUESTION_SIZE};

/// The state of the reader.
#[derive(Clone, Debug, PartialEq, Eq)]
pub enum Link {
    /// The bytes after the last question. They are fewer than a question has.
    Open(Vec<u8>),
    /// A length was refused. The reader keeps nothing, and takes nothing until the reset.
    Stopped,
}

/// The result of one call.
#[derive(Clone, Debug, PartialEq, Eq)]
pub enum Came {
    /// All bytes of a question. Only its length has been checked.
    Question(Vec<u8>),
    /// No question is finished.
    Nothing,
    /// Number 1: the length isn't that of a question.
    Refused,
    /// B4: the reader needs a reset.
    NeedsReset,
}

impl Link {
    pub fn new() -> Link {
        Link::Open(Vec::new())
    }

    pub fn reset(&mut self) {
        *self = Link::new();
    }

    pub fn needs_reset(&self) -> bool {
        *self == Link::Stopped
    }

    /// Returns the bytes of the unfinished question.
    pub fn kept(&self) -> &[u8] {
        match self {
            Link::Open(kept) => kept,
            Link::Stopped => &[],
        }
    }

    /// Takes bytes of the piece: up to the last byte of a question, all of them if they finish none, or none of them
    /// if a reset is needed. Returns how many bytes it took, and the result. The caller passes the rest in again.
    pub fn take(&mut self, piece: &[u8]) -> (usize, Came) {
        let Link::Open(kept) = self else { return (0, Came::NeedsReset) };
        let missing = QUESTION_SIZE - kept.len();
        let record: Vec<u8> = kept.iter().chain(piece).take(QUESTION_SIZE).copied().collect();
        let (next, taken, came) = match record.first_chunk().map(|b| u32::from_le_bytes(*b)) {
            Some(length) if length != QUESTION_LENGTH => (Link::Stopped, piece.len(), Came::Refused),
            Some(_) if record.len() == QUESTION_SIZE => (Link::new(), missing, Came::Question(record)),
            _ => (Link::Open(record), piece.len(), Came::Nothing),
        };
        *self = next;
        (taken, came)
    }

    /// Calls `take` with the piece and then with its rest, until nothing is left or a reset is needed.
    /// Returns how many bytes each call took, and its result.
    pub fn take_all(&mut self, mut piece: &[u8]) -> Vec<(usize, Came)> {
        let mut calls = Vec::new();
        loop {
            let (taken, came) = self.take(piece);
            piece = &piece[taken..];
            let last = piece.is_empty() || came == Came::NeedsReset;
            calls.push((taken, came));
            if last {
                return calls;
            }
        }
    }
}

impl Default for Link {
    fn default() -> Link {
        Link::new()
    }
}

#[cfg(test)]
mod tests;
