//! What an input holds if it does not hold records.

use crate::expected::{is_board_alone, other, Content};
use crate::stop::Stop;
use crate::streams::Input;
use crate::wire::slots::BOARD;
use std::io::{self, Cursor, Read};

/// Returns a sentence that says what an input holds, if it plainly does not hold records.
pub fn other_content(input: &mut Input) -> Result<Option<&'static str>, Stop> {
    if let Some(words) = other(input, Content::Records)? {
        return Ok(Some(words));
    }
    Ok(is_board_alone(&beginning(input))
        .then_some("is a board, not records: '--board FILE' starts from a board"))
}

/// Returns the message for an input that has no bytes. Nothing is missing on the board then, but a user may expect records in it.
pub fn empty(name: &str, is_standard_input: bool) -> String {
    let why = if is_standard_input { ": did the command before it work?" } else { "" };
    format!("{name}: has no records{why}")
}

/// Returns the beginning of an input, one byte more than a board. It stays part of the input. If a read fails, the records
/// before the fault are not lost: the next read fails too, or goes on at the same byte.
fn beginning(input: &mut Input) -> Vec<u8> {
    let mut bytes = Vec::new();
    let _ = input.bytes.by_ref().take(BOARD as u64 + 1).read_to_end(&mut bytes);
    let rest = std::mem::replace(&mut input.bytes, Box::new(io::empty()));
    input.bytes = Box::new(Cursor::new(bytes.clone()).chain(rest));
    bytes
}

#[cfg(test)]
mod tests {
    use super::*;
    use crate::board::posting::tests::{answer, refusal};
    use crate::proved::post;

    #[test]
    fn a_board_is_told_from_records() {
        let mut board = vec![0; BOARD];
        assert!(is_board_alone(&board), "an empty board");
        post(&mut board, &refusal(1, 11));
        assert!(is_board_alone(&board));
        assert!(!is_board_alone(&board[1..]) && !is_board_alone(&[&board[..], &[0]].concat()));
        let full: Vec<u8> = (1..=64).flat_map(|job| answer(job, &[1.0; 8])).collect();
        assert!(full.len() == BOARD && !is_board_alone(&full), "64 of the longest records are records");
    }

    #[test]
    fn an_empty_input_is_named() {
        assert_eq!(empty("a", false), "a: has no records");
        let piped = "standard input: has no records: did the command before it work?";
        assert_eq!(empty("standard input", true), piped);
    }
}
