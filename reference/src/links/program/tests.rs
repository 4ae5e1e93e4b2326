//! Tests each rule of the program at the end of a link on examples.

use super::*;
use crate::questions::{document, earth};
use crate::record::replies;
use crate::wire::{with, Question, LENGTH};

/// Returns the input that consists of the given pieces.
fn input(pieces: &[&[u8]]) -> Vec<u8> {
    pieces.iter().flat_map(|piece| [&(piece.len() as u16).to_le_bytes()[..], piece].concat()).collect()
}

/// Returns 01's worked question and its record.
fn asked() -> (Vec<u8>, Vec<u8>) {
    (document().write().to_vec(), vec![0x0C, 0, 0, 0, 3, 0, 7, 0, 0, 0, 2, 0, 0, 0, 0x0B, 0])
}

const NUMBER_1: [u8; 16] = [0x0C, 0, 0, 0, 3, 0, 0, 0, 0, 0, 0, 0, 0, 0, 1, 0];

#[test]
fn nothing_for_nothing() {
    for bytes in [&[][..], &[5], &[0, 0], &[0, 0, 0, 0, 0], &[5, 0], &[0xFF, 0xFF]] {
        assert_eq!(answer(bytes), []);
    }
}

#[test]
fn a_record_for_each_question_however_cut() {
    let (q, record) = asked();
    let expected = [&record[..], &record].concat();
    let stream = [&q[..], &q].concat();
    assert_eq!(answer(&input(&[&stream])), expected);
    for at in 0..=stream.len() {
        let (first, second) = stream.split_at(at);
        assert_eq!(answer(&input(&[&[], first, &[], second, &[]])), expected);
    }
}

#[test]
fn other_faults_are_the_solver_s() {
    let (job, kind) = (Question { job: 0, ..earth() }, Question { kind: 5, ..earth() });
    let (turns, pull) = (Question { revolutions: 17, ..earth() }, Question { mu: 0.5, ..earth() });
    let stream = [job, kind, turns, pull].map(|q| q.write()).concat();
    let told: Vec<u8> = replies(&stream).flatten().collect();
    assert_eq!(answer(&input(&[&stream])), told);
    assert_eq!((&told[14..16], &told[46..48], &told[62..64]), (&[1, 0][..], &[6, 0][..], &[4, 0][..]));
}

#[test]
fn a_refused_length_is_the_last_that_is_written() {
    let (q, record) = asked();
    let wrong = with(&q, LENGTH, &79u32.to_le_bytes());
    let expected = [&record[..], &NUMBER_1].concat();
    let stream = [&q[..], &wrong].concat();
    let further: [&[&[u8]]; 4] = [&[], &[&q], &[&[], &q[..9]], &[&wrong]];
    for behind in further.map(input) {
        for pieces in [input(&[&stream]), input(&[&stream[..85], &wrong[3..4]])] {
            assert_eq!(answer(&[&pieces[..], &behind].concat()), expected);
        }
    }
}

#[test]
fn an_unfinished_question_at_the_end() {
    let (q, record) = asked();
    for size in 1..82 {
        let expected = [&record[..], &NUMBER_1].concat();
        assert_eq!(answer(&input(&[&q, &q[..size]])), expected);
        assert_eq!(answer(&input(&[&q, &q[..size], &[]])), expected);
    }
}

#[test]
fn the_end_of_the_input_within_a_piece() {
    let (q, record) = asked();
    let sized = |size: u16, came: &[u8]| [&size.to_le_bytes()[..], came].concat();
    assert_eq!(answer(&sized(83, &q)), record);
    assert_eq!(answer(&sized(u16::MAX, &[&q[..], &q].concat())), [&record[..], &record].concat());
    assert_eq!(answer(&sized(82, &q[..81])), NUMBER_1);
    assert_eq!(answer(&sized(5, &[79, 0, 0, 0])), NUMBER_1);
    assert_eq!(answer(&sized(5, &[79])), NUMBER_1);
}

/// A single byte in place of a size isn't a piece, whatever the reader keeps.
#[test]
fn the_end_of_the_input_within_a_size() {
    let (q, record) = asked();
    assert_eq!(answer(&[input(&[&q]), vec![1]].concat()), record);
    assert_eq!(answer(&[input(&[&q[..81]]), vec![q[81]]].concat()), NUMBER_1);
}

#[test]
fn pieces_of_any_size() {
    let (q, record) = asked();
    let stream = q.repeat(1000);
    let pieces: Vec<&[u8]> = stream.chunks(u16::MAX.into()).collect();
    assert_eq!(answer(&input(&pieces)), record.repeat(1000));
}
