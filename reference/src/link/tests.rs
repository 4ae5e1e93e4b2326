//! Tests each rule of the reader (02, A2) on examples.

use super::*;
use crate::questions::{document, earth};
use crate::wire::{with, Question, JOB, KIND, LENGTH};

fn question() -> Vec<u8> {
    earth().write().to_vec()
}

fn lengthened(length: u32) -> Vec<u8> {
    with(&question(), LENGTH, &length.to_le_bytes())
}

/// Returns a reader that has taken the given pieces.
fn after(pieces: &[&[u8]]) -> Link {
    let mut link = Link::new();
    pieces.iter().for_each(|piece| {
        link.take_all(piece);
    });
    link
}

/// Returns a reader that has refused a length.
fn stopped() -> Link {
    after(&[&lengthened(77)])
}

#[test]
fn one_question_a_call_and_the_rest_again() {
    let (first, second) = (document().write().to_vec(), question());
    let stream = [&first[..], &second, &first[..9]].concat();
    let mut link = Link::new();
    assert_eq!(link.take(&stream), (82, Came::Question(first.clone())));
    assert_eq!(link.take(&stream[82..]), (82, Came::Question(second)));
    assert_eq!(link.take(&stream[164..]), (9, Came::Nothing));
    assert_eq!(link, Link::Open(first[..9].to_vec()));
}

#[test]
fn no_byte_is_taken_behind_a_question() {
    for before in 0..82 {
        let mut link = after(&[&question()[..before]]);
        assert_eq!(link.kept(), &question()[..before]);
        let piece = [&question()[before..], &[0xFF; 200]].concat();
        assert_eq!(link.take(&piece), (82 - before, Came::Question(question())));
        assert_eq!(link, Link::new());
    }
}

#[test]
fn a_piece_of_no_bytes() {
    for kept in 0..82 {
        let mut link = after(&[&question()[..kept]]);
        let before = link.clone();
        assert_eq!(link.take(&[]), (0, Came::Nothing));
        assert_eq!(link, before);
    }
}

#[test]
fn a_length_is_judged_once_its_four_bytes_are_in() {
    let wrong = lengthened(u32::MAX);
    for before in 0..4 {
        for more in 0..80 {
            let mut link = after(&[&wrong[..before]]);
            assert_eq!(link.kept(), &wrong[..before]);
            let piece = &wrong[before..before + more];
            let told = if before + more < 4 { Came::Nothing } else { Came::Refused };
            assert_eq!(link.take(piece), (more, told));
            assert_eq!(link.needs_reset(), before + more >= 4);
        }
    }
}

#[test]
fn every_other_length_is_refused() {
    let near = (0..300).chain(u32::MAX - 300..=u32::MAX);
    let bits = (0..32).map(|bit| QUESTION_LENGTH ^ 1 << bit);
    let orders = [QUESTION_LENGTH.swap_bytes(), QUESTION_LENGTH << 8, QUESTION_LENGTH << 16];
    for length in near.chain(bits).chain(orders).filter(|&length| length != QUESTION_LENGTH) {
        assert_eq!(Link::new().take(&lengthened(length)), (82, Came::Refused), "{length}");
    }
}

/// The dropped bytes include records that would be good questions on their own.
#[test]
fn the_rest_of_a_refused_piece_is_dropped() {
    let piece = [&question()[..], &lengthened(79), &question(), &question()].concat();
    let mut link = Link::new();
    let told = link.take_all(&piece);
    assert_eq!(told, [(82, Came::Question(question())), (246, Came::Refused)]);
    assert_eq!((link.kept(), link.needs_reset()), (&[][..], true));
}

#[test]
fn after_a_refusal_nothing_is_taken_until_the_reset() {
    let mut link = stopped();
    for piece in [&question()[..], &[], &[1], &lengthened(0), &[0; 4000]] {
        assert_eq!(link.take(piece), (0, Came::NeedsReset));
        assert_eq!(link.take_all(piece), [(0, Came::NeedsReset)]);
        assert_eq!(link, stopped());
    }
    link.reset();
    assert_eq!(link, Link::new());
    assert_eq!(link.take(&question()), (82, Came::Question(question())));
}

#[test]
fn a_reset_forgets_what_is_unfinished() {
    let mut link = after(&[&question()[..40]]);
    link.reset();
    assert_eq!(link, Link::new());
}

#[test]
fn other_faults_are_given_out() {
    let fields = with(&with(&question(), KIND, &[9, 9]), JOB, &[0; 4]);
    let wild: Vec<u8> = (0..82).map(|i| if i < 4 { question()[i] } else { 0xFF }).collect();
    let wrong = Question { way: 2, spare: 3, revolutions: 99, mu: f64::NAN, ..earth() }.write().to_vec();
    for bytes in [fields, wild, wrong] {
        assert_eq!(Link::new().take(&bytes), (82, Came::Question(bytes)));
    }
}

#[test]
fn calls_of_a_piece() {
    let two = [question(), question()].concat();
    let came = (82, Came::Question(question()));
    assert_eq!(Link::new().take_all(&two), [came.clone(), came.clone()]);
    assert_eq!(Link::new().take_all(&two[..90]), [came, (8, Came::Nothing)]);
    assert_eq!(Link::new().take_all(&[]), [(0, Came::Nothing)]);
}
