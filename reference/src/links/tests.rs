//! However a stream is cut, its outcome is the same, and the lines contain every kind of result.

use super::*;
use crate::link::{Came, Link};
use crate::wire::{part, QUESTION_SIZE};
use std::collections::BTreeMap;

/// The questions and refusals of a stream in their order, except B4, and the state at its end.
type Outcome = (Vec<Came>, Link);

/// Returns the outcome of a stream in the given pieces.
fn outcome(pieces: &[Vec<u8>]) -> Outcome {
    let mut link = Link::new();
    let calls: Vec<(usize, Came)> = pieces.iter().flat_map(|piece| link.take_all(piece)).collect();
    let told = |came: &Came| matches!(came, Came::Question(_) | Came::Refused);
    (calls.into_iter().map(|(_, came)| came).filter(told).collect(), link)
}

/// Returns the outcome that a stream must have, computed without pieces: its records are 82 bytes apart.
pub(super) fn due(stream: &[u8]) -> Outcome {
    let mut came = Vec::new();
    for record in stream.chunks(QUESTION_SIZE) {
        if record.len() >= 4 && u32::from_le_bytes(part(record, 0)) != 78 {
            came.push(Came::Refused);
            return (came, Link::Stopped);
        }
        if record.len() < QUESTION_SIZE {
            return (came, Link::Open(record.to_vec()));
        }
        came.push(Came::Question(record.to_vec()));
    }
    (came, Link::new())
}

#[test]
fn every_cutting_gives_the_same() {
    let mut r = Random::new(1);
    let fresh: Vec<Vec<u8>> = (0..2000).map(|_| streams::fresh(&mut r)).collect();
    for stream in streams::list().iter().chain(&fresh) {
        let outcomes = cuttings(stream, &mut r).map(|pieces| outcome(&pieces));
        assert!(outcomes.iter().all(|other| *other == outcomes[0]), "{stream:?}");
        assert_eq!(outcomes[0], due(stream));
    }
}

/// Cuts a stream at every two positions into three pieces, with and without empty ones between them.
#[test]
fn every_two_places_give_the_same() {
    let mut r = Random::new(2);
    let asked = questions::questions(2, &mut r);
    for end in [streams::unfinished(20, &mut r), streams::refused(79, 1, &mut r), vec![78, 0, 1]] {
        let stream = [&asked[..], &end].concat();
        let due = due(&stream);
        for second in 0..=stream.len() {
            for first in 0..=second {
                let [a, b, c] = [0..first, first..second, second..stream.len()].map(|at| stream[at].to_vec());
                assert_eq!(outcome(&[a.clone(), b.clone(), c.clone()]), due);
                assert_eq!(outcome(&[a, vec![], b, vec![], c]), due);
            }
        }
    }
}

/// Returns the bytes of a line's questions, the number of its refusals, and the state at its end.
fn told_of(line: &str) -> (Vec<&str>, usize, &str) {
    let (calls, state) = line.split_once(' ').unwrap();
    let questions = calls.split('=').skip(1).map(|told| &told[..11 * 16]);
    (questions.collect(), calls.matches('R').count(), state)
}

#[test]
fn lines_of_one_stream_agree() {
    let lines = lines();
    for of_one in lines.lines().collect::<Vec<_>>().chunks(5) {
        assert!(of_one.iter().all(|line| told_of(line) == told_of(of_one[0])), "{of_one:?}");
    }
}

/// Counts the letters of the calls.
fn tally(lines: &str) -> BTreeMap<char, usize> {
    let mut counts = BTreeMap::new();
    lines.chars().filter(|c| "QNRB".contains(*c)).for_each(|c| *counts.entry(c).or_default() += 1);
    counts
}

#[test]
fn every_outcome_in_a_small_file() {
    let (frames, lines) = (frames(), lines());
    let (streams, counts) = (streams::list().len(), tally(&lines));
    println!("{} bytes, {streams} streams: {counts:?}, {} bytes", frames.len(), lines.len());
    assert!(frames.len() < 400_000 && (280..320).contains(&streams));
    assert_eq!(lines.lines().count(), 5 * streams);
    assert!("QNRB".chars().all(|c| counts[&c] >= 300), "{counts:?}");
    assert!(lines.contains("N0") && lines.contains("R1B0") && lines.contains("B0 "));
}

#[test]
fn fresh_streams_differ_by_seed() {
    let all: Vec<Vec<u8>> = random(60, 5).collect();
    assert!(random(60, 5).eq(all.iter().cloned()));
    assert!(random(60, 6).filter(|frames| all.contains(frames)).count() < 10);
    let counts = tally(&told(&all.concat()).unwrap());
    assert!("QNRB".chars().all(|c| counts[&c] >= 60), "{counts:?}");
}

#[test]
fn every_list_is_the_same() {
    assert!(frames() == frames());
}
