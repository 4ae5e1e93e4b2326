//! The streams of the list end in every way, bad lengths are bad, and faulty questions have the right
//! length and the expected fault.

use super::*;
use crate::link::{Came, Link};
use crate::links::questions;
use crate::links::tests::due;
use crate::record::Record;
use crate::solve::Refusal;
use crate::wire::{part, LENGTH};
use std::collections::BTreeSet;

/// Unfinished questions of every size, every part of a bad length, and every bad length occur. Bad lengths
/// occur both at the beginning of a stream and after questions.
#[test]
fn endings_of_every_sort() {
    let (mut kept, mut parts, mut refused) = (BTreeSet::new(), BTreeSet::new(), BTreeSet::new());
    let (mut later, mut behind) = ([0; 2], [0; 3]);
    for stream in list() {
        let (came, link) = due(&stream);
        let asked = came.iter().filter(|came| **came != Came::Refused).count();
        let last = &stream[QUESTION_SIZE * asked..];
        if link.needs_reset() {
            refused.insert(u32::from_le_bytes(part(last, LENGTH)));
            later[usize::from(asked > 0)] += 1;
            behind[(last.len() / QUESTION_SIZE).min(2)] += 1;
        } else {
            kept.insert(last.len());
            parts.extend((last.len() < 4).then(|| last.to_vec()));
        }
    }
    println!("bad lengths: {}, first and later {later:?}, before records {behind:?}", refused.len());
    assert!(kept.into_iter().eq(0..QUESTION_SIZE));
    for length in BAD {
        assert!(refused.contains(&length), "{length}");
        assert!((1..4).all(|size| parts.contains(&length.to_le_bytes()[..size])), "{length}");
    }
    assert!(later.iter().all(|&n| n > 30) && behind.iter().all(|&n| n > 20));
}

#[test]
fn bad_lengths_are_bad() {
    let mut r = Random::new(1);
    assert!((0..10_000).all(|_| bad_length(&mut r) != QUESTION_LENGTH));
    assert!(!BAD.contains(&QUESTION_LENGTH));
}

#[test]
fn questions_have_the_right_length() {
    let mut r = Random::new(2);
    let faulty = faulty(&mut r);
    let number = |q: &Vec<u8>| Record::reply(q).outcome.err().map(Refusal::number);
    let numbers: Vec<_> = faulty.iter().map(number).collect();
    assert!(numbers[..10].iter().all(|number| *number == Some(1)), "{numbers:?}");
    assert_eq!(numbers[10..], [6, 2, 2, 4, 5].map(Some));
    for q in [faulty, wild(&mut r), vec![good(&mut r)]].concat() {
        assert_eq!(due(&q), (vec![Came::Question(q)], Link::new()));
    }
    assert_eq!(questions::questions(3, &mut r).len(), 3 * QUESTION_SIZE);
}
