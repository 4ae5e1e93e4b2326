//! Questions in pieces get the same answers as in slots, and the streams end as they should.

use super::*;
use crate::link::Came;
use crate::links::tests::due;
use crate::links::{answer, records};
use crate::record::{replies, split, Record};
use crate::solve::Refusal;
use std::collections::{BTreeMap, BTreeSet};

/// Returns the bytes of the stream that the pieces of an input contain.
fn stream_of(mut input: &[u8]) -> Vec<u8> {
    let mut stream = Vec::new();
    while let [low, high, rest @ ..] = input {
        let size = rest.len().min(usize::from(*low) + 256 * usize::from(*high));
        stream.extend(&rest[..size]);
        input = &rest[size..];
    }
    stream
}

/// Returns how many questions of the stream are given out, whether a part of one is kept, and whether a length is refused.
fn end(stream: &[u8]) -> (usize, bool, bool) {
    let (came, link) = due(stream);
    let asked = came.iter().filter(|came| **came != Came::Refused).count();
    (asked, !link.kept().is_empty(), link.needs_reset())
}

/// The program writes a record for each question, then number 1, and nothing more.
#[test]
fn the_list_of_pieces() {
    let (pieces, records) = (pieces(), records());
    let stream = stream_of(&pieces);
    let (asked, _, stopped) = end(&stream);
    assert!(stopped && stream.len() > (asked + 4) * QUESTION_SIZE);
    let number_1 = Record { job: 0, revision: 0, outcome: Err(Refusal::Number(1)) }.write();
    let expected: Vec<Vec<u8>> = replies(&stream[..asked * QUESTION_SIZE]).chain([number_1]).collect();
    assert!(records == expected.concat());
    let mut kinds = BTreeMap::new();
    for record in split(&records) {
        let outcome = Record::read(record).unwrap().outcome;
        let kind = outcome.map(|entries| entries.len()).map_err(Refusal::number);
        *kinds.entry(kind).or_insert(0) += 1;
    }
    println!("{} bytes, {asked} questions: {kinds:?}", pieces.len());
    assert!((140..180).contains(&asked));
    assert!([1, 2].iter().all(|&entries| kinds[&Ok(entries)] >= 15));
    assert!([1, 2, 3, 4, 5, 6, 8, 9, 10, 11].iter().all(|&number| kinds.contains_key(&Err(number))));
}

/// A piece that is cut short contains a whole question, a part of one, a bad length, or no bytes.
#[test]
fn fresh_pieces_end_by_the_seed() {
    let mut short = BTreeSet::new();
    for seed in 0..40 {
        let input: Vec<u8> = random_pieces(3, seed).flatten().collect();
        let ended = end(&stream_of(&input));
        match seed % 4 {
            0 => assert_eq!(ended, (3, false, false)),
            1 => assert_eq!(ended, (3, true, false)),
            2 => assert_eq!(ended, (3, false, true)),
            _ => {
                short.insert(ended);
            }
        }
        let (asked, kept, stopped) = ended;
        assert_eq!(split(&answer(&input)).len(), asked + usize::from(kept || stopped));
    }
    assert!(short.into_iter().eq([(3, false, false), (3, false, true), (3, true, false), (4, false, false)]));
}

#[test]
fn fresh_pieces_of_no_questions() {
    let input: Vec<u8> = random_pieces(0, 8).flatten().collect();
    assert_eq!(answer(&input), []);
}

#[test]
fn every_list_is_the_same() {
    assert!(pieces() == pieces());
    assert!(random_pieces(5, 7).eq(random_pieces(5, 7)) && !random_pieces(5, 7).eq(random_pieces(5, 11)));
}
