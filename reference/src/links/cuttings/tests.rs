//! The pieces of every cutting are the stream's own bytes, and they end where they should.

use super::*;
use crate::links::questions::questions;
use std::collections::BTreeSet;

/// The last cutting cuts one byte before the end of a question, at it, and up to five bytes after it, so at
/// every byte of a length. Some pieces are empty.
#[test]
fn cuttings_of_every_sort() {
    let mut r = Random::new(1);
    let stream = questions(3, &mut r);
    let mut ends = BTreeSet::new();
    let mut empty = [0; 5];
    for _ in 0..100 {
        let all = cuttings(&stream, &mut r);
        assert!(all.iter().all(|cutting| cutting.concat() == stream));
        assert!(all[0].len() == stream.len() && all[1].len() == 1);
        assert!(all[2].iter().all(|piece| piece.len() <= 24));
        assert!(all[3].iter().any(|piece| piece.len() > 24));
        all[4].iter().fold(0, |at, piece| {
            ends.insert((at + piece.len()) % QUESTION_SIZE);
            at + piece.len()
        });
        for (count, cutting) in empty.iter_mut().zip(&all) {
            *count += cutting.iter().filter(|piece| piece.is_empty()).count();
        }
    }
    println!("empty pieces: {empty:?}");
    assert!(ends.into_iter().eq([0, 1, 2, 3, 4, 5, 81]));
    assert!(empty[2] > 300 && empty[3] > 100 && empty[4] > 20);
}

#[test]
fn a_stream_of_no_bytes() {
    let all = cuttings(&[], &mut Random::new(2));
    assert!(all.iter().flatten().all(Vec::is_empty));
    assert_eq!((all[0].len(), all[1].len()), (0, 1));
}
