//! Ways to cut the bytes of a stream into pieces.

use crate::random::{pick, Random};
use crate::wire::QUESTION_SIZE;

pub type Cutting = Vec<Vec<u8>>;

/// Cuts the stream in five ways: into single bytes, into one piece, into small pieces, into larger pieces,
/// and near the ends of the questions.
pub fn cuttings(stream: &[u8], r: &mut Random) -> [Cutting; 5] {
    let single = stream.chunks(1).map(<[u8]>::to_vec).collect();
    let whole = vec![stream.to_vec()];
    [single, whole, sized(stream, small, r), sized(stream, larger, r), at_ends(stream, r)]
}

/// Cuts the stream into pieces of random sizes, and adds up to two empty pieces at the end.
pub fn sized(mut stream: &[u8], size: fn(&mut Random) -> usize, r: &mut Random) -> Cutting {
    let mut pieces = Vec::new();
    while !stream.is_empty() {
        let (piece, rest) = stream.split_at(size(r).min(stream.len()));
        pieces.push(piece.to_vec());
        stream = rest;
    }
    pieces.extend((0..r.below(3)).map(|_| Vec::new()));
    pieces
}

/// Draws a size from 1 to 24, or 0 one time in five.
fn small(r: &mut Random) -> usize {
    match r.below(5) {
        0 => 0,
        _ => 1 + r.below(24) as usize,
    }
}

/// Draws a size from 0 to a limit of 1, 60, 100 or 300.
pub fn larger(r: &mut Random) -> usize {
    let most = pick(&[1, 60, 100, 300, 300], r);
    r.below(most + 1) as usize
}

/// Cuts the stream at random points from one byte before to five bytes after the end of a question. These
/// points include every position within the next length, which has four bytes.
fn at_ends(stream: &[u8], r: &mut Random) -> Cutting {
    let mut from = 0;
    let near = |&at: &usize| (at + 1) % QUESTION_SIZE < 7;
    let ends: Vec<usize> = (0..stream.len()).filter(near).filter(|_| r.below(2) == 0).collect();
    let piece = |end: usize| stream[std::mem::replace(&mut from, end)..end].to_vec();
    ends.into_iter().chain([stream.len()]).map(piece).collect()
}

#[cfg(test)]
mod tests;
