//! The streams on which the readers of a link are compared: a fixed list, and any number of random ones.
//! Each stream is cut into pieces in several ways, and the lines for these ways follow each other.

mod cuttings;
mod pieces;
mod program;
mod questions;
mod steps;
mod streams;

use crate::random::Random;
use cuttings::cuttings;
use steps::Step;

pub use pieces::{pieces, random_pieces};
pub use program::answer;
pub use steps::lines as told;

/// Returns the frames of every stream of the fixed list, cut in every way.
pub fn frames() -> Vec<u8> {
    let mut r = Random::new(23);
    streams::list().iter().flat_map(|stream| framed(stream, &mut r)).collect()
}

/// Returns the reports on these frames, one line for each way of cutting a stream.
pub fn lines() -> String {
    told(&frames()).expect("the frames are steps")
}

/// Returns the frames of `n` random streams, each cut in every way.
pub fn random(n: u64, seed: u64) -> impl Iterator<Item = Vec<u8>> {
    let mut r = Random::new(seed);
    (0..n).map(move |_| framed(&streams::fresh(&mut r), &mut r))
}

/// Returns the records that answer the fixed list of pieces.
pub fn records() -> Vec<u8> {
    answer(&pieces())
}

/// Returns the frames of a stream's cuttings, each followed by an end.
fn framed(stream: &[u8], r: &mut Random) -> Vec<u8> {
    let steps = |cutting: Vec<Vec<u8>>| cutting.into_iter().map(Step::Piece).chain([Step::End]);
    cuttings(stream, r).into_iter().flat_map(steps).flat_map(|step| step.frame()).collect()
}

#[cfg(test)]
mod tests;
