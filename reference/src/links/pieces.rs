//! Pieces for the program at the end of a link: one fixed stream, and random ones with every kind of ending.

use super::cuttings::{larger, sized, Cutting};
use super::questions::good;
use super::streams::{bad_length, refused, unfinished};
use crate::random::{pick, Random};
use crate::solver;
use crate::wire::{part, LENGTH, QUESTION_LENGTH, QUESTION_SIZE};

/// Only every seventh question of the solver's list is taken. The list cycles through the eight kinds of
/// flights, so with a step of seven each kind has its turn.
const APART: usize = 7;

/// Returns the fixed stream in framed pieces: questions of every sort, then a bad length, then further pieces.
pub fn pieces() -> Vec<u8> {
    let mut r = Random::new(24);
    let all = solver::slots().into_iter().filter(of_a_length).step_by(APART);
    let stopped = [all.flatten().collect(), refused(QUESTION_LENGTH + 1, 2, &mut r)].concat();
    let behind: Vec<u8> = (0..3).flat_map(|_| good(&mut r)).collect();
    [cut(&stopped, &mut r), cut(&behind, &mut r)].concat().iter().flat_map(|piece| framed(piece)).collect()
}

/// Reports whether the length is that of a question. Any other length would end the stream.
fn of_a_length(slot: &[u8; QUESTION_SIZE]) -> bool {
    u32::from_le_bytes(part(slot, LENGTH)) == QUESTION_LENGTH
}

/// Returns a random stream of `n` questions in framed pieces. The seed determines its ending: the last
/// question, an unfinished question, a bad length with further pieces after it, or a piece that is cut short.
pub fn random_pieces(n: u64, seed: u64) -> impl Iterator<Item = Vec<u8>> {
    let mut r = Random::new(seed);
    let drawn = solver::random(u64::MAX, r.word()).filter(of_a_length).take(n as usize);
    let asked: Vec<u8> = drawn.flatten().collect();
    let begun = unfinished(1 + r.below(QUESTION_SIZE as u64 - 1) as usize, &mut r);
    let stop = refused(bad_length(&mut r), r.below(4), &mut r);
    let further = good(&mut r);
    let (cutting, last) = match seed % 4 {
        0 => (cut(&asked, &mut r), lone(&mut r)),
        1 => (cut(&[asked, begun].concat(), &mut r), lone(&mut r)),
        2 => {
            let stopped = cut(&[asked, stop].concat(), &mut r);
            ([stopped, cut(&further, &mut r)].concat(), lone(&mut r))
        }
        _ => {
            let came = pick(&[vec![], begun, further, stop], &mut r);
            (cut(&asked, &mut r), cut_short(&came, &mut r))
        }
    };
    cutting.into_iter().map(|piece| framed(&piece)).chain([last])
}

/// Cuts the stream into pieces as a radio delivers them, with a rare one that holds many questions.
fn cut(stream: &[u8], r: &mut Random) -> Cutting {
    let size = |r: &mut Random| match r.below(24) {
        0 => r.below(5000) as usize,
        _ => larger(r),
    };
    sized(stream, size, r)
}

fn framed(piece: &[u8]) -> Vec<u8> {
    frame(piece.len(), piece)
}

/// Frames a piece of which only the given bytes arrived.
fn cut_short(came: &[u8], r: &mut Random) -> Vec<u8> {
    let missing = 1 + pick(&[0, r.below(300), r.below(60_000)], r) as usize;
    frame(came.len() + missing, came)
}

/// Returns the size of a piece as a u16, little-endian, and the bytes of it that arrived.
fn frame(size: usize, came: &[u8]) -> Vec<u8> {
    [&(size as u16).to_le_bytes()[..], came].concat()
}

/// Returns a single byte, which is half of a size and not a piece, or nothing.
fn lone(r: &mut Random) -> Vec<u8> {
    (0..r.below(2)).map(|_| r.bits(8) as u8).collect()
}

#[cfg(test)]
mod tests;
