//! Questions with the right length and any contents after it.

use crate::random::{pick, Random};
use crate::record::LENGTH_SIZE;
use crate::solver::missions;
use crate::wire::{put_float, with, QUESTION_LENGTH, QUESTION_SIZE};
use crate::wire::{JOB, KIND, MU, REVOLUTIONS, SPARE, TIME, WAY};

/// The number of bytes after the length.
const BEHIND: usize = QUESTION_SIZE - LENGTH_SIZE;

/// Draws a good question in most cases, else one with another fault or with arbitrary bytes.
pub fn question(r: &mut Random) -> Vec<u8> {
    match r.below(6) {
        0 => pick(&faulty(r), r),
        1 => pick(&wild(r), r),
        _ => good(r),
    }
}

/// Returns `n` questions, one after another.
pub fn questions(n: u64, r: &mut Random) -> Vec<u8> {
    (0..n).flat_map(|_| question(r)).collect()
}

/// Draws a question as missions ask it.
pub fn good(r: &mut Random) -> Vec<u8> {
    missions(1, r.word()).flatten().collect()
}

/// Returns a question with each fault of a field other than the length, one at a time.
pub fn faulty(r: &mut Random) -> Vec<Vec<u8>> {
    let base = good(r);
    let kinds = [0, 2, 3, 4, 5, 257, 0x0100].map(|kind: u16| with(&base, KIND, &kind.to_le_bytes()));
    let float = |i: usize, value: f64| {
        let mut other = base.clone();
        put_float(&mut other, i, value.to_bits());
        other
    };
    let mut all = kinds.to_vec();
    all.extend([(JOB, &[0; 4][..]), (WAY, &[2]), (SPARE, &[1])].map(|(at, field)| with(&base, at, field)));
    all.push(with(&base, REVOLUTIONS, &17u16.to_le_bytes()));
    all.extend([(0, f64::NAN), (3, f64::INFINITY), (MU, 0.5), (TIME, -1.0)].map(|(i, x)| float(i, x)));
    all
}

/// Returns arbitrary bytes after a right length: random ones, one byte repeated, and the bytes of a right
/// length repeated, starting with each of them.
pub fn wild(r: &mut Random) -> Vec<Vec<u8>> {
    let length = QUESTION_LENGTH.to_le_bytes();
    let mut behind: Vec<Vec<u8>> = vec![(0..BEHIND).map(|_| r.bits(8) as u8).collect()];
    behind.extend([0, 0xFF, length[0]].map(|b| vec![b; BEHIND]));
    for shift in 0..length.len() {
        let bytes = length.iter().cycle().skip(shift);
        behind.push(bytes.take(BEHIND).copied().collect());
    }
    behind.iter().map(|bytes| [&length[..], bytes].concat()).collect()
}
