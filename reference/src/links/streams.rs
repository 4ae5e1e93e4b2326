//! Streams of bytes from one reset to the next: questions one after another, then possibly an unfinished
//! question, a bad length with anything after it, or a part of a bad length.

use super::questions::{faulty, good, question, questions, wild};
use crate::random::{pick, Random};
use crate::record::LENGTH_SIZE;
use crate::wire::{QUESTION_LENGTH, QUESTION_SIZE};

/// Bad lengths: the least and the greatest, ones near a question's, ones of other records, a question's
/// with one more bit, with its bytes moved, and with all bits flipped.
pub const BAD: [u32; 14] = [
    0,
    12,
    QUESTION_LENGTH - 1,
    QUESTION_LENGTH + 1,
    82,
    102,
    QUESTION_LENGTH + (1 << 8),
    QUESTION_LENGTH + (1 << 16),
    QUESTION_LENGTH + (1 << 24),
    QUESTION_LENGTH << 8,
    QUESTION_LENGTH << 16,
    QUESTION_LENGTH << 24,
    u32::MAX - QUESTION_LENGTH,
    u32::MAX,
];

/// Returns the streams of the fixed list.
pub fn list() -> Vec<Vec<u8>> {
    let mut r = Random::new(22);
    let mut all = vec![vec![]];
    all.extend(
        (1..QUESTION_SIZE).map(|size| [questions(r.below(2), &mut r), unfinished(size, &mut r)].concat()),
    );
    for length in BAD {
        let cut = (1..4).map(|size| length.to_le_bytes()[..size].to_vec());
        all.extend(cut.map(|part| [questions(r.below(2), &mut r), part].concat()));
        for more in 0..4 {
            all.push([questions(r.below(3), &mut r), refused(length, more, &mut r)].concat());
        }
    }
    let faults = [faulty(&mut r), wild(&mut r)].concat();
    all.extend(faults.chunks(2).map(<[_]>::concat));
    all.extend((0..12).map(|_| noise(&mut r)));
    all.extend((0..96).map(|_| fresh(&mut r)));
    all
}

/// Draws a stream: in most cases up to four questions and an ending, else up to eleven questions and an
/// ending, random bytes, or nothing.
pub fn fresh(r: &mut Random) -> Vec<u8> {
    let before = match r.below(20) {
        0 => return Vec::new(),
        1 => return noise(r),
        2 => r.below(12),
        _ => r.below(5),
    };
    [questions(before, r), ending(r)].concat()
}

/// Draws the bytes after a stream's last question.
fn ending(r: &mut Random) -> Vec<u8> {
    let (size, length) = (r.below(QUESTION_SIZE as u64) as usize, bad_length(r));
    match r.below(8) {
        0 => Vec::new(),
        1 => length.to_le_bytes()[..1 + size % 3].to_vec(),
        2..=4 => unfinished(size, r),
        _ => refused(length, r.below(4), r),
    }
}

/// Draws a question and returns its first `size` bytes.
pub fn unfinished(size: usize, r: &mut Random) -> Vec<u8> {
    question(r)[..size].to_vec()
}

/// Returns a bad length and the bytes after it. `more` chooses these: nothing, a few bytes, a good
/// question, or questions that begin where they would if the bad length were a question's.
pub fn refused(length: u32, more: u64, r: &mut Random) -> Vec<u8> {
    let few = 1 + r.below(9) as usize;
    let behind = match more {
        0 => Vec::new(),
        1 => unfinished(few, r),
        2 => good(r),
        _ => [&good(r)[LENGTH_SIZE..], &questions(1 + r.below(2), r), &good(r)[..few]].concat(),
    };
    [&length.to_le_bytes()[..], &behind].concat()
}

/// Draws a length from `BAD`, a question's length with one byte changed, or any length other than a question's.
pub fn bad_length(r: &mut Random) -> u32 {
    let (byte, place) = (1 + r.below(255) as u32, 8 * r.below(4));
    match r.below(4) {
        0 => QUESTION_LENGTH ^ (1 + r.below(u64::from(u32::MAX)) as u32),
        1 => QUESTION_LENGTH ^ byte << place,
        _ => pick(&BAD, r),
    }
}

/// Draws random bytes, sometimes fewer than a length has.
fn noise(r: &mut Random) -> Vec<u8> {
    let most = pick(&[8, 200], r);
    (0..r.below(most)).map(|_| r.bits(8) as u8).collect()
}

#[cfg(test)]
mod tests;
