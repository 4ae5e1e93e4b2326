//! Questions with one byte replaced.

use super::Slot;
use crate::random::Random;
use crate::wire::{Question, FLOATS, QUESTION_SIZE};

/// Replaces one random byte: half of the time one of the head, else any byte.
pub fn one_byte(q: &Question, r: &mut Random) -> Slot {
    let mut bytes = q.write();
    let range = if r.below(2) == 0 { FLOATS } else { QUESTION_SIZE };
    bytes[r.below(range as u64) as usize] = r.bits(8) as u8;
    bytes
}
