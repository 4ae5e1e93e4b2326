//! Valid questions with damaged bytes, and random bytes.

use super::{document, enough, Case, LONGEST};
use crate::entrance::ROOM;
use crate::random::Random;
use crate::wire::{put, Question, FLOATS, QUESTION_SIZE};

/// Returns a question with each bit of the head flipped, then valid questions with one or two random bytes replaced.
pub fn damaged(sound: &[Question], r: &mut Random) -> Vec<Case> {
    let mut all = Vec::new();
    for bit in 0..8 * FLOATS {
        let mut bytes = document().write();
        bytes[bit / 8] ^= 1 << (bit % 8);
        all.push(Case::new(&bytes, ROOM as u16));
    }
    for i in 0..1600 {
        let mut bytes = sound[r.below(sound.len() as u64) as usize].write();
        for _ in 0..1 + i % 2 {
            bytes[r.below(QUESTION_SIZE as u64) as usize] = r.bits(8) as u8;
        }
        all.push(Case::new(&bytes, enough(r)));
    }
    all
}

/// Returns random bytes of any size, of the right size, and after a valid head.
pub fn noise(r: &mut Random) -> Vec<Case> {
    let mut all = Vec::new();
    for i in 0..600 {
        let size = if i < 500 { r.below(LONGEST as u64 + 1) as usize } else { QUESTION_SIZE };
        let bytes: Vec<u8> = (0..size).map(|_| r.bits(8) as u8).collect();
        all.push(Case::new(&bytes, r.bits(16) as u16));
    }
    for _ in 0..100 {
        let mut bytes = document().write();
        let floats: Vec<u8> = (FLOATS..QUESTION_SIZE).map(|_| r.bits(8) as u8).collect();
        put(&mut bytes, FLOATS, &floats);
        all.push(Case::new(&bytes, enough(r)));
    }
    all
}
