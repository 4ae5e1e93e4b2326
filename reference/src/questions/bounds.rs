//! The limits of the whole-number fields, of the size and of the room.

use super::{document, earth, Case};
use crate::entrance::ROOM;
use crate::random::Random;
use crate::wire::{put, Question, JOB, KIND, LENGTH, QUESTION_SIZE, REVISION, REVOLUTIONS, SPARE, WAY};

/// Returns each field of the head at its limits, and with numbers that reveal a byte that is left out or swapped.
pub fn fields() -> Vec<Case> {
    let mut edits: Vec<(usize, Vec<u8>)> = Vec::new();
    for v in [0, 1, 77, 78, 79, 82, 78 << 8, 78 << 24, 78 | 1 << 8, 78 | 1 << 16, 78 | 1 << 31, u32::MAX] {
        edits.push((LENGTH, v.to_le_bytes().into()));
    }
    for v in [0u16, 1, 2, 3, 1 << 8, 1 | 1 << 8, u16::MAX] {
        edits.push((KIND, v.to_le_bytes().into()));
    }
    for v in [0u32, 1, 1 << 8, 1 << 16, 1 << 24, 1 << 31, u32::MAX] {
        edits.push((JOB, v.to_le_bytes().into()));
        edits.push((REVISION, v.to_le_bytes().into()));
    }
    for v in (0..=34u16).chain([255, 256, 257, 16 << 8, 17 << 8, 1 << 15, u16::MAX]) {
        edits.push((REVOLUTIONS, v.to_le_bytes().into()));
    }
    for v in [0u8, 1, 2, 3, 127, 128, 255] {
        edits.push((WAY, vec![v]));
        edits.push((SPARE, vec![v]));
    }
    let bases = [document(), earth()];
    bases.iter().flat_map(|base| edits.iter().map(|(at, field)| edited(base, *at, field))).collect()
}

fn edited(base: &Question, at: usize, field: &[u8]) -> Case {
    let mut bytes = base.write();
    put(&mut bytes, at, field);
    Case::new(&bytes, ROOM as u16)
}

/// Returns a valid question of every size up to 120 bytes: cut short, or followed by zeros or by random bytes.
pub fn sizes(r: &mut Random) -> Vec<Case> {
    let mut all = Vec::new();
    for size in 0..=super::LONGEST {
        let mut bytes = document().write().to_vec();
        bytes.resize(size, 0);
        all.push(Case::new(&bytes, ROOM as u16));
        bytes.iter_mut().skip(QUESTION_SIZE).for_each(|b| *b = r.bits(8) as u8);
        all.push(Case::new(&bytes, r.bits(16) as u16));
    }
    all
}

/// Returns valid questions, and the same ones with 17 and 65535 revolutions, for rooms at and around the limits.
pub fn rooms(sound: &[Question]) -> Vec<Case> {
    let mut all = Vec::new();
    for base in sound.iter().take(8) {
        for room in [0, 1, 16, 80, 82, 255, 256, 512, 527, 528, 529, 783, 784, 1040, 32768, 65535] {
            for revolutions in [base.revolutions, 17, 65535] {
                all.push(Case::new(&Question { revolutions, ..*base }.write(), room));
            }
        }
    }
    all
}
