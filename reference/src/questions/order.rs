//! Several faults at once, so that the order of the checks decides.

use super::shapes::power;
use super::{document, Case};
use crate::entrance::ROOM;
use crate::wire::{Question, Vector};

/// Returns questions with every combination of faults in form, mu, time, revolutions and room, for
/// positions of every verdict.
pub fn faults() -> Vec<Case> {
    let mut all = Vec::new();
    for (position1, position2) in positions() {
        for choice in 0..32 {
            let base = Question { position1, position2, way: (choice % 2) as u8, ..document() };
            all.push(faulty(base, choice));
        }
    }
    all
}

/// Returns pairs of positions: one pair that is accepted, two each with numbers 2, 3 and 8, and one each
/// with numbers 9 and 10.
fn positions() -> Vec<(Vector, Vector)> {
    let near = [4.0, 0.0, 0.0];
    let far = [power(40), 0.0, 0.0];
    vec![
        (near, [0.0, 4.0, 0.0]),
        (near, [f64::NAN, 0.0, 0.0]),
        ([power(41), 0.0, 0.0], [0.0, 0.0, 0.0]),
        ([0.5, 0.0, 0.0], near),
        (near, [power(40), power(40), 0.0]),
        (near, near),
        (near, [8.0, 0.0, 0.0]),
        (near, [4.0, power(-10), 0.0]),
        ([1.0, power(-12), 0.0], far),
    ]
}

/// Returns the question with the faults that the bits of `choice` select.
fn faulty(base: Question, choice: u32) -> Case {
    let has = |bit: u32| choice >> bit & 1 == 1;
    let mut question = base;
    if has(0) {
        question.job = 0;
    }
    if has(1) {
        question.mu = 0.5;
    }
    if has(2) {
        question.time = f64::INFINITY;
    }
    if has(3) {
        question.revolutions = 17;
    }
    let room = if has(4) { ROOM - 1 } else { ROOM };
    Case::new(&question.write(), room as u16)
}
