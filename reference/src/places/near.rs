//! Lambdas close to −1 with x below 0. There the terms 1 + L and x·η of C1 cancel, so that roots of numbers
//! just below zero and divisors of zero occur.

use super::Place;
use crate::random::Random;
use crate::time::{LOWEST, MOST_TURNS};

pub fn places(r: &mut Random) -> Vec<Place> {
    (0..3000).map(|i| place(i, r)).collect()
}

/// Draws a place. 1 + L is drawn from one to two times a power of two, for each power from 2^-53 to 2^-12
/// in turn. x is drawn from −1 to 0, often close to an end.
pub fn place(i: u32, r: &mut Random) -> Place {
    let gap = 2f64.powi(-53 + (i % 42) as i32) * (1.0 + r.fraction());
    let k = match r.below(3) {
        0 => LOWEST + r.bits(24) as i64,
        1 => -(r.bits(1 + i % 32) as i64),
        _ => LOWEST + r.below(LOWEST.unsigned_abs()) as i64,
    };
    let m = if r.below(2) == 0 { 0 } else { r.below(u64::from(MOST_TURNS) + 1) as u16 };
    Place::new(gap - 1.0, k.max(LOWEST), m)
}
