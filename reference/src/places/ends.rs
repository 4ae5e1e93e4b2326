//! The ends of every range of k and their neighbours, with every number of whole revolutions and some that are too large.

use super::Place;
use crate::time::{HIGHEST, HIGHEST_TURNING, LOWEST, PARABOLA, SPACING};

const LAMBDAS: [f64; 7] = [0.0, -0.0, 0.6, -0.6, 0.9995, -0.9995, 1.0];

pub fn places() -> Vec<Place> {
    let mut all = Vec::new();
    for lambda in LAMBDAS {
        for m in turns() {
            all.extend(ends().map(|k| Place::new(lambda, k, m)));
        }
    }
    all
}

/// Returns 0 to 17, 255, the greatest u16, and numbers that would be in the range if only their low byte were kept.
pub fn turns() -> impl Iterator<Item = u16> {
    (0..=17).chain([255, 256, 257, 0x1000, 0x8000, 0xFF00, u16::MAX])
}

/// Returns each k at which something changes, with both neighbours, and the greatest and least k. Some k far
/// outside the range would be inside it if only their low bits were kept, and others aren't exact as floats.
pub fn ends() -> impl Iterator<Item = i64> {
    let changes = [0, PARABOLA, -PARABOLA, LOWEST, HIGHEST, HIGHEST_TURNING, -HIGHEST, PARABOLA + SPACING];
    let far = [1 << 35, 1 << 53, -(1 << 53), 1 << 62, i64::MAX - 512];
    let last = [i64::MIN, i64::MIN + 1, i64::MAX - 1, i64::MAX];
    changes.into_iter().chain(far).flat_map(|k| [k - 1, k, k + 1]).chain(last)
}
